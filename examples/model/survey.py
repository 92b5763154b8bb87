#!/usr/bin/env python3
"""What random plays reach: `survey.py FIRST COUNT [--scripts] [--hubs]` prints in how many plays each stage, refusal
and reply was met, of `plays.py` or of `hubs.py`."""
import json
import sys
from collections import Counter

import hubs
import plays
from parts import OnLedger, Root
from play import Play, rules
from values import CONSENSUS


def kind_of(part):
    if isinstance(part, Root):
        return f"root {part.channel.app}"
    if isinstance(part, OnLedger):
        return "on_ledger"
    what = "ledger" if part.channel.app == CONSENSUS else "channel"
    onward = not all(name.startswith("L") for name in part.ledgers)
    return f"virtual {what}{' onward' if onward else ''} {'middle' if not part.is_end() else 'end'}"


class Survey:
    """What one play meets."""

    def __init__(self):
        self.met = set()

    def notice(self, node):
        """Notes the stages of a node that has acted."""
        for part in node.parts:
            self.met.add(f"stage {kind_of(part)} {part.stage(node)}")
            if node.exited:
                self.met.add(f"left in {kind_of(part)} {part.stage(node)}")
            if part.released:
                self.met.add(f"let go of, now {node.mode(part.channel.name)}")

    def end(self, world):
        for entry in world.adjudicator.history:
            who = "script" if entry.by == 0 else "node"
            reply = " ".join(entry.reply.words().split()[:2 if entry.reply.accepted else 3])
            self.met.add(f"entry {who} {entry.call.words().split()[0]} {reply}")
        for line in world.refused:
            self.met.add("command " + " ".join(line.split()[3:]) if "NotOpen" not in line else "command NotOpen")
        for node in world.nodes.values():
            self.met |= {it for it in node.tally if it.startswith(("message", "adopted", "spent"))}
        lines = world.tail()
        self.met |= {" ".join(line.split()[6:]) for line in lines if line.startswith("premises")}
        self.met |= {"share left at the end" for line in lines
                     if line.startswith("person") and line.split()[4] != line.split()[6]}


def survey(seed, onward=True, make=plays.make):
    found = Survey()
    script, routes = make(seed, onward)
    broken = rules.first_broken(json.dumps(script).encode())
    if broken:
        found.met.add(f"BROKEN {broken}")
        return found.met, 0, 0
    world = Play(routes, found.notice)
    for step in script["steps"]:
        world.take(step)
    found.end(world)
    found.met |= {" ".join(it) for it in hubs.answered(script["steps"], world)}
    return found.met, len(script["steps"]), sum(it.get("count", 0) for it in script["steps"])


def main(words):
    first, count = int(words[0]), int(words[1])
    make = hubs.make if "--hubs" in words else plays.make
    total, steps, rounds = Counter(), [], []
    for seed in range(first, first + count):
        met, step_count, round_count = survey(seed, "--scripts" not in words, make)
        total.update(met)
        steps.append(step_count)
        rounds.append(round_count)
    print(f"plays {count} steps {min(steps)} to {max(steps)}, {sum(steps) // count} on average;"
          f" rounds {min(rounds)} to {max(rounds)}, {sum(rounds) // count} on average")
    for what in sorted(total):
        print(f"{what}: {total[what]}")


if __name__ == "__main__":
    main(sys.argv[1:])
