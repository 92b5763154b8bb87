#!/usr/bin/env python3
"""Payments a second by the library, and by the process: figures.py LIBNITRO.SO NITRO [FOLDER [COUNT]]

Two people pay each other in turn. A payment is one line that has it signed and one that takes it, each synced before the next.
FOLDER is on the disk that is measured. It is no part of examples/check.
"""
import json
import subprocess
import sys
import tempfile
import time

from nitro import Library

SEEDS = (32 * b"\xa1", 32 * b"\xb2")


class Process:
    """A service as a child process, with the methods of the library's."""

    def __init__(self, words, first=None):
        self.child = subprocess.Popen(words, stdin=subprocess.PIPE, stdout=subprocess.PIPE)
        self.first = self.step(first)

    def step(self, line):
        if line is not None:
            self.child.stdin.write(line + b"\n")
            self.child.stdin.flush()
        answer = b""
        while True:
            answer += self.child.stdout.readline()
            last = answer[answer.rfind(b"\n", 0, -1) + 1:]
            if last.startswith((b'{"effect":"done"', b'{"effect":"ready"', b'{"effect":"plan"', b'{"effect":"error"')):
                return answer

    def close(self):
        self.child.stdin.close()
        self.child.wait()


def line_of(do, **keys):
    return json.dumps({"do": do, **keys}).encode()


def pay(ledger, nodes, keys, count):
    """Opens a channel, and returns how many seconds so many payments take."""
    channel = {"people": keys, "nonce": 1, "app": "payment", "duration": 10}
    outcome = [{"asset": 0, "items": [[key, 1000000] for key in keys]}]
    entries, seen, letters = [], [0, 0], [[], []]

    def ask(place, line):
        for effect in map(json.loads, nodes[place].step(line).splitlines()):
            if effect["effect"] == "send":
                letters[place].append(effect["bytes"])
            elif effect["effect"] == "call":
                entries.append(json.loads(ledger.step(line_of("enter", by=place, call=effect["call"])).splitlines()[0]))

    for place in range(2):
        ask(place, line_of("open", channel=channel, outcome=outcome))
    for turn in range(16):
        place = turn % 2
        for entry in entries[seen[place]:]:
            seen[place] += 1
            ask(place, line_of("entry", **{key: entry[key] for key in ("number", "by", "op", "reply")}))
        messages, letters[1 - place] = letters[1 - place], []
        for message in messages:
            ask(place, line_of("message", bytes=message))
        ask(place, line_of("tick"))
    name = json.loads(nodes[0].step(line_of("plan")).splitlines()[0])["channels"][0]
    if letters[0]:
        ask(1, line_of("message", bytes=letters[0].pop()))
    began = time.time()
    for turn in range(count):
        place = turn % 2
        letters[place] = []
        ask(place, line_of("pay", channel=name, asset=0, amount=1))
        ask(1 - place, line_of("message", bytes=letters[place].pop()))
    return time.time() - began


def main(path, nitro, folder=None, count=400):
    library, count = Library(path), int(count)
    with tempfile.TemporaryDirectory(dir=folder) as place:
        ledger = library.ledger(place + "/a-ledger")
        nodes = [library.node("%s/a-%d" % (place, i), seed, 10) for i, seed in enumerate(SEEDS)]
        keys = [json.loads(node.first)["key"] for node in nodes]
        inside = pay(ledger, nodes, keys, count)
        starts = [line_of("start", seed=seed.hex(), h=10) for seed in SEEDS]
        children = [Process([nitro, "node", "--state", "%s/b-%d" % (place, i)], start) for i, start in enumerate(starts)]
        outside = pay(Process([nitro, "ledger", "--state", place + "/b-ledger"]), children, keys, count)
    print("%d payments: %.0f a second in this process, %.0f a second by processes"
          % (count, count / inside, count / outside))


if __name__ == "__main__":
    main(*sys.argv[1:])
