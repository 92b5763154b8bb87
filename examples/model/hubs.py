#!/usr/bin/env python3
"""Random hostile plays in which people let go of channels and send again: `hubs.py SEED` prints a script as `plays.py`
does, and `hubs.py FIRST COUNT` follows the shares; with `--early` a channel may be settled from its challenge on.

After each act of a node its share is compared with what it was: it may fall by its payments alone, if its watchers
looked in time and its plan is funded. No channel that it let go of may be why it refuses, and a round later it must
have been paid what is due there. At the end all leave: each must be paid its share, if its key can still sign, and what
is held and paid must be what was deposited. Prints each fault, and how often each command was accepted.
"""
import sys
from collections import Counter
from concurrent.futures import ProcessPoolExecutor

from adjudicator import OPEN
from parts import Root
from play import play
from plays import HOSTILE, Maker, show
from premises import in_time
from worth import is_funded, share

RELEASES = {**HOSTILE, "settle": 5, "abandon": 5, "resend": 3, "lose": 4}


class HubMaker(Maker):
    """A play in which people let go of channels, and some messages are sent again."""
    words, hub = RELEASES, 0.6

    def begin(self):
        """Now and then somebody is silent in an opening, or lies, and the others let go of it."""
        plain, acts = self.acts.open, self.acts

        def opens(opening, people):
            plain(opening, people if self.chance(0.7) else acts.some(opening.people))
            if self.chance(0.3):
                self.stage.settle(self.random.randint(0, 5), acts.alter)
                if self.chance(0.5):
                    acts.let_go("abandon", True)
                else:
                    acts.give(acts.some(opening.people), "abandon", opening.channel())
        acts.open = opens
        super().begin()

    def leave(self):
        """One leaves; the others let go of what became final, and go on."""
        stage, acts = self.stage, self.acts
        if self.chance(0.7) and len(stage.world.nodes) > 1:
            acts.leave(self.random.sample(list(stage.world.nodes), 1))
            stage.rounds(self.random.choice((1, 2)))
            stage.do("time", to=stage.world.adjudicator.now + 25)
            stage.rounds(self.random.choice((1, 3)))
            acts.let_go("settle", True)
            acts.let_go("abandon", True)
            for _ in range(self.random.choice((2, 6, 12))):
                if not stage.is_full():
                    self.act()
                    if self.chance(0.5):
                        acts.open(self.random.choice(self.shape.openings), None)
                    stage.settle(self.random.choice((1, 3, 10)), acts.alter)
            self.wind_up()
        super().leave()


def make(seed, onward=True):
    """The script and the routes of a seed."""
    return HubMaker(seed, onward).make()


class Keeper:
    """Follows the shares of all nodes: a share falls by no more than what the node was told to pay. Where its plan
    isn't funded, what it signs besides may lower it."""

    def __init__(self):
        self.last, self.falls, self.stops = {}, [], []

    def notice(self, node):
        node.see()
        for asset in node.adjudicator.deposits:
            now, given = share(node, asset), node.given[asset]
            before, gave, funded = self.last.get((node.me, asset), (0, 0, True))
            if now < before + gave - given and (funded or given != gave):
                self.falls.append((node, f"share of {node.me} in {asset} fell from {before} to {now}"))
            self.last[node.me, asset] = now, given, is_funded(node, asset)
        name = node.first_not_open()
        if name is not None and node.part_of(name).released:
            self.stops.append(f"{name}, which {node.me} let go of, stops it")


def leave_all(world):
    """All leave, and time passes. Each node with the shares that it left with."""
    left = []
    for node in world.nodes.values():
        node.see()
        left.append((node, {asset: share(node, asset) for asset in world.adjudicator.deposits}))
        node.exit()
    for _ in range(3):
        world.take({"do": "rounds", "count": 4})
        world.take({"do": "time", "to": world.adjudicator.now + 1000})
    world.take({"do": "rounds", "count": 12})
    return left


def faults_of(world, keeper):
    """What is wrong at the end of a play, after a round more, and then after all have left."""
    world.take({"do": "rounds", "count": 1})
    faults = keeper.stops + [f"{node.me} isn't paid what is due in {part.channel.name}" for node in world.nodes.values()
                             for part in node.parts if part.released and not node.exited and part.dues(node)]
    left, book = leave_all(world), world.adjudicator
    faults += [fault for node, fault in keeper.falls if in_time(book.history, node.journal)]
    for node, had in left:
        if in_time(book.history, node.journal) and node.used < node.signatures:
            faults += [f"{node.me} left with {amount} of {asset} and was paid {node.paid(asset)}"
                       for asset, amount in had.items() if node.paid(asset) < amount]
    for asset, deposited in book.deposits.items():
        held, paid = (sum(amount for (_, of), amount in purse.items() if of == asset)
                      for purse in (book.balances, book.payouts))
        if held + paid != deposited:
            faults.append(f"{deposited} deposited of {asset}, {held} held, {paid} paid")
    return faults


def answered(steps, world):
    """Each command of a hub with its refusal, or `accepted`."""
    refused = {(int(words[1]), words[2]): " ".join(words[5:]) for words in map(str.split, world.refused)}
    return [(step["do"], refused.get((number, who), "accepted")) for number, step in enumerate(steps, 1)
            if step["do"] in ("settle", "abandon", "resend") for who in step["who"]]


def follow(seed):
    """The faults of a seed's play, and the answers in it."""
    script, routes = make(seed, seed % 3 != 0)
    keeper = Keeper()
    world = play(script["steps"], routes, keeper.notice)
    answers = answered(script["steps"], world)
    return [f"seed {seed}: {fault}" for fault in faults_of(world, keeper)], Counter(answers)


def main(words):
    numbers = [int(word) for word in words if not word.startswith("--")]
    if len(numbers) == 1:
        return show(*make(numbers[0], "--scripts" not in words))
    first, count = numbers
    if "--early" in words:
        Root.settles = lambda part, facts: facts.mode(part.channel.name) != OPEN and not part.released
    met, faults = Counter(), []
    with ProcessPoolExecutor(2) as workers:
        for found, answers in workers.map(follow, range(first, first + count), chunksize=4):
            faults += found
            met.update(answers)
    told = [f"{sum(met[it] for it in met if it[0] == word)} {word}, {met[word, 'accepted']} accepted"
            for word in ("settle", "abandon", "resend")]
    print("\n".join(faults + [f"{count} plays: {'; '.join(told)}; {len(faults)} faults"]))
    return 1 if faults else 0


if __name__ == "__main__":
    sys.exit(main(sys.argv[1:]))
