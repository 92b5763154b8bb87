#!/usr/bin/env python3
"""Makes random hostile plays: `make(seed)` is a script and its routes; `plays.py SEED` prints the script, and the
routes to the standard error. With `--scripts` all virtual channels are plain.

A play opens calmly, mostly, so that late stages are reached; then come lies, losses, odd commands, challenges and
time; then people close or leave. What liars know to say they take from the model, which plays along.
"""
import json
import random
import sys

from acts import Acts
from node import LEDGER, ONWARD, PLAIN
from shapes import shape_of
from stage import Stage
import rules

HOSTILE = {"some_rounds": 10, "lie": 7, "repeat": 2, "challenge": 3, "surprise": 1, "dispute": 2, "barrage": 2,
           "checkpoint": 1, "conclude": 1, "answer": 2, "payout": 2, "deposit": 1, "time": 1, "drop": 2, "odd_open": 4,
           "pay": 5, "lose": 1, "resend": 1, "close": 4, "settle": 1, "abandon": 1, "leave_some": 0.5}
BY_LIARS = ("lie", "challenge", "surprise", "dispute", "barrage")


class Maker:
    """One play. `onward` allows virtual ledgers; `notice` is told of each node after it acted. In a hasty play people
    leave while something opens; in a deceitful one liars go along at first and then lie at their turns."""
    words, hub = HOSTILE, 0

    def __init__(self, seed, onward=True, notice=None):
        self.random = random.Random(f"{seed} {onward}")
        self.stage = Stage(self.random, notice)
        self.kind = self.random.choice(("mixed",) * 9 + ("hasty",) * 3 + ("deceitful",) * 8)
        self.shape = shape_of(self.random, onward, self.kind == "deceitful", self.hub)
        self.routes = (PLAIN, LEDGER, ONWARD) if onward else (PLAIN,)
        self.acts = Acts(self.stage, self.shape, self.routes)

    def chance(self, part):
        return self.random.random() < part

    def declare(self):
        """People in any order, most with nodes, and the channels of the shape."""
        people, choice = list(self.shape.people), self.random
        choice.shuffle(people)
        liars = choice.choice((0, 0, 1, 1, 1, 2)) if len(people) > 2 else choice.choice((0, 0, 1))
        liars = max(liars, 1) if self.kind == "deceitful" else liars
        deceivers = set(choice.sample(people, liars))
        if self.kind == "deceitful" and self.chance(0.2):
            deceivers = set(self.shape.openings[-1].people[::2])
        if liars and self.chance(0.3):
            people.append("S")
            deceivers.add("S")
        low = self.chance(0.5 if len(self.shape.openings) > 3 else 0.9)
        for place, name in enumerate(people):
            node = name not in deceivers
            height = 5 if low or not node else 10
            if not node and len(self.shape.openings) > 3:
                height = 10
            self.stage.person(name, f"{place + 1:064x}", height, node, choice.choice((1, 1, 1, 2)) if node else 0)
        durations = choice.choice(((5,), (2, 3, 6), (20,)))
        for nonce, (name, (members, app)) in enumerate(self.shape.channels.items(), 1):
            self.stage.do("channel", name=name, people=list(members), nonce=nonce, app=app,
                          duration=choice.choice(durations))

    def begin(self):
        """The openings, one after another; seldom something goes wrong between."""
        acts, wild = self.acts, self.kind != "deceitful" and self.chance(0.25)
        depth = len(self.shape.openings)
        openings = self.shape.openings[:depth if self.chance(0.8) else self.random.randint(1, depth)]
        lies_from = self.random.randrange(depth) if self.kind == "deceitful" and self.chance(0.4) else depth
        for place, opening in enumerate(openings):
            acts.honesty = 0.7 if place >= lies_from else 0.9 if wild else 1.0
            self.stage.miserly = self.stage.miserly or self.kind == "deceitful" and self.chance(0.06)
            people = None if not wild or self.chance(0.85) else acts.some(opening.people)
            if self.chance(0.03):
                acts.deposit()
            acts.open(opening, people)
            last = place == len(openings) - 1
            cut = last and self.chance(1 if self.kind == "hasty" else 0.2) or wild and self.chance(0.2)
            self.stage.settle(self.random.randint(0, 18) if cut else 60, acts.alter)
            if wild and self.chance(0.4):
                self.act()
            if self.stage.is_full():
                return

    def act(self):
        """One hostile act."""
        words = [word for word in self.words if word not in BY_LIARS or self.stage.world.shadows]
        word = self.random.choices(words, [self.words[word] for word in words])[0]
        getattr(self.acts, word)()

    def use(self):
        """Payments and what else goes on while all is well."""
        many = len(self.shape.openings) < 4 and self.chance(0.3)
        for _ in range(24 if many else self.random.choice((0, 2, 4, 8))):
            if not self.stage.is_full():
                self.acts.pay()
                self.stage.settle(2, self.acts.alter)

    def disturb(self):
        self.acts.honesty = self.random.choice((0.3, 0.8, 1.0))
        for _ in range(self.random.choice((0, 0, 3, 8, 15, 25))):
            if not self.stage.is_full():
                self.act()

    def wind_up(self):
        """People close what they opened, in order or not, and some stop halfway."""
        openings, calm = self.shape.openings[::-1], self.kind == "deceitful"
        if self.chance(0.1 if calm else 0.3):
            self.random.shuffle(openings)
        for opening in openings[:self.random.randint(1, len(openings))]:
            if self.stage.is_full():
                return
            people = list(opening.people) if self.chance(0.95 if calm else 0.8) else self.acts.some(opening.people)
            self.acts.close(opening.channel(), people)
            if self.chance(0.15):
                self.acts.close(self.random.choice(openings).channel(), list(opening.people))
            cut = self.chance(0.15 if calm else 0.35)
            if calm and self.chance(0.85):
                self.stage.settle(self.random.choice((0, 0, 0, 1, 2, 4)), self.acts.alter)
                self._lie_while_closing(opening)
            self.stage.settle(self.random.randint(0, 14) if cut else 60, self.acts.alter)
            if cut and self.chance(0.6):
                return

    def _lie_while_closing(self, opening):
        ends = opening.people[::2]
        if opening.route and all(end in self.stage.world.shadows for end in ends):
            self.acts.play_jointly(opening.step["joint"])
        else:
            self.acts.plot()

    def leave(self):
        """All or some leave; deadlines pass; they are paid what they are due."""
        stage, acts = self.stage, self.acts
        acts.leave(None if self.chance(0.6) else acts.some(list(stage.world.nodes)))
        stage.rounds(self.random.choice((1, 2, 4, 8)))
        if self.chance(0.3):
            self.act()
        late = self.chance(0.8 if stage.miserly else 0.2)
        for _ in range(self.random.choice((1, 1, 1, 2))):
            stage.do("time", to=stage.world.adjudicator.now + self.random.choice((2, 6, 20, 20)))
            for _ in range(self.random.choice((0, 0, 0, 1, 3))):
                acts.payout()
            stage.rounds(self.random.choice((1, 3, 6, 10)))
            if late or self.chance(0.3):
                (acts.late_deposit if late else acts.payout)()
                stage.rounds(self.random.choice((1, 2)))

    def deceive(self):
        """Liars lie at their turns from now on, and perhaps between."""
        self.acts.honesty = self.random.choice((0.2, 0.4, 0.7))
        for _ in range(self.random.choice((0, 0, 1, 2, 4))):
            if not self.stage.is_full():
                self.acts.plot()
                self.stage.settle(2, self.acts.alter)

    def make(self):
        self.declare()
        self.begin()
        if self.kind == "mixed":
            self.use()
            self.disturb()
        if self.kind == "deceitful":
            self.use()
            self.deceive()
        if self.kind == "deceitful" or (self.kind == "mixed" and self.chance(0.5)):
            self.wind_up()
        if self.chance(0.2):
            self.disturb()
        if self.chance(0.8):
            self.leave()
        if self.chance(0.2):
            return garbled(self.random, self.stage.steps, self.stage.routes)
        return {"steps": self.stage.steps}, self.stage.routes


def garbled(choice, steps, routes):
    """The script with a few steps gone, doubled or earlier, where it still keeps the rules."""
    waiting = list(routes)
    pairs = [(step, waiting.pop(0) if step["do"] == "open_virtual" else None) for step in steps]
    for _ in range(choice.choice((1, 2, 4))):
        place, way = choice.randrange(len(pairs)), choice.choice(("gone", "doubled", "earlier"))
        pair = pairs[place] if way == "doubled" else pairs.pop(place)
        if way != "gone":
            pairs.insert(max(0, place - choice.choice((1, 1, 2, 5))), pair)
    script = {"steps": [step for step, _ in pairs]}
    if rules.first_broken(json.dumps(script).encode()):
        return {"steps": steps}, routes
    return script, [route for _, route in pairs if route]


def make(seed, onward=True, notice=None):
    """The script and the routes of a seed."""
    return Maker(seed, onward, notice).make()


def show(script, routes):
    """Prints a script, and its routes to the standard error."""
    print(json.dumps(script))
    print(*routes, file=sys.stderr)
    return 0 if rules.first_broken(json.dumps(script).encode()) is None else 1


def main(words):
    return show(*make(int(words[0]), "--scripts" not in words))


if __name__ == "__main__":
    sys.exit(main(sys.argv[1:]))
