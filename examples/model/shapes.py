"""Shapes of networks for random plays: people, channels and the openings that fit, in an order that works."""
from dataclasses import dataclass, field

from node import LEDGER, ONWARD, PLAIN


@dataclass
class Opening:
    """An opening command: its step without `who`, the route of a virtual one, and the people whom it concerns."""
    step: dict
    people: tuple
    route: object = None

    def channel(self):
        return self.step["channel"]


@dataclass
class Shape:
    """What is declared, and what may be opened."""
    random: object
    people: list = field(default_factory=list)
    channels: dict = field(default_factory=dict)
    openings: list = field(default_factory=list)
    spares: list = field(default_factory=list)
    funds: dict = field(default_factory=dict)
    assets: tuple = (0,)

    def channel(self, name, people, app):
        for person in people:
            if person not in self.people:
                self.people.append(person)
        self.channels[name] = (tuple(people), app)

    def root(self, name, first, second, app="consensus"):
        """A direct channel, which two people fund."""
        self.channel(name, (first, second), app)
        outcome = []
        for asset in self.assets:
            amounts = [self.random.randint(40, 100) for _ in range(2)]
            self.funds.update({(name, asset, person): has for person, has in zip((first, second), amounts)})
            outcome.append({"asset": asset, "items": [[first, amounts[0]], [second, amounts[1]]]})
        self.openings.append(Opening({"do": "open", "channel": name, "outcome": outcome}, (first, second)))

    def _lent(self, asset, ledgers):
        """Amounts that fit on all ledgers, a share of what is left there."""
        pairs = [self.channels[ledger][0] for ledger in ledgers]
        most = [min(self.funds.get((ledger, asset, pair[j]), 0) for ledger, pair in zip(ledgers, pairs))
                for j in range(2)]
        odd = self.random.random() < 0.15
        amounts = [self.random.randint(0, has // 2) if odd else has // self.random.choice((2, 3)) for has in most]
        for ledger, pair in zip(ledgers, pairs):
            for j in range(2):
                self.funds[ledger, asset, pair[j]] = self.funds.get((ledger, asset, pair[j]), 0) - amounts[j]
        return amounts

    def on_ledger(self, name, ledger):
        """A channel of a ledger's two people."""
        people, asset = self.channels[ledger][0], self.random.choice(self.assets)
        self.channel(name, people, "payment")
        amounts = self._lent(asset, [ledger])
        step = {"do": "open_on", "ledger": ledger, "channel": name, "asset": asset, "amounts": amounts}
        self.openings.append(Opening(step, people))

    def virtual(self, name, route, people, ledgers):
        """A channel of two people through a third, or a virtual ledger."""
        first, middle, second = people
        asset = self.random.choice(self.assets)
        joint, guarantors = "J" + name, ["G" + name, "H" + name]
        self.channel(guarantors[0], (first, middle), "fixed")
        self.channel(guarantors[1], (middle, second), "fixed")
        self.channel(joint, people, "consensus")
        self.channel(name, (first, second), "consensus" if route == LEDGER else "payment")
        amounts = self._lent(asset, ledgers)
        if route == LEDGER:
            self.funds.update({(name, asset, first): amounts[0], (name, asset, second): amounts[1]})
        step = {"do": "open_virtual", "ledgers": list(ledgers), "guarantors": guarantors, "joint": joint,
                "channel": name, "asset": asset, "amounts": amounts}
        self.openings.append(Opening(step, tuple(people), route))

    def add_spares(self, routes, most):
        """Further virtual channels, on ledgers that may not be there yet, which no calm play opens."""
        ledgers = [(name, people) for name, (people, app) in self.channels.items()
                   if app == "consensus" and len(people) == 2]
        pairs = [(one, two, first + second[1:]) for one, first in ledgers for two, second in ledgers
                 if first[1] == second[0] and first[0] != second[1]]
        count, opened = self.random.randint(0, most), len(self.openings)
        for place in range(count if pairs else 0):
            one, two, people = self.random.choice(pairs)
            self.virtual(f"Z{place}", self.random.choice(routes), people, (one, two))
        self.spares, self.openings = self.openings[opened:], self.openings[:opened]

    def assets_may_differ(self, chance):
        if self.random.random() < chance:
            self.assets = (0, self.random.choice((1, 7)))


def _ledgers(shape):
    shape.root("LA", "A", "I1")
    shape.root("LI", "I1", "I2")
    shape.root("LB", "I2", "B")


def hop(shape):
    """A and B over two intermediaries, the virtual ledger at A's side."""
    _ledgers(shape)
    shape.virtual("VL", LEDGER, ("A", "I1", "I2"), ("LA", "LI"))
    shape.virtual("X2", ONWARD, ("A", "I2", "B"), ("VL", "LB"))


def mirrored_hop(shape):
    """The virtual ledger at B's side."""
    _ledgers(shape)
    shape.virtual("VL", LEDGER, ("I1", "I2", "B"), ("LI", "LB"))
    shape.virtual("X2", ONWARD, ("A", "I1", "B"), ("LA", "VL"))


def turned_hop(shape):
    """The route goes from B to A."""
    shape.root("LB", "B", "I2")
    shape.root("LI", "I2", "I1")
    shape.root("LA", "I1", "A")
    shape.virtual("VL", LEDGER, ("I2", "I1", "A"), ("LI", "LA"))
    shape.virtual("X2", ONWARD, ("B", "I2", "A"), ("LB", "VL"))


def hop_twice(shape):
    """Two channels onward on one virtual ledger."""
    hop(shape)
    shape.virtual("X3", ONWARD, ("A", "I2", "B"), ("VL", "LB"))


def forked_hop(shape):
    """Two people at the far end."""
    hop(shape)
    shape.root("LC", "I2", "C")
    shape.virtual("X3", ONWARD, ("A", "I2", "C"), ("VL", "LC"))


def crowd(shape):
    """Six people, two virtual ledgers and channels onward on them."""
    forked_hop(shape)
    shape.root("LD", "D", "I1")
    shape.virtual("VD", LEDGER, ("D", "I1", "I2"), ("LD", "LI"))
    shape.virtual("X4", shape.random.choice((ONWARD, PLAIN)), ("D", "I2", shape.random.choice("BC")), ("VD", "LB"))
    if shape.openings[-1].people[2] == "C":
        shape.openings[-1].step["ledgers"][1] = "LC"


def two_virtual_ledgers(shape):
    """One at each side, and a channel onward on each."""
    _ledgers(shape)
    shape.virtual("VL", LEDGER, ("A", "I1", "I2"), ("LA", "LI"))
    shape.virtual("VM", LEDGER, ("I1", "I2", "B"), ("LI", "LB"))
    onward = [("X2", ("A", "I2", "B"), ("VL", "LB")), ("X3", ("A", "I1", "B"), ("LA", "VM"))]
    shape.random.shuffle(onward)
    for name, people, ledgers in onward:
        shape.virtual(name, ONWARD, people, ledgers)


def beside_virtual_ledgers(shape):
    """Two virtual ledgers of the same people."""
    _ledgers(shape)
    shape.virtual("VL", LEDGER, ("A", "I1", "I2"), ("LA", "LI"))
    shape.virtual("VM", LEDGER, ("A", "I1", "I2"), ("LA", "LI"))
    shape.virtual("X2", ONWARD, ("A", "I2", "B"), (shape.random.choice(("VL", "VM")), "LB"))


def mixed_hop(shape):
    """A hop beside channels on its ledgers and a direct one."""
    _ledgers(shape)
    if shape.random.random() < 0.5:
        shape.on_ledger("C", "LI")
    shape.virtual("VL", LEDGER, ("A", "I1", "I2"), ("LA", "LI"))
    if shape.random.random() < 0.5:
        shape.virtual("X1", PLAIN, ("A", "I1", "I2"), ("LA", "LI"))
    shape.virtual("X2", ONWARD, ("A", "I2", "B"), ("VL", "LB"))
    if shape.random.random() < 0.5:
        shape.root("P", "A", "B", "payment")


def virtual_ledger_alone(shape):
    """A virtual ledger through one intermediary, on which nothing stands."""
    shape.root("LA", "A", "I1")
    shape.root("LI", "I1", "I2")
    shape.virtual("VL", LEDGER, ("A", "I1", "I2"), ("LA", "LI"))


def through_one(shape):
    """A payment channel through one intermediary."""
    shape.root("LA", "A", "I")
    shape.root("LB", "I", "B")
    shape.virtual("X", PLAIN, ("A", "I", "B"), ("LA", "LB"))


def through_one_twice(shape):
    """Two payment channels through one intermediary, and others beside."""
    through_one(shape)
    if shape.random.random() < 0.5:
        shape.on_ledger("C", shape.random.choice(("LA", "LB")))
    people, ledgers = ("A", "I", "B"), ("LA", "LB")
    if shape.random.random() < 0.5:
        shape.root("LC", "C1", "I")
        people, ledgers = ("C1", "I", "B"), ("LC", "LB")
    shape.virtual("Y", PLAIN, people, ledgers)


def on_a_ledger(shape):
    """Channels on a ledger, and a direct payment channel."""
    shape.root("L", "A", "B")
    shape.on_ledger("C", "L")
    if shape.random.random() < 0.6:
        shape.on_ledger("E", "L")
    if shape.random.random() < 0.5:
        shape.root("P", "A", "B", "payment")


def of_three(shape):
    """A direct channel of three people beside a ledger."""
    shape.channel("T", ("A", "B", "D"), "consensus")
    outcome = [{"asset": 0, "items": [[person, shape.random.randint(0, 60)] for person in ("A", "B", "D")]}]
    shape.openings.append(Opening({"do": "open", "channel": "T", "outcome": outcome}, ("A", "B", "D")))
    on_a_ledger(shape)


def clients(shape):
    """An intermediary with three or four clients, of whom two may have a channel through it."""
    for name in "ABDE"[:shape.random.choice((3, 3, 4))]:
        app = "payment" if name in "DE" and shape.random.random() < 0.5 else "consensus"
        pair = ("I", name) if name == "B" else (name, "I")
        shape.root("L" + name, *pair, app)
    if shape.random.random() < 0.7:
        shape.virtual("X", PLAIN, ("A", "I", "B"), ("LA", "LB"))


OVER_TWO = (hop, hop, hop, mirrored_hop, turned_hop, hop_twice, forked_hop, crowd, two_virtual_ledgers,
            beside_virtual_ledgers, mixed_hop, virtual_ledger_alone)
OVER_ONE = (through_one, through_one, through_one_twice, on_a_ledger, of_three)


SMALL_OVER_TWO = (virtual_ledger_alone, virtual_ledger_alone, hop, mirrored_hop)
SMALL_OVER_ONE = (through_one, through_one, on_a_ledger, of_three)


def shape_of(random, onward, small, hub=0):
    """A random shape; without `onward` all its virtual channels are plain. `hub` is how often it is one of clients."""
    shape = Shape(random)
    shape.assets_may_differ(0.2)
    if random.random() < hub:
        clients(shape)
        shape.add_spares((PLAIN,), 2)
        return shape
    over_two = onward and random.random() < (0.65 if small else 0.8)
    if small:
        random.choice(SMALL_OVER_TWO if over_two else SMALL_OVER_ONE)(shape)
    else:
        random.choice(OVER_TWO if over_two else OVER_ONE)(shape)
    shape.add_spares((PLAIN, LEDGER, ONWARD, ONWARD) if onward else (PLAIN,), 2)
    return shape
