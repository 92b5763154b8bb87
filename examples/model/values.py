"""Values of the network: outcomes, states, channels, signatures and chains.

A person or a channel is its declared name, and names are never shared. A signature is ideal: it tells who signed what,
so no key and no digest is needed, and nobody can make the signature of another.
"""
from dataclasses import dataclass, replace

MOST = 2**64 - 1
TURNS = 2**48
ITEMS = 16
CONSENSUS, PAYMENT, FIXED = "consensus", "payment", "fixed"


@dataclass(frozen=True)
class Allocation:
    """What each destination gets of one asset, the first before the next."""
    asset: int
    items: tuple

    def amount(self, to):
        """The amount of a destination, or None where it has no item."""
        return next((amount for name, amount in self.items if name == to), None)

    def total(self):
        return sum(amount for _, amount in self.items)


@dataclass(frozen=True)
class Guarantee:
    """A promise to pay what a target owes to the destinations of a list, the first before the next."""
    asset: int
    target: str
    places: tuple


def asset_of(outcome, asset):
    """What an outcome says of an asset, or None."""
    return next((it for it in outcome if it.asset == asset), None)


def allocation_of(outcome, asset):
    """The allocation of an asset, or None."""
    found = asset_of(outcome, asset)
    return found if isinstance(found, Allocation) else None


def amount_of(outcome, asset, to):
    """The amount of a destination in an outcome, or None where it has no item."""
    found = allocation_of(outcome, asset)
    return None if found is None else found.amount(to)


def names(outcome, to):
    """Whether some allocation of the outcome has an item for the destination."""
    return any(isinstance(it, Allocation) and it.amount(to) is not None for it in outcome)


def is_outcome(outcome):
    """Whether an outcome keeps the limits of outcomes."""
    assets = [it.asset for it in outcome]
    return len(assets) <= 4 and all(a < b for a, b in zip(assets, assets[1:])) and all(map(_fits, outcome))


def _fits(it):
    places = it.places if isinstance(it, Guarantee) else [to for to, _ in it.items]
    total = 0 if isinstance(it, Guarantee) else it.total()
    return len(places) <= ITEMS and len(set(places)) == len(places) and total <= MOST


def with_items(outcome, asset, items):
    """The outcome with other items of one asset."""
    return tuple(replace(it, items=tuple(items)) if it.asset == asset else it for it in outcome)


@dataclass(frozen=True)
class State:
    """A state of a channel. Its data are no votes, or a number of votes still wanted for a proposal."""
    turn: int
    final: bool
    outcome: tuple
    votes: int = 0
    proposal: tuple = ()

    def data(self):
        return self.votes, self.proposal


@dataclass(frozen=True)
class Channel:
    """The fixed part of a channel, under its declared name."""
    name: str
    people: tuple
    app: str
    duration: int

    def mover(self, turn):
        """Who moves to a turn."""
        return self.people[turn % len(self.people)]

    def position(self, person):
        """The place of a person among the participants, or None."""
        return self.people.index(person) if person in self.people else None


@dataclass(frozen=True)
class Signature:
    """What a signer made of a state of a channel, or, with a challenger's place, of a challenge with that state."""
    signer: str
    channel: str
    state: State
    challenger: object = None


def verifies(person, channel, state, signature, challenger=None):
    """Whether the signature is this person's, of this state of this channel."""
    return signature == Signature(person, channel, state, challenger)


@dataclass(frozen=True)
class Signed:
    """A state with a signature, for the channel whose name stands with it."""
    channel: str
    state: State
    signature: Signature


@dataclass(frozen=True)
class Mark:
    """The signature of one participant and the place of the state that it stands on."""
    place: int
    signature: object


NO_PLACE = 255


@dataclass(frozen=True)
class Chain:
    """States that follow each other, and a mark of each participant."""
    channel: Channel
    states: tuple
    marks: tuple

    def last(self):
        return self.states[-1]

    def turn(self):
        return self.states[-1].turn


def first_chain(channel, signed):
    """The chain of the first turns, each marked by its mover."""
    marks = tuple(Mark(place, it.signature) for place, it in enumerate(signed))
    return Chain(channel, tuple(it.state for it in signed), marks)


def answered(chain, signed):
    """The chain with one state more, which its mover marks; states before the first marked one go."""
    mover = signed.state.turn % len(chain.channel.people)
    marks = [Mark(len(chain.states), signed.signature) if j == mover else mark for j, mark in enumerate(chain.marks)]
    first = min(mark.place for mark in marks)
    states = (chain.states + (signed.state,))[first:]
    return Chain(chain.channel, states, tuple(replace(mark, place=mark.place - first) for mark in marks))


def chain_of(channel, listed):
    """The chain that a list of signed states makes: neighbours with equal states are one state, and each participant
    marks the last listed state that it signed."""
    states, marks = [], [Mark(NO_PLACE, None)] * len(channel.people)
    for signed in listed:
        if not states or states[-1] != signed.state:
            states.append(signed.state)
        position = channel.position(signed.signature.signer)
        if position is not None:
            marks[position] = Mark(len(states) - 1, signed.signature)
    return Chain(channel, tuple(states), tuple(marks))
