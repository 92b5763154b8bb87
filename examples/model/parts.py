"""The parts of a plan: direct channels, and channels on a ledger. What a node signs and takes in each stage.

A part asks `facts` for what its node knows now: the records of the node's channels and what the adjudicator shows.
"""
from dataclasses import dataclass

from adjudicator import FINAL, OPEN
from calls import Conclude, Deposit, Transfer
from steps import is_settled, move_toward
from values import (FIXED, MOST, PAYMENT, TURNS, Allocation, Channel, State, allocation_of, amount_of, names,
                    with_items)


# ---- states that stages want


def opening_state(record, opening):
    """The next early state at the own turn, or None."""
    turn = record.next_turn()
    return State(turn, False, opening) if turn < len(record.channel.people) and record.is_own_turn() else None


def repeated_state(record):
    """The next state of the turns that follow the opening ones, or None."""
    turn, n, latest = record.next_turn(), len(record.channel.people), record.latest()
    if not n <= turn < 2 * n or not record.is_own_turn():
        return None
    return State(turn, False, latest.outcome, *latest.data())


def final_state(record):
    """A final state that repeats the latest one, at the own turn and where nobody votes, or None."""
    latest = record.latest()
    if latest is None or latest.votes or latest.turn + 1 >= TURNS or not record.is_own_turn():
        return None
    return State(latest.turn + 1, True, latest.outcome)


def voted_state(record, target):
    """The move toward a target at the own turn, or None."""
    latest, n = record.latest(), len(record.channel.people)
    if target is None or latest is None or record.next_turn() < n or not record.is_own_turn():
        return None
    return move_toward(n, target, latest, record.last_signed)


# ---- states that stages take


def takes(record, state, opening, is_target):
    """Whether a step is taken: early states open, payments and final states are free, votes stay or go to a target."""
    if state.turn < len(record.channel.people):
        return not state.final and state.votes == 0 and state.outcome == opening
    if record.channel.app == PAYMENT or state.final:
        return True
    if record.channel.app == FIXED:
        return False
    stays = state.outcome == record.latest().outcome or is_target(state.outcome)
    return stays and (state.votes == 0 or is_target(state.proposal))


def no_target(outcome):
    return False


# ---- lending from a ledger


@dataclass(frozen=True)
class Loan:
    """What the two people of a ledger set aside in it for a child."""
    ledger: Channel
    child: str
    asset: int
    amounts: tuple

    def fits(self, outcome):
        """Whether both have an item that is large enough, and there is room for one item more."""
        found = allocation_of(outcome, self.asset)
        own = [amount_of(outcome, self.asset, person) for person in self.ledger.people]
        return found is not None and len(found.items) < 16 and all(
            has is not None and has >= amount for has, amount in zip(own, self.amounts))

    def up(self, outcome):
        """The outcome that sets the amounts aside, or None where there is no such outcome."""
        if names(outcome, self.child):
            return outcome
        if not self.fits(outcome):
            return None
        less = dict(zip(self.ledger.people, self.amounts))
        items = [(to, amount - less.get(to, 0)) for to, amount in allocation_of(outcome, self.asset).items]
        return with_items(outcome, self.asset, items + [(self.child, sum(self.amounts))])

    def down(self, outcome, amounts):
        """The outcome that gives the amounts back, or None where there is no such outcome."""
        if not names(outcome, self.child):
            return outcome
        found, more = allocation_of(outcome, self.asset), dict(zip(self.ledger.people, amounts))
        if found is None or any(found.amount(person) is None for person in self.ledger.people):
            return None
        items = [(to, amount + more.get(to, 0)) for to, amount in found.items if to != self.child]
        return with_items(outcome, self.asset, items) if sum(amount for _, amount in items) <= MOST else None

    def is_up(self, facts):
        """Whether the node's own last state set the amounts aside."""
        record = facts.record(self.ledger.name)
        return is_settled(record.last_signed, self.up(record.latest().outcome))

    def is_down(self, facts):
        """Whether the node's own last state names the child no more."""
        return not names(facts.record(self.ledger.name).last_signed.outcome, self.child)


# ---- parts


class Part:
    """What all parts share. `running` and `closed` are stages; `closing` tells that the node was told to close it or to
    let go of it, and `released` that it let go of it."""
    running, closed, closing, released = 3, 6, False, False

    def is_unfinished(self, facts):
        stage = facts.stage(self)
        return stage < self.running or (self.closing and stage < self.closed)

    def is_closed(self, facts):
        return facts.stage(self) == self.closed

    def calls(self, facts):
        return []

    def settles(self, facts):
        """Whether the node may let go of it since it is final."""
        return False

    def abandons(self, facts):
        """Whether the node may let go of it since it isn't set up and the node put nothing in."""
        return False


@dataclass(eq=False)
class Root(Part):
    """A channel that its participants fund by deposits."""
    channel: Channel
    opening: tuple

    ledgers = ()

    def channels(self):
        """All channels of the part, in the order in which they are named."""
        return [self.channel.name]

    def stage(self, facts):
        record, n = facts.record(self.channel.name), len(self.channel.people)
        if self.released:
            return 6
        if not self.closing:
            if not record.holds(n - 1):
                return 0
            if not record.holds(n) and not self._is_funded(facts):
                return 1
            return 3 if record.holds(2 * n - 1) else 2
        if not record.has_ended():
            return 4
        return 6 if facts.mode(self.channel.name) == FINAL and not self.dues(facts) else 5

    def _is_funded(self, facts):
        return all(facts.held(self.channel.name, it.asset) >= it.total() for it in self.opening)

    def dues(self, facts):
        """Asset and place of each own item of the settled outcome with something due."""
        name, outcome = self.channel.name, facts.settled(self.channel.name)
        own = [(it.asset, place) for it in outcome or () if isinstance(it, Allocation)
               for place, (to, _) in enumerate(it.items) if to == facts.me]
        return [(asset, place) for asset, place in own if facts.due(name, outcome, asset, place)]

    def wanted(self, facts, name):
        record, stage = facts.record(name), facts.stage(self)
        if stage == 0:
            return opening_state(record, self.opening)
        if stage == 2:
            return repeated_state(record)
        return final_state(record) if stage == 4 else None

    def accepts(self, facts, name, state):
        return not self.released and takes(facts.record(name), state, self.opening, no_target)

    def opening_of(self, name):
        return self.opening

    def calls(self, facts):
        """Deposits, the conclusion, and transfers to the node itself."""
        name, stage = self.channel.name, facts.stage(self)
        if stage == 1 and facts.mode(name) == OPEN:
            return self._deposits(facts)
        if stage == 5 and facts.mode(name) == OPEN:
            return [Conclude(facts.record(name).chain)]
        if (stage == 5 or self.released) and facts.mode(name) == FINAL:
            outcome = facts.settled(name)
            return [Transfer(name, outcome, asset, place) for asset, place in self.dues(facts)]
        return []

    def settles(self, facts):
        return facts.mode(self.channel.name) == FINAL and not self.released

    def abandons(self, facts):
        if self.closing or facts.mode(self.channel.name) == FINAL or facts.stage(self) == self.running:
            return False
        return facts.stage(self) == 0 or not any(self._has_turn(facts, it) for it in self.opening)

    def _has_turn(self, facts, it):
        """Whether the node's item of an asset has or had its turn to be put in."""
        before = 0
        for to, amount in it.items:
            if to == facts.me:
                return amount > 0 and before <= facts.held(self.channel.name, it.asset)
            before += amount
        return False

    def _deposits(self, facts):
        """Each puts its own item in once those before it are there."""
        found, name = [], self.channel.name
        for it in self.opening:
            before, held = 0, facts.held(name, it.asset)
            for to, amount in it.items:
                if to == facts.me and before <= held < before + amount:
                    found.append(Deposit(name, it.asset, held, before + amount - held))
                before += amount
        return found


@dataclass(eq=False)
class OnLedger(Part):
    """A payment channel of the two people of a ledger, on what they have there."""
    ledger: Channel
    channel: Channel
    asset: int
    amounts: tuple

    @property
    def ledgers(self):
        return (self.ledger.name,)

    def channels(self):
        return [self.channel.name]

    def loan(self):
        return Loan(self.ledger, self.channel.name, self.asset, self.amounts)

    def opening_of(self, name):
        return (Allocation(self.asset, tuple(zip(self.channel.people, self.amounts))),)

    def stage(self, facts):
        record = facts.record(self.channel.name)
        if not self.closing:
            if not record.holds(1):
                return 0
            past = record.last_signed is not None and record.last_signed.turn >= 2
            if not past and not self.loan().is_up(facts):
                return 1
            return 3 if record.holds(3) else 2
        if not record.has_ended():
            return 4
        return 6 if self.loan().is_down(facts) else 5

    def target(self, facts):
        """What the ledger is to become, or None."""
        present, stage = facts.record(self.ledger.name).latest().outcome, facts.stage(self)
        if stage < 3:
            return self.loan().up(present)
        latest = facts.record(self.channel.name).latest()
        if stage not in (4, 5) or latest is None or not latest.final:
            return None
        amounts = [amount_of(latest.outcome, self.asset, person) or 0 for person in self.channel.people]
        return self.loan().down(present, amounts)

    def wanted(self, facts, name):
        record, stage = facts.record(name), facts.stage(self)
        if name == self.ledger.name:
            return voted_state(record, self.target(facts)) if stage in (1, 5) else None
        if stage == 0:
            return opening_state(record, self.opening_of(name))
        if stage == 2:
            return repeated_state(record)
        return final_state(record) if stage == 4 else None

    def accepts(self, facts, name, state):
        if name == self.channel.name:
            return takes(facts.record(name), state, self.opening_of(name), no_target)
        target = self.target(facts)
        return takes(facts.record(name), state, None, lambda outcome: target is not None and outcome == target)
