"""What a person can get: the least worth of its plan over all outcomes that may still become final."""
from itertools import product

from parts import Root
from values import Allocation, Guarantee, asset_of


def share(facts, asset):
    """What the person was paid, and what its plan is worth to it at the least."""
    return facts.paid(asset) + min(worth.of_plan() for worth in _choices(facts, asset))


def is_funded(facts, asset):
    """Whether under each choice what stands on other channels reaches as far as the items that it is for."""
    return all(worth.is_funded(part) for worth in _choices(facts, asset) for part in facts.parts)


def _choices(facts, asset):
    """The worth of the plan under each choice of outcomes."""
    names = [name for name in facts.own_channels() if facts.record(name).counts()]
    return [Worth(facts, asset, dict(zip(names, choice)))
            for choice in product(*(_possible(facts, name) for name in names))]


def _possible(facts, name):
    """The outcomes with which a channel may become final."""
    rest, last = facts.rest(name), facts.record(name).last_signed
    if rest is not None:
        return [rest]
    return [last.outcome] + ([last.proposal] if last.votes else [])


def less(a, b):
    return max(0, a - b)


class Worth:
    """The worth of a plan in one asset under one choice of outcomes."""

    def __init__(self, facts, asset, chosen):
        self.facts, self.asset = facts, asset
        self.found = {name: asset_of(outcome, asset) for name, outcome in chosen.items()}
        self.chosen, self.reached = chosen, {}

    def items(self, name):
        found = self.found.get(name)
        return found.items if isinstance(found, Allocation) else ()

    def amount(self, name, to):
        """The amount of an item, or None where there is no item."""
        return dict(self.items(name)).get(to)

    def afforded(self, name, to):
        """What of an item the channel can pay after those before it."""
        before = 0
        for other, amount in self.items(name):
            if other == to:
                return min(amount, less(self.reach(name), before))
            before += amount
        return 0

    def reach(self, name):
        """What can come into the channel's hands."""
        if name not in self.reached:
            part = self.facts.part_of(name)
            counts = name in self.chosen and part is not None
            self.reached[name] = self._reach(name, part) if counts else 0
        return self.reached[name]

    def _reach(self, name, part):
        held = self.facts.held(name, self.asset)
        if isinstance(part, Root):
            return held
        if not hasattr(part, "guarantors"):
            return self._lent(name, part.ledger.name, held)
        for ledger, guarantor in zip(part.own_ledgers, part.own_guarantors()):
            if guarantor.name == name:
                return min(part.total(), self._lent(name, ledger.name, held))
        if name == part.joint.name:
            return 0
        return self._joint_reach(name, part, held)

    def _lent(self, name, ledger, held):
        """What a ledger that names the channel adds to what it holds."""
        return 0 if self.amount(ledger, name) is None else held + self.afforded(ledger, name)

    def _joint_reach(self, name, part, held):
        owed = self.amount(part.joint.name, name)
        return 0 if owed is None else held + min(owed, self.reach(part.own_guarantors()[0].name))

    def of_plan(self):
        return sum(map(self.of_part, self.facts.parts))

    def of_part(self, part):
        if not hasattr(part, "guarantors"):
            return self.afforded(part.channel.name, self.facts.me)
        return self._of_end(part) if part.is_end() else self._of_middle(part)

    def _owed(self, part, to):
        return self.amount(part.joint.name, to) or 0

    def _of_end(self, part):
        left = less(self.reach(part.own_guarantors()[0].name), self._owed(part, part.channel.name))
        return self.afforded(part.channel.name, self.facts.me) + min(self._owed(part, self.facts.me), left)

    def _of_middle(self, part):
        return min(self._owed(part, self.facts.me), self._left_between(part))

    def _left_between(self, part):
        """What an intermediary's two guarantors, together or each for itself, leave after the channel and the ends."""
        reached = [self.reach(it.name) for it in part.guarantors]
        channel = self._owed(part, part.channel.name)
        ends = [self._second(part, it.name) for it in part.guarantors]
        together = less(sum(reached), channel + sum(ends))
        return max(together, sum(less(has, channel + end) for has, end in zip(reached, ends)))

    # ---- funded

    def is_funded(self, part):
        """Whether its ledgers hold what they owe, and each channel on them reaches the person's item."""
        if isinstance(part, Root):
            return True
        if not all(sum(amount for _, amount in self.items(name)) <= self.reach(name) for name in part.ledgers):
            return False
        if not hasattr(part, "guarantors"):
            return self._reaches_me(part.ledger.name, part.channel.name)
        lent = all(self.amount(ledger.name, it.name) is not None
                   for ledger, it in zip(part.own_ledgers, part.own_guarantors()))
        if not part.is_end():
            return not lent or self._owed(part, self.facts.me) <= self._left_between(part)
        owed = self._owed(part, part.channel.name) + self._owed(part, self.facts.me)
        return self._reaches_me(part.joint.name, part.channel.name) and (
            not lent or owed <= self.reach(part.own_guarantors()[0].name))

    def _reaches_me(self, payer, name):
        """Whether a channel that counts, and for which the payer has an item, reaches as far as the person's own."""
        up_to = 0
        for to, amount in self.items(name):
            up_to += amount
            if to == self.facts.me:
                break
        return name not in self.chosen or self.amount(payer, name) is None or up_to <= self.reach(name)

    def _second(self, part, guarantor):
        """What the joint channel owes to the second destination of a guarantor's list."""
        found = self.found.get(guarantor)
        listed = isinstance(found, Guarantee) and len(found.places) > 1
        return self._owed(part, found.places[1]) if listed else 0
