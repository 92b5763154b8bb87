"""The calls by which a person, with its channels final, is paid."""
from calls import Claim, Transfer
from parts import Root
from values import Allocation, Guarantee, asset_of


def exit_calls(facts):
    """First of all direct channels, then of each further part."""
    roots = [part for part in facts.parts if isinstance(part, Root)]
    others = [part for part in facts.parts if not isinstance(part, Root)]
    return [call for part in roots + others for call in _calls_of(facts, part)]


def _calls_of(facts, part):
    if isinstance(part, Root):
        return _passed_on(facts, part.channel.name)
    if not hasattr(part, "guarantors"):
        return _own_transfers(facts, part.channel.name)
    if not part.is_end():
        first, second = part.guarantors
        claims = [(first, part.channel.name), (second, part.channel.name), (first, facts.me), (second, facts.me)]
        return _claims(facts, part, claims)
    guarantor = part.own_guarantors()[0]
    claims = _claims(facts, part, [(guarantor, part.channel.name), (guarantor, facts.me)])
    lends = facts.standing_on(part.channel.name)
    return claims + (_passed_on if lends else _own_transfers)(facts, part.channel.name)


def _allocations(facts, name):
    return [it for it in facts.settled(name) or () if isinstance(it, Allocation)]


def _passed_on(facts, name):
    """Transfers to each channel of the plan that the channel names, and then to the person itself, asset by asset."""
    found = []
    for it in _allocations(facts, name):
        to_channels = [place for place, (to, _) in enumerate(it.items) if facts.part_of(to) is not None]
        to_self = [place for place, (to, _) in enumerate(it.items) if to == facts.me]
        found += [Transfer(name, facts.settled(name), it.asset, place) for place in to_channels + to_self]
    return found


def _own_transfers(facts, name):
    return [Transfer(name, facts.settled(name), it.asset, place) for it in _allocations(facts, name)
            for place, (to, _) in enumerate(it.items) if to == facts.me]


def _claims(facts, part, claims):
    """The claims, each of a guarantor for a destination, that have an item."""
    target = facts.settled(part.joint.name)
    found = []
    for guarantor, to in claims:
        for it in facts.settled(guarantor.name) or ():
            owed = asset_of(target or (), it.asset)
            if isinstance(it, Guarantee) and isinstance(owed, Allocation) and to in it.places \
                    and owed.amount(to) is not None:
                found.append(Claim(guarantor.name, facts.settled(guarantor.name), part.joint.name, target, it.asset,
                                   it.places.index(to)))
    return found
