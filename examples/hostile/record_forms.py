"""Reads the bytes of a record by the tables of docs/definitions/channels.md, in another language than the program's.

`record_of(bytes)` gives a `Record`, or raises `Unspelled` with the number of the first fault and its place. A
destination is its 33 bytes, and of a fixed part, an outcome, a state and a reply the bytes are kept, which are their
one spelling.
"""
from collections import namedtuple

CUT, BAD_TAG, OVER_LIMIT, UNORDERED, DOUBLED, TOTAL_TOO_LARGE, TRAILING = range(1, 8)

Allocation = namedtuple("Allocation", "asset items")
Guarantee = namedtuple("Guarantee", "asset target list")
Outcome = namedtuple("Outcome", "assets text")
Fixed = namedtuple("Fixed", "keys nonce app duration text")
State = namedtuple("State", "turn final outcome data text")
Signed = namedtuple("Signed", "state signature")
Mark = namedtuple("Mark", "place signature")
Chain = namedtuple("Chain", "fixed states marks")

Time = namedtuple("Time", "to")
Deposit = namedtuple("Deposit", "channel asset expected amount")
Challenge = namedtuple("Challenge", "chain challenger signature")
Respond = namedtuple("Respond", "fixed origin next")
Refute = namedtuple("Refute", "fixed next")
Checkpoint = namedtuple("Checkpoint", "chain")
Conclude = namedtuple("Conclude", "chain")
Transfer = namedtuple("Transfer", "channel outcome asset index")
Claim = namedtuple("Claim", "guarantor promise target outcome asset position")

Root = namedtuple("Root", "channel")
OnLedger = namedtuple("OnLedger", "ledger channel")
VIRTUAL = "ledger_a ledger_b guarantor_a guarantor_b joint channel asset total side_b"
End = namedtuple("End", VIRTUAL)
Middle = namedtuple("Middle", VIRTUAL)

Entry = namedtuple("Entry", "number by op reply")
Sum = namedtuple("Sum", "kind name asset amount")
Known = namedtuple("Known", "channel state")
Ending = namedtuple("Ending", "person parts known chains shares")
Record = namedtuple("Record", "history sums ends")


class Unspelled(Exception):
    """The number of a fault, and its place."""


def fault_if(broken, fault, place):
    if broken:
        raise Unspelled(fault, place)


class Bytes:
    """What is left to read: fields are taken from the front, each whole, and then checked."""

    def __init__(self, data):
        self.data, self.at = data, 0

    def front(self, length):
        start, self.at = self.at, self.at + length
        if self.at > len(self.data):
            raise Unspelled(CUT, len(self.data))
        return self.data[start : self.at]

    def number(self, length):
        return int.from_bytes(self.front(length), "big")

    def below(self, length, end):
        place, value = self.at, self.number(length)
        fault_if(value >= end, OVER_LIMIT, place)
        return value

    def tag(self, *known):
        place, value = self.at, self.number(1)
        fault_if(value not in known, BAD_TAG, place)
        return value

    def name(self):
        return self.front(32)

    def sized(self, limit):
        return self.front(self.below(2, limit + 1))

    def few(self, limit, read):
        return [read() for _ in range(self.below(1, limit + 1))]

    def many(self, read):
        return [read() for _ in range(self.number(4))]

    # ---- outcomes

    def dest(self, seen):
        place, tag = self.at, self.tag(1, 2)
        to = bytes([tag]) + self.name()
        fault_if(to in seen, DOUBLED, place)
        return to

    def items(self):
        items = []
        for _ in range(self.below(1, 17)):
            to, place, amount = self.dest([it for it, _ in items]), self.at, self.number(8)
            fault_if(sum(it for _, it in items) + amount >= 2**64, TOTAL_TOO_LARGE, place)
            items.append((to, amount))
        return items

    def listed(self):
        dests = []
        for _ in range(self.below(1, 17)):
            dests.append(self.dest(dests))
        return dests

    def outcome(self):
        start, assets = self.at, []
        for _ in range(self.below(1, 5)):
            place, asset = self.at, self.number(4)
            fault_if(any(asset <= it.asset for it in assets), UNORDERED, place)
            kind = self.tag(1, 2)
            if kind == 1:
                assets.append(Allocation(asset, self.items()))
            else:
                assets.append(Guarantee(asset, self.name(), self.listed()))
        return Outcome(assets, self.data[start : self.at])

    # ---- states and chains

    def fixed(self):
        start, keys = self.at, []
        count = self.number(1)
        fault_if(not 2 <= count <= 4, OVER_LIMIT, start)
        for _ in range(count):
            place, key = self.at, self.front(56)
            fault_if(key in keys, DOUBLED, place)
            keys.append(key)
        nonce = self.number(8)
        app = self.tag(*(0, 1, 2) if count == 2 else (0, 2))
        place, duration = self.at, self.number(4)
        fault_if(duration == 0, OVER_LIMIT, place)
        return Fixed(keys, nonce, app, duration, self.data[start : self.at])

    def state(self):
        start = self.at
        turn, final, outcome, data = self.below(8, 2**48), self.tag(0, 1) == 1, self.outcome(), self.sized(4096)
        return State(turn, final, outcome, data, self.data[start : self.at])

    def signed(self):
        return Signed(self.state(), self.sized(9004))

    def mark(self):
        return Mark(self.number(1), self.sized(9004))

    def chain(self):
        return Chain(self.fixed(), self.few(4, self.state), self.few(4, self.mark))

    # ---- entries

    def op(self):
        if self.tag(1, 2) == 2:
            return Time(self.number(8))
        tag = self.tag(*range(1, 9))
        if tag == 1:
            return Deposit(self.name(), self.number(4), self.number(8), self.number(8))
        if tag == 2:
            return Challenge(self.chain(), self.number(1), self.sized(9004))
        if tag == 3:
            return Respond(self.fixed(), self.state(), self.signed())
        if tag == 4:
            return Refute(self.fixed(), self.signed())
        if tag == 7:
            return Transfer(self.name(), self.outcome(), self.number(4), self.number(1))
        if tag == 8:
            return Claim(self.name(), self.outcome(), self.name(), self.outcome(), self.number(4), self.number(1))
        return (Checkpoint if tag == 5 else Conclude)(self.chain())

    def support_fault(self):
        """A chain's fault: where it has no place, or breaks no rule of a step, a 0 stands for that."""
        tag, place, where = self.tag(1, 2, 3, 4), self.at, self.number(8)
        fault_if(tag == 1 and where != 0, BAD_TAG, place)
        self.tag(*range(1, 9) if tag == 3 else (0,))

    def reply(self):
        start = self.at
        if self.tag(*range(1, 8)) != 7:
            self.number(8)
            return self.data[start : self.at]
        refusal = self.tag(*range(1, 26))
        if refusal == 2:
            self.support_fault()
        elif refusal == 9:
            self.tag(*range(1, 9))
        elif refusal in (3, 7, 10, 12, 14, 15, 23, 24):
            self.number(8)
        elif refusal in (16, 17):
            self.name()
        return self.data[start : self.at]

    def entry(self):
        return Entry(self.number(4), self.number(4), self.op(), self.reply())

    # ---- sums and endings

    def sum(self):
        return Sum(self.tag(1, 2, 3), self.name(), self.number(4), self.number(8))

    def part(self):
        tag = self.tag(1, 2, 3, 4)
        if tag < 3:
            return Root(self.name()) if tag == 1 else OnLedger(self.name(), self.name())
        names = [self.name() for _ in range(6)]
        return (End if tag == 3 else Middle)(*names, self.number(4), self.number(8), self.tag(0, 1) == 1)

    def known(self):
        return Known(self.name(), self.state())

    def held_chain(self):
        return self.name(), self.chain()

    def share(self):
        return self.number(4), self.number(16)

    def ending(self):
        person, parts, known = self.name(), self.few(64, self.part), self.few(64, self.known)
        return Ending(person, parts, known, self.few(64, self.held_chain), self.many(self.share))

    def record(self):
        return Record(self.many(self.entry), self.many(self.sum), self.few(16, self.ending))


def all_of(data, read):
    """What these bytes spell, all of them."""
    source = Bytes(data)
    value = read(source)
    fault_if(source.at < len(data), TRAILING, source.at)
    return value


def record_of(data):
    return all_of(data, Bytes.record)


def outcome_of(data):
    """The outcome that these bytes spell, or None."""
    try:
        return all_of(data, Bytes.outcome)
    except Unspelled:
        return None
