#!/usr/bin/env python3
"""Writes calls.txt and ../stdout: calls and messages in bytes, and what is to be said of each.

It stands apart from the program: a writer and a reader of the formats of docs/definitions/channels.md, in another language,
that share nothing with the crates. Each line of calls.txt is `NAME KIND HEX`; each line of ../stdout is `NAME same`
for bytes that spell a call or a message, or `NAME FAULT PLACE`.
"""
import os
import random
import struct


# ---- writing

def u16(n): return struct.pack(">H", n)
def u32(n): return struct.pack(">I", n)
def u64(n): return struct.pack(">Q", n)
def sized(b): return u16(len(b)) + b
def person(n): return b"\x01" + bytes([n]) * 32
def channel(n): return b"\x02" + bytes([n]) * 32
def item(to, amount): return to + u64(amount)
def allocation(asset, *items): return u32(asset) + b"\x01" + bytes([len(items)]) + b"".join(items)
def guarantee(asset, target, *dests): return u32(asset) + b"\x02" + target + bytes([len(dests)]) + b"".join(dests)
def outcome(*assets): return bytes([len(assets)]) + b"".join(assets)
def state(turn, final, out, data=b""): return u64(turn) + bytes([final]) + out + sized(data)
def fixed(keys, nonce, app, duration): return bytes([len(keys)]) + b"".join(keys) + u64(nonce) + bytes([app]) + u32(duration)
def key(n): return bytes([n]) * 56
def mark(place, signature): return bytes([place]) + sized(signature)
def chain(f, states, marks): return f + bytes([len(states)]) + b"".join(states) + bytes([len(marks)]) + b"".join(marks)
def name(n): return bytes([n]) * 32


# ---- reading: the first fault in reading order

class Fault(Exception):
    pass


class Reader:
    def __init__(self, data):
        self.data, self.at = data, 0

    def take(self, count):
        if self.at + count > len(self.data):
            raise Fault("cut %d" % len(self.data))
        self.at += count
        return self.data[self.at - count:self.at]

    def number(self, count): return int.from_bytes(self.take(count), "big")

    def limited(self, count, limit):
        place = self.at
        n = self.number(count)
        if n > limit:
            raise Fault("over %d" % place)
        return n

    def tag(self, *known):
        place = self.at
        n = self.number(1)
        if n not in known:
            raise Fault("tag %d" % place)
        return n

    def dest(self, seen):
        place = self.at
        self.tag(1, 2)
        self.at = place
        whole = self.take(33)
        if whole in seen:
            raise Fault("doubled %d" % place)
        seen.append(whole)

    def outcome(self):
        last = -1
        for _ in range(self.limited(1, 4)):
            place = self.at
            asset = self.number(4)
            if asset <= last:
                raise Fault("unordered %d" % place)
            last = asset
            seen, total = [], 0
            if self.tag(1, 2) == 1:
                for _ in range(self.limited(1, 16)):
                    self.dest(seen)
                    place = self.at
                    total += self.number(8)
                    if total >= 1 << 64:
                        raise Fault("total %d" % place)
            else:
                self.take(32)
                for _ in range(self.limited(1, 16)):
                    self.dest(seen)

    def state(self):
        self.limited(8, (1 << 48) - 1)
        self.tag(0, 1)
        self.outcome()
        self.take(self.limited(2, 4096))

    def signature(self): self.take(self.limited(2, 9004))

    def signed(self):
        self.state()
        self.signature()

    def fixed(self):
        place = self.at
        people = self.number(1)
        if not 2 <= people <= 4:
            raise Fault("over %d" % place)
        keys = []
        for _ in range(people):
            place = self.at
            one = self.take(56)
            if one in keys:
                raise Fault("doubled %d" % place)
            keys.append(one)
        self.number(8)
        place = self.at
        app = self.number(1)
        if app > 2 or (app == 1 and people != 2):
            raise Fault("tag %d" % place)
        place = self.at
        if self.number(4) == 0:
            raise Fault("over %d" % place)

    def chain(self):
        self.fixed()
        for _ in range(self.limited(1, 4)):
            self.state()
        for _ in range(self.limited(1, 4)):
            self.number(1)
            self.signature()

    def call(self):
        tag = self.tag(*range(1, 9))
        if tag == 1:
            self.take(32), self.number(4), self.number(8), self.number(8)
        elif tag == 2:
            self.chain(), self.number(1), self.signature()
        elif tag == 3:
            self.fixed(), self.state(), self.signed()
        elif tag == 4:
            self.fixed(), self.signed()
        elif tag in (5, 6):
            self.chain()
        elif tag == 7:
            self.take(32), self.outcome(), self.number(4), self.number(1)
        else:
            self.take(32), self.outcome(), self.take(32), self.outcome(), self.number(4), self.number(1)

    def message(self):
        self.take(32), self.signed()


def verdict(kind, data):
    reader = Reader(data)
    try:
        reader.call() if kind == "call" else reader.message()
        if reader.at < len(data):
            raise Fault("trailing %d" % reader.at)
    except Fault as fault:
        return str(fault)
    return "same"


# ---- what is written

TOP = (1 << 64) - 1
two = fixed([key(1), key(2)], 7, 1, 60)
four = fixed([key(9), key(3), key(7), key(5)], TOP, 0, 0xffffffff)
paid = outcome(allocation(0, item(person(1), 5), item(person(2), 0)))
full = outcome(
    allocation(0, *[item(person(n), n) for n in range(16)]),
    allocation(3, item(channel(8), TOP)),
    guarantee(4, name(6), *[channel(n) for n in range(16)]),
    guarantee(0xffffffff, name(5)))
first = state(0, 0, outcome())
top = state((1 << 48) - 1, 1, full, bytes(range(256)) * 16)
long_signature = bytes(9004)

VALID = [
    ("deposit", "call", b"\x01" + name(4) + u32(9) + u64(3) + u64(2)),
    ("deposit-greatest", "call", b"\x01" + name(255) + u32(0xffffffff) + u64(TOP) + u64(TOP)),
    ("challenge", "call", b"\x02" + chain(two, [state(4, 0, paid, b"\x01")], [mark(0, b"ab"), mark(255, b"")]) + b"\x01" + sized(b"sig")),
    ("challenge-widest", "call", b"\x02" + chain(four, [first, first, top, top], [mark(n, long_signature) for n in range(4)]) + b"\xff" + sized(long_signature)),
    ("respond", "call", b"\x03" + two + state(4, 0, paid) + state(5, 0, paid) + sized(b"next")),
    ("refute", "call", b"\x04" + four + top + sized(b"")),
    ("checkpoint", "call", b"\x05" + chain(two, [first, state(1, 0, paid)], [mark(0, b"a"), mark(1, b"b")])),
    ("conclude", "call", b"\x06" + chain(two, [], [])),
    ("transfer", "call", b"\x07" + name(4) + paid + u32(0) + b"\x01"),
    ("claim", "call", b"\x08" + name(4) + outcome(guarantee(2, name(6), person(1), channel(3))) + name(6) + full + u32(2) + b"\xff"),
    ("message", "message", name(4) + state(6, 0, paid, b"data") + sized(b"signature")),
    ("message-greatest", "message", name(0) + top + sized(long_signature)),
]

BROKEN = [
    ("empty", "call", b""),
    ("no-message", "message", b""),
    ("tag-0", "call", b"\x00" + name(4)),
    ("tag-9", "call", b"\x09" + name(4)),
    ("one-participant", "call", b"\x06" + fixed([key(1)], 7, 0, 60)),
    ("five-participants", "call", b"\x06" + fixed([key(n) for n in range(5)], 7, 0, 60)),
    ("key-twice", "call", b"\x04" + fixed([key(1), key(2), key(1)], 7, 0, 60) + first + sized(b"")),
    ("application-3", "call", b"\x04" + fixed([key(1), key(2)], 7, 3, 60) + first + sized(b"")),
    ("payment-of-three", "call", b"\x04" + fixed([key(1), key(2), key(3)], 7, 1, 60) + first + sized(b"")),
    ("no-duration", "call", b"\x04" + fixed([key(1), key(2)], 7, 1, 0) + first + sized(b"")),
    ("five-states", "call", b"\x05" + chain(two, [first] * 5, [])),
    ("five-marks", "call", b"\x05" + chain(two, [first], [mark(0, b"")] * 5)),
    ("turn-too-great", "message", name(4) + state(1 << 48, 0, paid) + sized(b"")),
    ("final-2", "message", name(4) + state(6, 2, paid) + sized(b"")),
    ("data-too-long", "message", name(4) + state(6, 0, paid, bytes(4097)) + sized(b"")),
    ("signature-too-long", "message", name(4) + first + sized(bytes(9005))),
    ("five-assets", "call", b"\x07" + name(4) + outcome(*[allocation(n) for n in range(5)]) + u32(0) + b"\x00"),
    ("assets-unordered", "call", b"\x07" + name(4) + outcome(allocation(3), allocation(3)) + u32(0) + b"\x00"),
    ("kind-3", "call", b"\x07" + name(4) + b"\x01" + u32(0) + b"\x03\x00" + u32(0) + b"\x00"),
    ("seventeen-items", "call", b"\x07" + name(4) + outcome(allocation(0, *[item(person(n), 0) for n in range(17)])) + u32(0) + b"\x00"),
    ("destination-0", "call", b"\x07" + name(4) + outcome(allocation(0, b"\x00" + name(1) + u64(0))) + u32(0) + b"\x00"),
    ("destination-twice", "call", b"\x07" + name(4) + outcome(allocation(0, item(person(1), 0), item(channel(1), 0), item(person(1), 0))) + u32(0) + b"\x00"),
    ("total-too-great", "call", b"\x07" + name(4) + outcome(allocation(0, item(person(1), TOP), item(person(2), 1))) + u32(0) + b"\x00"),
    ("listed-twice", "call", b"\x08" + name(4) + outcome(guarantee(0, name(6), person(1), person(1))) + name(6) + paid + u32(0) + b"\x00"),
]


def turned():
    """Each valid spelling cut short, one byte longer, and with a byte set to another value."""
    dice = random.Random(20261127)
    for label, kind, data in VALID:
        yield label + "-longer", kind, data + b"\x00"
        if len(data) > 3000:
            continue
        for at in sorted(dice.sample(range(len(data)), min(6, len(data)))):
            yield "%s-cut%d" % (label, at), kind, data[:at]
        for at in sorted(dice.sample(range(len(data)), min(12, len(data)))):
            yield "%s-set%d" % (label, at), kind, data[:at] + bytes([dice.randrange(256)]) + data[at + 1:]


here = os.path.dirname(os.path.abspath(__file__))
with open(os.path.join(here, "calls.txt"), "w") as lines, open(os.path.join(here, "..", "stdout"), "w") as wanted:
    for label, kind, data in VALID + BROKEN + list(turned()):
        lines.write("%s %s %s\n" % (label, kind, data.hex() or "-"))
        wanted.write("%s %s\n" % (label, verdict(kind, data)))
