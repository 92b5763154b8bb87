#!/usr/bin/env python3
"""Prints the names, keys and signatures of towers.lines: of two people with the seeds of defended.json, who sign in the
order of that run.

It stands apart from the program: it has its own writer of states and fixed parts (docs/definitions/channels.md) and its own
signer (RFC 8554, LM-OTS type 3, LMS type 5), in another language.
"""
import hashlib


def digest(*parts): return hashlib.sha256(b"".join(parts)).digest()
def number(n, size): return n.to_bytes(size, "big")


class Signer:
    def __init__(self, seed):
        self.seed, self.id, self.used = seed, digest(seed, b"\x49")[:16], 0
        self.tree = {32 + q: self.hashed(32 + q, b"\x82\x82", self.ots_key(q)) for q in range(32)}
        for r in range(31, 0, -1):
            self.tree[r] = self.hashed(r, b"\x83\x83", self.tree[2 * r], self.tree[2 * r + 1])
        self.key = number(5, 4) + number(3, 4) + self.id + self.tree[1]

    def hashed(self, q, *parts): return digest(self.id, number(q, 4), *parts)

    def ots_key(self, q):
        return self.hashed(q, b"\x80\x80", *(self.along(q, i, 15) for i in range(67)))

    def along(self, q, i, steps):
        at = self.hashed(q, number(i, 2), b"\xff", self.seed)
        for j in range(steps):
            at = self.hashed(q, number(i, 2), number(j, 1), at)
        return at

    def sign(self, message):
        q, self.used = self.used, self.used + 1
        random = digest(self.seed, b"\x43", number(q, 4))
        hashed = self.hashed(q, b"\x81\x81", random, message)
        digits = [d for b in hashed for d in (b >> 4, b & 15)]
        check = number(sum(15 - d for d in digits) << 4, 2)
        digits += [check[0] >> 4, check[0] & 15, check[1] >> 4]
        chains = b"".join(self.along(q, i, d) for i, d in enumerate(digits))
        path, r = b"", 32 + q
        while r > 1:
            path, r = path + self.tree[r ^ 1], r // 2
        return number(q, 4) + number(3, 4) + random + chains + number(5, 4) + path


a, b = Signer(b"\x11" * 32), Signer(b"\x22" * 32)
people = [digest(b"\x02", person.key) for person in (a, b)]
fixed = number(2, 1) + a.key + b.key + number(1, 8) + number(1, 1) + number(4, 4)
channel = digest(b"\x01", fixed)


def state(turn, *amounts):
    items = b"".join(b"\x01" + to + number(amount, 8) for to, amount in zip(people, amounts))
    return number(turn, 8) + b"\x00\x01" + number(0, 4) + b"\x01\x02" + items + b"\x00\x00"


def of_state(turn, *amounts): return digest(b"\x03", channel, state(turn, *amounts))
def sign(person, turn, *amounts): return person.sign(b"\x05" + of_state(turn, *amounts))
def challenge(person, place, *last): return person.sign(b"\x06" + of_state(*last) + number(place, 1))


sign(a, 0, 6, 2), sign(b, 1, 6, 2), sign(a, 2, 6, 2)
told = {"KEY_A": a.key, "KEY_B": b.key, "A": people[0], "B": people[1], "C": channel,
        "BY_B3": sign(b, 3, 6, 2), "BY_A4": sign(a, 4, 5, 3), "BY_B5": sign(b, 5, 7, 1),
        "CALLED": challenge(b, 1, 4, 5, 3), "CALLED_AGAIN": challenge(b, 1, 4, 5, 3)}
if __name__ == "__main__":
    for name, value in told.items():
        print("%s = 0x%s" % (name, value.hex()))
