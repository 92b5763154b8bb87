#!/usr/bin/env python3
"""growth.py PROGRAM: how the time that PROGRAM takes to check a record grows with the record, in each of some ways.

Prints of each record its entries, bytes, the seconds of a processor in user mode and the most memory. All are sound. Of
one way no more are tried once one took 30 seconds. Ends with 1 where PROGRAM finds another. It is no part of
examples/check.
"""
import os
import subprocess
import sys
import tempfile

from record_rules import digest, verdict_of

LIMIT = 4194304
Z, C = bytes(32), b"\x11" * 32


def number(n, size):
    return n.to_bytes(size, "big")


def channel(n):
    return digest(b"channel", number(n, 4))


# ---- entries, sums and endings


def time(k):
    return number(k, 4) + number(0, 4) + b"\x02" + number(k, 8) + b"\x06" + number(k, 8)


def deposit(k, name, asset, held):
    call = b"\x01\x01" + name + number(asset, 4) + number(0, 8) + number(1, 8)
    return number(k, 4) + number(0, 4) + call + b"\x01" + number(held, 8)


def summed(kind, name, asset, amount):
    return number(kind, 1) + name + number(asset, 4) + number(amount, 8)


def record(entries, sums, ends=()):
    parts = [number(len(entries), 4), *entries, number(len(sums), 4), *sums, number(len(ends), 1), *ends]
    return b"".join(parts)


def times(n):
    return record([time(k) for k in range(1, n + 1)], [])


def one_channel(n):
    sums = [summed(1, Z, 0, n), summed(2, C, 0, n)]
    return record([deposit(k, C, 0, k) for k in range(1, n + 1)], sums)


def channels(n):
    sums = [summed(1, Z, 0, n)] + [summed(2, channel(k), 0, 1) for k in range(1, n + 1)]
    return record([deposit(k, channel(k), 0, 1) for k in range(1, n + 1)], sums)


def assets(n):
    sums = [summed(1, Z, k, 1) for k in range(1, n + 1)] + [summed(2, C, k, 1) for k in range(1, n + 1)]
    return record([deposit(k, C, k, 1) for k in range(1, n + 1)], sums)


def shares(n):
    """Each entry has a channel and an asset of its own, and 16 people have 64 other channels, of which two can end with
    two outcomes: nobody gets anything.
    """
    names = [digest(b"other", number(k, 4)) for k in range(64)]
    parts = b"".join(b"\x01" + name for name in names)
    plain = number(4, 8) + bytes(4)
    voted = number(4, 8) + b"\x00\x00\x00\x08\x01\x01" + number(0, 4) + b"\x01\x00"
    known = b"".join(name + (voted if k > 61 else plain) for k, name in enumerate(names))
    got = b"".join(number(k, 4) + number(0, 16) for k in range(1, n + 1))
    ending = Z + b"\x40" + parts + b"\x40" + known + b"\x00" + number(n, 4) + got
    sums = [summed(1, Z, k, 1) for k in range(1, n + 1)] + [summed(2, channel(k), k, 1) for k in range(1, n + 1)]
    return record([deposit(k, channel(k), k, 1) for k in range(1, n + 1)], sums, [ending] * 16)


def outcome(assets, items):
    people = b"".join(b"\x01" + digest(b"p", number(j, 4)) + number(j + 1, 8) for j in range(items))
    return number(len(assets), 1) + b"".join(number(asset, 4) + b"\x01" + number(items, 1) + people for asset in assets)


def named_shares(n):
    """As shares, but that the channels are a root and 63 on it, whose outcomes name four assets each, with 16 items."""
    names = [digest(b"other", number(k, 4)) for k in range(64)]
    parts = b"\x01" + names[0] + b"".join(b"\x02" + names[0] + name for name in names[1:])
    known = b""
    for k, name in enumerate(names):
        assets = sorted({1 + (4 * k + j) % n for j in range(4)})
        votes = b"\x01" + outcome(assets, 17) if k > 61 else b""
        known += name + number(4, 8) + b"\x00" + outcome(assets, 16) + number(len(votes), 2) + votes
    got = b"".join(number(k, 4) + number(0, 16) for k in range(1, n + 1))
    ending = Z + b"\x40" + parts + b"\x40" + known + b"\x00" + number(n, 4) + got
    sums = [summed(1, Z, k, 1) for k in range(1, n + 1)] + [summed(2, channel(k), k, 1) for k in range(1, n + 1)]
    return record([deposit(k, channel(k), k, 1) for k in range(1, n + 1)], sums, [ending] * 16)


# ---- signed chains


class Signer:
    """LM-OTS type 4, whose verification takes most for its length; LMS type 5, of which index 0 alone is used."""

    def __init__(self, seed):
        self.seed, self.id = seed, digest(seed)[:16]
        tree = {32 + q: self.hashed(32 + q, b"\x82\x82", self.ots_key(q)) for q in range(32)}
        for r in range(31, 0, -1):
            tree[r] = self.hashed(r, b"\x83\x83", tree[2 * r], tree[2 * r + 1])
        self.path = b"".join(tree[r] for r in (33, 17, 9, 5, 3))
        self.key = number(5, 4) + number(4, 4) + self.id + tree[1]

    def hashed(self, q, *parts):
        return digest(self.id, number(q, 4), *parts)

    def along(self, q, i, steps):
        at = self.hashed(q, number(i, 2), b"\xff", self.seed)
        for j in range(steps):
            at = self.hashed(q, number(i, 2), number(j, 1), at)
        return at

    def ots_key(self, q):
        return self.hashed(q, b"\x80\x80", *(self.along(q, i, 255) for i in range(34)))

    def sign(self, message):
        hashed = self.hashed(0, b"\x81\x81", Z, message)
        digits = hashed + number(sum(255 - digit for digit in hashed), 2)
        chains = b"".join(self.along(0, i, digit) for i, digit in enumerate(digits))
        return number(0, 4) + number(4, 4) + Z + chains + number(5, 4) + self.path


def checkpoints(n):
    """The first is accepted, and the others aren't newer."""
    signers = [Signer(bytes([seed]) * 32) for seed in (1, 2)]
    fixed = b"\x02" + b"".join(signer.key for signer in signers) + number(0, 8) + b"\x00" + number(1, 4)
    state = number(4, 8) + bytes(4)
    message = b"\x05" + digest(b"\x03", digest(b"\x01", fixed), state)
    marks = b"".join(b"\x00" + number(1292, 2) + signer.sign(message) for signer in signers)
    call = number(0, 4) + b"\x01\x05" + fixed + b"\x01" + state + b"\x02" + marks
    replies = [b"\x03"] + [b"\x07\x0a"] * (n - 1)
    return record([number(k, 4) + call + reply + number(4, 8) for k, reply in enumerate(replies, 1)], [])


# ---- checks


def checked(data):
    """What is printed, and the seconds and kilobytes that it took."""
    with tempfile.TemporaryFile() as file:
        file.write(data)
        file.seek(0)
        run = subprocess.Popen([sys.argv[1], "check"], stdin=file, stdout=subprocess.PIPE)
        text = run.stdout.read().decode()
        _, run.returncode, usage = os.wait4(run.pid, 0)
    return text, usage.ru_utime, usage.ru_maxrss


def main():
    right = True
    for make in (times, one_channel, channels, assets, checkpoints, shares, named_shares):
        right, seconds = right and verdict_of(make(3)) == "sound entries 3", 0
        for n in (125, 250, 500, 1000, 2000, 4000, 8000, 16000, 32000, 65536):
            data = make(n)
            if len(data) > LIMIT or seconds > 30:
                break
            text, seconds, kilobytes = checked(data)
            right = right and text == f"sound entries {n}\n"
            cost = f"bytes {len(data)} seconds {seconds:.3f} kilobytes {kilobytes}"
            print(make.__name__, n, cost, text.strip(), flush=True)
    sys.exit(0 if right else 1)


if __name__ == "__main__":
    main()
