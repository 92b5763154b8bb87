#!/usr/bin/env python3
"""records.py PROGRAM: gives PROGRAM broken records, and looks whether it says of each what is so.

Records are those of records.lines, which are sound, and of examples/records.lines; of the first three each front, one
byte more, and each byte made 0x00, 0x01, 0x7f, 0xff and one more than it is; of the fourth, which is long as it is
signed, each byte but those of signatures, keys and names made one more, and of these and of the fronts each 97th. Then
come records by chance. What is wanted is worked out by record_rules.py, which stands apart from the program, and by
hand of the records of files. Each run has a second of a processor. Prints how many records were tried, and ends with 1
where one came to something else.
"""
import collections
import multiprocessing
import random
import sys

from record_rules import digest, verdict_of
from scripts import EXAMPLES, end_of

# (where towers.py stands, from which these are, and two people with keys)
sys.path.append(EXAMPLES)
from record_makers import PEOPLE, record_by_chance, signature, sized  # noqa: E402

BYTES = (0x00, 0x01, 0x7F, 0xFF)
FEW = 97
SEEDS = 60
LIMIT = 4194304


# ---- records as they are written


class Names:
    """Bytes by the names of a file, and the signatures in them."""

    def __init__(self):
        self.bytes = {"KEY_A": PEOPLE[0].key, "KEY_B": PEOPLE[1].key}
        self.signatures = set()

    def long_fields(self):
        """Signatures, keys and names."""
        return self.signatures | {it for it in self.bytes.values() if len(it) in (32, 56)}

    def signed(self, kind, who, *words):
        *place, channel, state = words
        of_state = digest(b"\x03", self.bytes[channel], self.bytes[state])
        message = b"\x05" + of_state if kind == "by" else b"\x06" + of_state + bytes([int(place[0])])
        signed = signature("AB".index(who), message)
        self.signatures.add(signed)
        return sized(signed)

    def field(self, field):
        if field.startswith("0x"):
            return bytes.fromhex(field[2:])
        if "/" in field:
            value, length = map(int, field.split("/"))
            return value.to_bytes(length, "big")
        kind, *words = field.split(":")
        if kind in ("by", "called"):
            return self.signed(kind, *words)
        if words:
            return digest(b"\x01" if kind == "channel" else b"\x02", self.bytes[words[0]])
        return self.bytes[field]

    def spelled(self, fields):
        return b"".join(map(self.field, fields.split()))


def records_of(name):
    """What is wanted of each record of a file, its bytes, and its long fields."""
    names = Names()
    with open(f"{EXAMPLES}/{name}", encoding="utf-8") as file:
        lines = [line.strip() for line in file if line.strip() and not line.startswith("#")]
    for line in lines:
        if " = " in line:
            word, fields = line.split(" = ")
            names.bytes[word] = names.spelled(fields)
        else:
            wanted, fields = line.split(": ")
            yield wanted, names.spelled(fields), names.long_fields()


# ---- broken records


def made(what, data, place, byte):
    return f"{what}, byte {place} made {byte}", data[:place] + bytes([byte]) + data[place + 1 :]


def whole_breaks(what, data):
    yield from ((f"{what}, the first {length}", data[:length]) for length in range(len(data)))
    yield f"{what} and one byte", data + b"\x00"
    for place, old in enumerate(data):
        for byte in sorted({*BYTES, (old + 1) % 256} - {old}):
            yield made(what, data, place, byte)


def few_breaks(what, data, long_fields):
    yield from ((f"{what}, the first {length}", data[:length]) for length in range(0, len(data), FEW))
    inside = set()
    for field in long_fields:
        place = data.find(field)
        while place >= 0:
            inside.update(range(place, place + len(field)))
            place = data.find(field, place + len(field))
    for place, old in enumerate(data):
        if place not in inside or place % FEW == 0:
            yield made(what, data, place, (old + 1) % 256)


def limits(data):
    """As much as the program reads, and a byte more, of which it reads nothing."""
    yield "the most bytes", data + bytes(LIMIT - len(data))
    yield "too many bytes", data + bytes(LIMIT + 1 - len(data))


def by_chance():
    """Records by chance, and each with a byte changed, three times, more often near the end."""
    for seed in range(SEEDS):
        yield f"seed {seed}", seed
        for turn in range(3):
            yield f"seed {seed}, change {turn}", (seed, turn)


def data_of(case):
    if isinstance(case, bytes):
        return case
    if isinstance(case, int):
        return record_by_chance(case)
    data, chance = record_by_chance(case[0]), random.Random(repr(case))
    place = len(data) - 1 - int(len(data) * chance.random() ** 3)
    return data[:place] + bytes([data[place] ^ chance.randrange(1, 256)]) + data[place + 1 :]


def tried(case):
    """What a record comes to, and what is wrong with that."""
    what, data = case[0], data_of(case[1])
    wanted, wanted_status = verdict_of(data), 3
    if len(data) > LIMIT:
        wanted, wanted_status = "too long", 6
    elif wanted.startswith("sound"):
        wanted_status = 0
    status, text = end_of(["check"], data)
    right = (status, text) == (wanted_status, wanted + "\n")
    return wanted if wanted == "too long" else wanted.split()[0], None if right else f"{what}: status {status}, {text[:60]!r}, wanted is {wanted}"


def check(kind, cases, at_once=100):
    counts, wrong = collections.Counter(), []
    with multiprocessing.Pool() as pool:
        for came_to, fault in pool.imap_unordered(tried, cases, chunksize=at_once):
            counts[came_to] += 1
            if fault:
                wrong.append(fault)
    came_to = ", ".join(f"{count} {word}" for word, count in sorted(counts.items()))
    print(f"{kind}: {sum(counts.values())} records, {came_to}")
    for fault in wrong[:20]:
        print(fault)
    return not wrong


def check_by_hand(records):
    """What was worked out by hand is what record_rules.py says."""
    found = [(wanted, verdict_of(data)) for wanted, data, _ in records]
    for wanted, verdict in found:
        if verdict != wanted:
            print(f"a record: {verdict}, by hand {wanted}")
    return all(verdict == wanted for wanted, verdict in found)


def main():
    sound, other = list(records_of("hostile/records.lines")), list(records_of("records.lines"))
    whole = [(f"record {place}", it[1]) for place, it in enumerate(sound + other)]
    passed = [check_by_hand(sound + other), check("whole records", whole + list(limits(sound[0][1])), 1)]
    for place, (_, data, long_fields) in enumerate(sound):
        what = f"record {place}"
        breaks = whole_breaks(what, data) if place < 3 else few_breaks(what, data, long_fields)
        passed.append(check(f"broken bytes of {what}", breaks))
    passed.append(check("records by chance", by_chance(), 4))
    sys.exit(0 if all(passed) else 1)


if __name__ == "__main__":
    main()
