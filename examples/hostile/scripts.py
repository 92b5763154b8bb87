#!/usr/bin/env python3
"""scripts.py PROGRAM: gives PROGRAM broken scripts, and looks whether each is refused by the rule that it breaks first.

Scripts are: each front of five examples; each of their bytes made 0x00, 0x22, 0x5b, 0x7d and 0xff; and each number of
words.json, which has each word of the script, made the numbers at the edges of all limits, and some that are no numbers.
What is wanted is worked out by rules.py, which stands apart from the program. A script that breaks no rule is played,
with status 0. Each run has a second of a processor. Prints how many scripts were tried, and ends with 1 where one came
to something else.
"""
import collections
import multiprocessing
import os
import re
import resource
import sys

from rules import first_broken

EXAMPLES = os.path.dirname(os.path.dirname(os.path.abspath(__file__)))
BYTES = (0x00, 0x22, 0x5B, 0x7D, 0xFF)
BROKEN_BYTES = ("deposits", "time", "payment", "exit", "races/deposit")
BROKEN_NUMBERS = "hostile/words"
EDGES = [0, 1, 2, 3, 4, 5, 6, 9, 10, 11, 15, 16, 17, 63, 64, 65, 2**8 - 1, 2**8, 2**16, 2**32 - 1, 2**32, 2**48 - 1, 2**48]
EDGES += [2**62, 2**62 + 1, 2**63, 2**64 - 4, 2**64 - 1, 2**64]
ODD = ["-1", "-0", "1.0", "1e1", "0.5", "01", "+1", "1e999", "0x1", "1_0", "", '"1"', "[1]", "null", "true", "9" * 400]


def bytes_of(name):
    with open(f"{EXAMPLES}/{name}.json", "rb") as file:
        return file.read()


def broken_bytes():
    for name in BROKEN_BYTES:
        race, data = name.startswith("races/"), bytes_of(name)
        # (what ends in a line feed is whole without it)
        yield from ((f"{name}, the first {length}", race, data[:length]) for length in range(len(data.rstrip())))
        for place in range(len(data)):
            for byte in BYTES:
                yield f"{name}, byte {place} made {byte}", race, data[:place] + bytes([byte]) + data[place + 1 :]


def broken_numbers():
    data = bytes_of(BROKEN_NUMBERS)
    for found in re.finditer(rb"(?<=[:,\[])[0-9]+(?=[,\]}])", data):
        for number in [*map(str, EDGES), *ODD]:
            changed = data[: found.start()] + number.encode() + data[found.end() :]
            yield f"{BROKEN_NUMBERS}, the number at {found.start()} made {number[:30]}", False, changed


def end_of(words, data):
    """The status of a run, or below 0 a signal, and what it prints."""
    source, sink = os.memfd_create("script"), os.memfd_create("text")
    os.write(source, data)
    os.lseek(source, 0, os.SEEK_SET)
    actions = [(os.POSIX_SPAWN_DUP2, source, 0), (os.POSIX_SPAWN_DUP2, sink, 1)]
    run = os.posix_spawn(PROGRAM, [PROGRAM, *words], {}, file_actions=actions)
    resource.prlimit(run, resource.RLIMIT_CPU, (1, 1))
    status = os.waitstatus_to_exitcode(os.waitpid(run, 0)[1])
    text = os.pread(sink, os.fstat(sink).st_size, 0)
    os.close(source)
    os.close(sink)
    return status, text.decode()


def is_played(text):
    """Whether entries are numbered in order, and amounts add up."""
    lines = [line.split() for line in text.split("\n")[:-1]]
    numbers = [int(line[0]) for line in lines if line[0].isdigit()]
    return (
        text.endswith("\n")
        and numbers == list(range(1, len(numbers) + 1))
        and [int(line[2]) for line in lines if line[0] == "end"] == [len(numbers)]
        and all(int(line[3]) == int(line[5]) + int(line[7]) for line in lines if line[0] == "asset")
    )


def tried(case):
    """What the script comes to, and what is wrong with that."""
    what, race, data = case
    wanted = first_broken(data, race)
    status, text = end_of(["race" if race else "run"], data)
    if wanted is None:
        return "played", None if status == 0 and is_played(text) else f"{what}: status {status}, wanted is a run"
    right = (status, text) == (3, wanted + "\n")
    return wanted.split()[-1], None if right else f"{what}: status {status}, {text[:60]!r}, wanted is {wanted}"


def check(kind, cases):
    counts, wrong = collections.Counter(), []
    with multiprocessing.Pool() as pool:
        for came_to, fault in pool.imap_unordered(tried, cases, chunksize=100):
            counts[came_to] += 1
            if fault:
                wrong.append(fault)
    print(f"{kind}: {sum(counts.values())} scripts,", ", ".join(f"{count} {word}" for word, count in sorted(counts.items())))
    for fault in wrong[:20]:
        print(fault)
    return not wrong


PROGRAM = os.path.abspath(sys.argv[1])
if __name__ == "__main__":
    passed = [check("broken bytes", broken_bytes()), check("broken numbers", broken_numbers())]
    sys.exit(0 if all(passed) else 1)
