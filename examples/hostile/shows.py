#!/usr/bin/env python3
"""shows.py PROGRAM: compares what `PROGRAM show` prints of records with what record_text.py says of their bytes.

Records are those of all scripts in examples/ and examples/runs that are played; those of records.lines, sound or not; some
by chance, each also with a byte changed; and each 97th front of one. Prints how many were shown, and ends with 1 where one
was shown in another way.
"""
import glob
import multiprocessing
import os
import random
import subprocess
import sys

import scripts
from record_text import shown
from scripts import EXAMPLES, end_of

sys.path.append(EXAMPLES)
from record_makers import record_by_chance  # noqa: E402
from records import records_of  # noqa: E402

SEEDS = 20
FEW = 97


def recorded(path):
    """The record of a script, or nothing where it isn't played."""
    with open(path, "rb") as script:
        run = subprocess.run([scripts.PROGRAM, "record", "run"], stdin=script, capture_output=True, check=False)
    return run.stdout if run.returncode == 0 else None


def cases():
    for path in sorted(glob.glob(f"{EXAMPLES}/*.json") + glob.glob(f"{EXAMPLES}/runs/*.json")):
        yield os.path.relpath(path, EXAMPLES), recorded(path)
    for name in ("hostile/records.lines", "records.lines"):
        for place, (_, data, _) in enumerate(records_of(name)):
            yield f"record {place} of {name}", data
    for seed in range(SEEDS):
        data, chance = record_by_chance(seed), random.Random(seed)
        place = chance.randrange(len(data))
        yield f"seed {seed}", data
        yield f"seed {seed}, byte {place}", data[:place] + bytes([data[place] ^ chance.randrange(1, 256)]) + data[place + 1 :]
    data = record_by_chance(SEEDS)
    for length in range(0, len(data), FEW):
        yield f"the first {length} of seed {SEEDS}", data[:length]


def difference(case):
    """What is wrong with what is shown of a record, or None."""
    what, data = case
    wanted, wanted_status = shown(data)
    status, text = end_of(["show"], data)
    return None if (text, status) == (wanted, wanted_status) else f"{what}: status {status}, {text[:80]!r}, wanted is {wanted[:80]!r}"


def main():
    all_cases = [it for it in cases() if it[1] is not None]
    with multiprocessing.Pool() as pool:
        wrong = [it for it in pool.imap(difference, all_cases, chunksize=4) if it]
    print(f"shows.py: {len(all_cases)} records were shown, {len(wrong)} in another way")
    for fault in wrong[:20]:
        print(fault)
    sys.exit(1 if wrong or len(all_cases) < 100 else 0)


if __name__ == "__main__":
    main()
