#!/usr/bin/env python3
"""Compares a program with the model on random plays: `compare.py PROGRAM FIRST COUNT [--scripts] [--hubs]`.

PROGRAM, which may have words of its own (`"./nitro run"`), is given the routes of a play as further words and its
script as standard input; status and text must be the model's. With `--scripts` all virtual channels are plain and no
routes are given. With `--hubs` the plays are those of `hubs.py`. Four plays run at a time. Each difference is told by
its seed and the first line that differs; `plays.py SEED` and `hubs.py SEED` print the script. Ends with 1 where one
differs.
"""
import json
import shlex
import subprocess
import sys
from concurrent.futures import ProcessPoolExecutor
from itertools import zip_longest

import hubs
import plays
from play import play

AT_ONCE, SECONDS = 4, 900


def first_difference(found, wanted):
    """The first line, from 1, at which two texts differ, with both, or None."""
    for number, (one, two) in enumerate(zip_longest(found.split("\n"), wanted.split("\n")), 1):
        if one != two:
            return f"line {number} is {one!r}, and {two!r} in the model"
    return None


def compare(work):
    """What differs in the play of a seed, or None."""
    program, seed, onward, make = work
    script, routes = make(seed, onward)
    wanted = play(script["steps"], routes).text()
    words = shlex.split(program) + (routes if onward else [])
    try:
        done = subprocess.run(words, input=json.dumps(script).encode(), stdout=subprocess.PIPE, timeout=SECONDS)
    except subprocess.TimeoutExpired:
        return f"no answer in {SECONDS} seconds"
    if done.returncode != 0:
        return f"status {done.returncode} after {done.stdout[:80]!r}"
    return first_difference(done.stdout.decode("ascii", "replace"), wanted)


def main(words):
    onward, make = "--scripts" not in words, hubs.make if "--hubs" in words else plays.make
    program, first, count = [word for word in words if word not in ("--scripts", "--hubs")]
    seeds = range(int(first), int(first) + int(count))
    agreed = 0
    with ProcessPoolExecutor(AT_ONCE) as workers:
        for seed, differs in zip(seeds, workers.map(compare, [(program, seed, onward, make) for seed in seeds])):
            agreed += differs is None
            if differs:
                print(f"seed {seed}: {differs}", flush=True)
    print(f"{agreed} of {len(seeds)} plays agree")
    return 0 if agreed == len(seeds) else 1


if __name__ == "__main__":
    sys.exit(main(sys.argv[1:]))
