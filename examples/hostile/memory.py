#!/usr/bin/env python3
"""memory.py PROGRAM [EVERY]: runs PROGRAM with each allocation refused, alone or with all behind it; in a long race with
each EVERYth (100).

A run that met a refusal ends with status 1 and prints nothing, or with 0 and prints what it prints with ample memory;
in a race it then prints the text of some race. Prints how many refusals were tried; ends with 1 where one ended in
another way, which is told, and with 2 where there is no compiler for refuse.c.
"""
import os
import re
import subprocess
import sys
import tempfile
from concurrent.futures import ThreadPoolExecutor

HERE = os.path.dirname(os.path.abspath(__file__))
EXAMPLES = os.path.dirname(HERE)
AT_ONCE = os.cpu_count() or 1
SECONDS = 60

# Words, and the script that is read, of which each allocation is refused in a copy of the program: a node's whole life;
# a ledger and a virtual channel on it, opened and left; the life of a load; and a node's life as JSON.
RUNS = [
    ("run", "payment.json"),
    ("run", "hostile/virtual.json"),
    ("load --seed 1 --count 3", None),
    ("run --json", "payment.json"),
]
# Races, whose allocations in threads are refused in runs of their own; in the first, entries have one order.
RACES = [
    ("race", "hostile/two_rounds.json"),
    ("race", "races/equivocator.json"),
]


def started(program, words, script, refusing, **how):
    """The program with these words and this script, whose allocations are refused so."""
    file = open(os.path.join(EXAMPLES, script)) if script else subprocess.DEVNULL
    environment = {**os.environ, **{name: str(it) for name, it in refusing.items()}}
    return subprocess.Popen([program, *words.split()], stdin=file, env=environment, **how)


def plain(program, words, script):
    """What it prints with ample memory."""
    run = started(program, words, script, {}, stdout=subprocess.PIPE)
    text = run.communicate()[0]
    if run.returncode != 0:
        sys.exit(f"memory.py: {words} {script} ends with {run.returncode} with ample memory")
    return text


def reported(program, words, script, refusing):
    """The end of a run, what it prints, and the lines of its report."""
    read, write = os.pipe()
    refusing = {"LD_PRELOAD": LIBRARY, "REFUSE_REPORT": write, **refusing}
    run = started(program, words, script, refusing, stdout=subprocess.PIPE, pass_fds=[write])
    os.close(write)
    with ThreadPoolExecutor(2) as pool, open(read) as lines:
        report = pool.submit(lambda: lines.read().split("\n")[:-1])
        text = run.stdout.read()
        run.wait()
        return run.returncode, text, [line.split() for line in report.result()]


class Tally:
    """What refusals came to."""

    def __init__(self, of):
        self.of, self.counts, self.wrong, self.beside = of, {0: 0, 1: 0}, [], 0

    def take(self, at, status, length, is_right):
        if (status, length) == (1, 0) or (status == 0 and is_right):
            self.counts[status] += 1
        else:
            self.wrong.append(f"{self.of}: with {at} refused: status {status} and {length} bytes")

    def tell(self):
        tried = self.counts[0] + self.counts[1] + len(self.wrong)
        print(f"{self.of}: {tried} refusals, {self.counts[1]} ended with status 1, {self.counts[0]} with 0", flush=True)
        for line in self.wrong[:20]:
            print(line)
        return not self.wrong and tried > 0


def check_run(program, words, script, ever):
    """Refuses allocations in copies of one run."""
    text = plain(program, words, script)
    tally = Tally(f"{words} {script or ''}, {'all from one on' if ever else 'one'}")
    with tempfile.NamedTemporaryFile() as wanted:
        wanted.write(text)
        wanted.flush()
        parts = [{"REFUSE_EACH": f"{part}/{AT_ONCE}"} for part in range(AT_ONCE)]
        how = {"REFUSE_TEXT": wanted.name, **({"REFUSE_EVER": 1} if ever else {})}
        with ThreadPoolExecutor(AT_ONCE) as pool:
            ends = list(pool.map(lambda it: reported(program, words, script, {**how, **it}), parts))
    for status, printed, report in ends:
        if (status, printed) != (0, text) or not report or report[-1][0] != "end" or report[-1][3] != "0":
            sys.exit(f"memory.py: {tally.of} ends with {status}: {report[-1:]}")
        for _, at, status, length, same in report[:-1]:
            tally.take(f"allocation {at}", int(status), int(length), same == "1")
    return tally.tell()


def is_race(text):
    """Whether entries are numbered in order, amounts add up, and all watchers were in time."""
    lines = [line.split() for line in text.decode().split("\n")[:-1]]
    numbers = [int(line[0]) for line in lines if line[0].isdigit()]
    ends = [line for line in lines if line[0] == "end"]
    return (
        numbers == list(range(1, len(numbers) + 1))
        and [int(line[2]) for line in ends] == [len(numbers)]
        and all(int(line[3]) == int(line[5]) + int(line[7]) for line in lines if line[0] == "asset")
        and all(line[7] == "yes" for line in lines if line[0] == "premises")
    )


def check_race(program, words, script, every, kind, ever):
    """Refuses allocations, or threads, in a run each."""
    text = plain(program, words, script)
    is_fixed = script.startswith("hostile/")
    status, _, report = reported(program, words, script, {})
    count = int(report[-1][1 if kind == "REFUSE_AT" else 2])
    noun = "allocation" if kind == "REFUSE_AT" else "thread"
    tally = Tally(f"{words} {script}, {'all from one on' if ever else 'one'} ({noun}s)")

    def end(at):
        refusing = {kind: at, **({"REFUSE_EVER": 1} if ever else {})}
        return (at, *reported(program, words, script, refusing)[:2])

    with ThreadPoolExecutor(AT_ONCE) as pool:
        for at, status, printed in pool.map(end, range(1, count + 1, every)):
            is_right = printed == text if is_fixed else is_race(printed)
            tally.take(f"{noun} {at}", status, len(printed), is_right)
    return tally.tell()


program, every = os.path.abspath(sys.argv[1]), int((sys.argv[2:] or ["100"])[0])
with tempfile.TemporaryDirectory() as folder:
    LIBRARY = f"{folder}/refuse.so"
    try:
        compiler = os.environ.get("CC", "cc")
        subprocess.run([compiler, "-O2", "-shared", "-fPIC", "-o", LIBRARY, f"{HERE}/refuse.c"], check=True)
    except (OSError, subprocess.CalledProcessError) as fault:
        print(f"memory.py: refuse.c wasn't compiled: {fault}")
        sys.exit(2)
    passed = [check_run(program, *run, ever) for run in RUNS for ever in (False, True)]
    for words, script in RACES:
        stride = every if script.startswith("races/") else 1
        passed += [check_race(program, words, script, stride, "REFUSE_AT", ever) for ever in (False, True)]
        passed += [check_race(program, words, script, 1, "REFUSE_THREAD", ever) for ever in (False, True)]
sys.exit(0 if all(passed) else 1)
