#!/usr/bin/env python3
"""streams.py PROGRAM: gives PROGRAM sources and sinks that are slow, broken or full.

A source that fails ends it with status 4 and `read fault`; bytes that come one at a time, or in two parts, whatever the
two, come to the same; a sink that fails ends it with status 5 and has a front of the text. Prints how many runs there
were; ends with 1 where one came to something else. What needs refuse.c is left out where there is no compiler.
"""
import collections
import fcntl
import os
import struct
import subprocess
import sys
import tempfile
import termios
import time
from concurrent.futures import ThreadPoolExecutor

HERE = os.path.dirname(os.path.abspath(__file__))
PROGRAM = os.path.abspath(sys.argv[1])
SCRIPT_FILE = f"{HERE}/../deposits.json"
with open(SCRIPT_FILE, "rb") as script, open(f"{HERE}/../deposits.txt", "rb") as wanted_text:
    SCRIPT, TEXT = script.read(), wanted_text.read()
# What ends in a line feed is whole without it.
LENGTH = len(SCRIPT.rstrip())
NOT_JSON = (3, b"script 0 1 NotJson\n")
READ_FAULT = (4, b"read fault\n")
WHOLE = (0, TEXT)


def end_of(sink=subprocess.PIPE, source=None, script=SCRIPT_FILE, **refusing):
    """The status of a run, or below 0 a signal, and what it prints into a pipe."""
    environment = {name: str(it) for name, it in refusing.items()}
    if refusing:
        environment["LD_PRELOAD"] = LIBRARY
    with open(script, "rb") as file:
        run = subprocess.run([PROGRAM, "run"], stdin=file if source is None else source, stdout=sink, env=environment)
    return run.returncode, run.stdout


def end_without(redirection):
    """The same of a run with a source or a sink less."""
    words = ["sh", "-c", f'exec "$0" run {redirection}', PROGRAM]
    with open(SCRIPT_FILE, "rb") as file:
        run = subprocess.run(words, stdin=file, stdout=subprocess.PIPE)
    return run.returncode, run.stdout


def end_of_parts(parts):
    """The same of a source that has each part ready only once the part before was taken."""
    with subprocess.Popen([PROGRAM, "run"], stdin=subprocess.PIPE, stdout=subprocess.PIPE, bufsize=0) as run:
        for part in parts:
            run.stdin.write(part)
            while struct.unpack("i", fcntl.ioctl(run.stdin, termios.FIONREAD, bytes(4)))[0] > 0:
                time.sleep(0.0001)
        run.stdin.close()
        text = run.stdout.read()
    return run.returncode, text


def slow_sources():
    one_by_one = [SCRIPT[place : place + 1] for place in range(len(SCRIPT))]
    yield "slow sources", "one byte at a time", lambda: end_of_parts(one_by_one), WHOLE
    for place in range(len(SCRIPT) + 1):
        parts = SCRIPT[:place], SCRIPT[place:]
        yield "slow sources", f"in two, at {place}", lambda parts=parts: end_of_parts(parts), WHOLE


def broken_sources():
    """Sources that the system refuses to read."""
    empty, end = os.pipe()
    os.set_blocking(empty, False)
    folder = os.open("/", os.O_RDONLY)
    for what, source in (("a pipe without bytes", empty), ("the end to write to", end), ("a folder", folder)):
        yield "broken sources", what, lambda source=source: end_of(source=source), READ_FAULT
    yield "broken sources", "none", lambda: end_without("<&-"), READ_FAULT


def broken_sinks(broken_script):
    """Sinks that take nothing: whoever reads is gone, the pipe is full, the disk is full, it is there to read, or none."""
    closed, full = os.pipe(), os.pipe()
    os.close(closed[0])
    os.set_blocking(full[1], False)
    os.write(full[1], bytes(fcntl.fcntl(full[1], fcntl.F_GETPIPE_SZ)))
    sinks = [closed[1], full[1], os.open("/dev/full", os.O_WRONLY), os.open("/dev/null", os.O_RDONLY)]
    for script in (SCRIPT_FILE, broken_script):
        for number, sink in enumerate(sinks):
            what = f"sink {number}, {os.path.basename(script)}"
            yield "broken sinks", what, lambda sink=sink, script=script: end_of(sink, script=script), (5, None)
    yield "broken sinks", "none", lambda: end_without(">&-"), (5, b"")


def broken_calls():
    """Each call of a source, or of a sink, of one byte each, fails or moves no byte."""

    def case(what, wanted, **refusing):
        return "broken calls", what, lambda: end_of(REFUSE_BYTES=1, **refusing), wanted

    for place in range(len(SCRIPT) + 1):
        ended = WHOLE if place >= LENGTH else NOT_JSON
        yield case(f"read {place} fails", READ_FAULT, REFUSE_READ=place + 1)
        yield case(f"read {place} moves nothing", ended, REFUSE_READ=place + 1, REFUSE_QUIETLY=1)
    for place in range(len(TEXT)):
        yield case(f"write {place} fails", (5, TEXT[:place]), REFUSE_WRITE=place + 1)
        yield case(f"write {place} moves nothing", (5, TEXT[:place]), REFUSE_WRITE=place + 1, REFUSE_QUIETLY=1)
    yield case("none fails", WHOLE, REFUSE_READ=len(SCRIPT) + 2, REFUSE_WRITE=len(TEXT) + 1)


with tempfile.TemporaryDirectory() as folder:
    LIBRARY, broken_script = f"{folder}/refuse.so", f"{folder}/broken"
    with open(broken_script, "wb") as file:
        file.write(SCRIPT[: LENGTH - 1])
    cases = [*slow_sources(), *broken_sources(), *broken_sinks(broken_script)]
    try:
        words = [os.environ.get("CC", "cc"), "-O2", "-shared", "-fPIC", "-o", LIBRARY, f"{HERE}/refuse.c"]
        subprocess.run(words, check=True)
        cases += broken_calls()
    except (OSError, subprocess.CalledProcessError) as fault:
        print(f"streams.py: refuse.c wasn't compiled: {fault}")
    with ThreadPoolExecutor(os.cpu_count()) as pool:
        found = list(pool.map(lambda case: case[2](), cases))
faults = [f"{kind}, {what}: {end}, wanted is {wanted}" for (kind, what, _, wanted), end in zip(cases, found) if end != wanted]
counts = collections.Counter(kind for kind, *_ in cases)
print("streams:", ", ".join(f"{count} {kind}" for kind, count in counts.items()))
for fault in faults[:20]:
    print(fault)
sys.exit(1 if faults else 0)
