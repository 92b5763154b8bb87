#!/usr/bin/env python3
"""What `nitro node` costs: payments a second with a sync each and in batches, a start on a long file, memory and file size.

    figures.py [--height H] [--folder FOLDER] [--program PATH]

Two people pay each other until the rest of their keys is for leaving. What the first node was given is then given to new ones:
line by line, each after the response to the one before it, and all at once. FOLDER is on the disk that is measured. It is no
part of examples/check.
"""
import argparse
import hashlib
import json
import os
import random
import shutil
import subprocess
import sys
import tempfile
import time

from services import Killer, Service, ends_of, line_of

SEEDS = (32 * "a1", 32 * "b2")


def start_of(seed, height):
    return {"do": "start", "seed": seed, "h": height}


class Node:
    """A node that nobody kills, with all that it was given."""

    def __init__(self, program, path, seed, height):
        self.service = Service([program, "node"], path, Killer(random.Random(0), 0), start_of(seed, height))
        self.events, self.sent, self.seen = [], [], 0
        self.ask({"do": "plan"})
        self.events.clear()
        self.key = self.service.ready["key"]

    def ask(self, event):
        effects = self.service.ask(event)
        self.events.append(event)
        self.sent += [effect["bytes"] for effect in effects if effect["effect"] == "send"]
        return effects

    def tick(self, ledger, entries, other):
        """Shows the node what is new, and enters its calls."""
        for entry in entries[self.seen:]:
            self.ask({"do": "entry", **{key: entry[key] for key in ("number", "by", "op", "reply")}})
            self.seen += 1
        self.take_from(other)
        for effect in self.ask({"do": "tick"}):
            if effect["effect"] == "call":
                entries.append(ledger.ask({"do": "enter", "by": 1, "call": effect["call"]})[0])

    def take_from(self, other):
        messages, other.sent = other.sent, []
        for message in messages:
            self.ask({"do": "message", "bytes": message})


def opened(program, folder, height):
    """Two nodes with an open channel, and its name."""
    ledger, entries = Service([program, "ledger"], os.path.join(folder, "ledger"), Killer(random.Random(0), 0)), []
    nodes = [Node(program, os.path.join(folder, "node-%d" % place), seed, height) for place, seed in enumerate(SEEDS)]
    keys = [node.key for node in nodes]
    fixed = bytes.fromhex("02" + "".join(keys) + "0000000000000001" + "01" + "0000000a")
    channel = {"people": keys, "nonce": 1, "app": "payment", "duration": 10}
    outcome = [{"asset": 0, "items": [[key, 1000000] for key in keys]}]
    for node in nodes:
        node.ask({"do": "open", "channel": channel, "outcome": outcome})
    for _ in range(8):
        for node, other in (nodes, nodes[::-1]):
            node.tick(ledger, entries, other)
    ledger.close()
    return nodes, hashlib.sha256(b"\1" + fixed).hexdigest()


def syncs(folder, count=200):
    """How many small records a second are appended and synced, and nothing else."""
    with open(os.path.join(folder, "synced"), "ab", 0) as file:
        begun = time.monotonic()
        for _ in range(count):
            file.write(300 * b"x")
            os.fdatasync(file.fileno())
        return count / (time.monotonic() - begun)


def fresh(program, path, height):
    service = Service([program, "node"], path, Killer(random.Random(0), 0), start_of(SEEDS[0], height))
    service.start()
    return service


def one_by_one(program, path, height, opening, payments):
    """The seconds of these payments, each of which waits for the response to the one before it."""
    service = fresh(program, path, height)
    for event in opening:
        service.read(event, ends_of(event))
    begun = time.monotonic()
    for event in payments:
        service.read(event, ends_of(event))
    seconds = time.monotonic() - begun
    service.close()
    return seconds


def at_once(program, path, height, opening, payments):
    """The seconds of all from the line `ready` on, where the input is a file."""
    with tempfile.TemporaryFile() as file:
        file.writelines(line_of(event) for event in [start_of(SEEDS[0], height), *opening, *payments])
        file.seek(0)
        child = subprocess.Popen([program, "node", "--state", path], stdin=file, stdout=subprocess.PIPE)
        child.stdout.readline()
        begun = time.monotonic()
        child.stdout.read()
        seconds = time.monotonic() - begun
        child.stdout.close()
        assert child.wait() == 0
        return seconds


def started(program, path, height):
    """The seconds up to the line `ready`, those of a processor, the most memory in KB, and this line. No response is written
    again."""
    child = subprocess.Popen([program, "node", "--state", path], stdin=subprocess.PIPE, stdout=subprocess.PIPE)
    begun = time.monotonic()
    child.stdin.write(line_of(start_of(SEEDS[0], height)))
    child.stdin.flush()
    ready = json.loads(child.stdout.readline())
    seconds = time.monotonic() - begun
    with open("/proc/%d/status" % child.pid, encoding="ascii") as file:
        memory = next(int(line.split()[1]) for line in file if line.startswith("VmHWM:"))
    child.stdin.close()
    child.stdout.close()
    _, _, usage = os.wait4(child.pid, 0)
    return seconds, usage.ru_utime + usage.ru_stime, memory, ready


def main():
    words = argparse.ArgumentParser(description=__doc__.split("\n")[0])
    words.add_argument("--height", type=int, default=10, choices=(5, 10, 15))
    words.add_argument("--folder")
    words.add_argument("--program", default=os.environ.get("NITRO", "nitro"))
    given = words.parse_args()
    program = os.path.abspath(shutil.which(given.program) or given.program)
    with tempfile.TemporaryDirectory(dir=given.folder) as folder:
        print("%d syncs a second of appends alone" % syncs(folder))
        nodes, channel = opened(program, folder, given.height)
        before, count = len(nodes[0].events), 0
        while nodes[0].ask({"do": "pay", "channel": channel, "asset": 0, "amount": 1})[-1]["effect"] == "done":
            count += 2
            nodes[1].take_from(nodes[0])
            nodes[1].ask({"do": "pay", "channel": channel, "asset": 0, "amount": 1})
            nodes[0].take_from(nodes[1])
        for node in nodes:
            node.service.close()
        opening, payments = nodes[0].events[:before], nodes[0].events[before:-1]
        for name, way in (("with a sync each", one_by_one), ("in batches", at_once)):
            seconds = way(program, os.path.join(folder, way.__name__), given.height, opening, payments)
            print("%d payments a second of one node, %s" % (count / seconds, name))
        path = nodes[0].service.path
        seconds, busy, memory, ready = started(program, path, given.height)
        print("a start with %d signatures used: %.2f s, %.2f s of a processor, %d KB of memory, a file of %d bytes and %d "
              "records" % (ready["used"], seconds, busy, memory, os.stat(path).st_size, ready["n"]))
    return 0


if __name__ == "__main__":
    sys.exit(main())
