#!/usr/bin/env python3
"""What the events of a hub's `nitro node` cost, while the ledger has more and more channels of others.

    hub.py [--own N ..] [--others N ..] [--repeat N] [--check] [--folder FOLDER] [--program PATH]

Strangers deposit into channels of their own, and a hub is shown these entries. Then the hub and one client, each with a node,
open some payment channels with each other. Four kinds of events are timed, each from its line to the end of its response: a
tick, a payment, an entry of a further stranger, and a message with the client's payment. A table has the medians in
milliseconds, and the factor by which each grows from the fewest strangers' channels to the most. With `--check` the status is
1 if a factor is above 1.2. State files are in memory, where syncs cost nothing, unless FOLDER is given. It is no part of
examples/check.
"""
import argparse
import concurrent.futures
import contextlib
import hashlib
import itertools
import json
import os
import shutil
import statistics
import subprocess
import sys
import tempfile
import threading
import time

from services import ends_of, line_of

COLUMNS = ("tick", "payment", "entry", "message")
LIMIT = 1.2
SIGNATURES = 1024
HUB, CLIENT = 32 * "a1", 32 * "b2"
LEAST, PATIENCE = 5, 3


class Process:
    """A process that answers lines, and that nobody kills."""

    def __init__(self, *words):
        self.child = subprocess.Popen(words, stdin=subprocess.PIPE, stdout=subprocess.PIPE)

    def read(self):
        line = self.child.stdout.readline()
        if not line:
            sys.exit("hub.py: `nitro %s` ended with status %d" % (self.child.args[1], self.child.wait()))
        return line

    def write(self, *lines):
        # (if the process ended, what is read next says so)
        with contextlib.suppress(BrokenPipeError):
            self.child.stdin.writelines(lines)
            self.child.stdin.flush()

    def timed(self, event, ends):
        """The effects that answer an event, up to one of these, and the seconds up to the last of them."""
        ends = tuple(b'{"effect":"%s"' % end.encode() for end in ends)
        text, lines = line_of(event), []
        begun = time.perf_counter()
        self.write(text)
        while not lines or not lines[-1].startswith(ends):
            lines.append(self.read())
        seconds = time.perf_counter() - begun
        return [json.loads(line) for line in lines], seconds

    def close(self):
        """Ends the input, and waits for the end of the process."""
        self.child.stdin.close()
        self.child.stdout.close()
        self.child.wait()


class Node(Process):
    """A node, with its messages and calls that nobody carried yet, and how many entries it was shown."""

    def __init__(self, program, path, seed):
        super().__init__(program, "node", "--state", path)
        ready = self.timed({"do": "start", "seed": seed, "h": 10}, ("ready",))[0][-1]
        self.key, self.sent, self.calls, self.shown = ready["key"], [], [], 0

    def takes(self, event):
        """The seconds that an event takes, which isn't refused."""
        effects, seconds = self.timed(event, ends_of(event))
        if effects[-1]["effect"] != "done" or effects[0]["effect"] == "refused":
            sys.exit("hub.py: a node answers %s to %s" % (effects, event))
        self.sent += [effect["bytes"] for effect in effects if effect["effect"] == "send"]
        self.calls += [effect["call"] for effect in effects if effect["effect"] == "call"]
        return seconds

    def takes_from(self, other):
        """The seconds of the messages that another node sent."""
        messages, other.sent = other.sent, []
        return sum(self.takes({"do": "message", "bytes": message}) for message in messages)

    def next_entry(self, by, op, reply):
        self.shown += 1
        return {"do": "entry", "number": self.shown, "by": by, "op": op, "reply": reply}

    def next_deposit(self):
        """The next entry, by which a stranger deposits 1 of asset 0 into a new channel, which then holds 1."""
        channel = hashlib.sha256(b"stranger %d" % self.shown).hexdigest()
        return self.next_entry(2, "0101" + channel + "%08x%016x%016x" % (0, 0, 1), "01%016x" % 1)

    def follows_strangers(self, count):
        """Follows entries that are written without a wait. The answer to a query comes after all of theirs."""
        lines = [line_of(self.next_deposit()) for _ in range(count)] + [line_of({"do": "plan"})]
        writer = threading.Thread(target=self.write, args=lines, daemon=True)
        writer.start()
        while not (line := self.read()).startswith(b'{"effect":"plan"'):
            if line.startswith(b'{"effect":"error"'):
                sys.exit("hub.py: a node answers %r to an entry" % line)
        writer.join()


class Pair:
    """A hub and a client, with channels of their own that they opened when a ledger had channels of many others.

    The client follows a ledger without those others. Its deposits get the same replies there.
    """

    def __init__(self, program, folder, own, others, repeat):
        self.own, self.others, self.repeat, self.entries, self.names, self.due = own, others, repeat, [], [], set()
        self.ledger = Process(program, "ledger", "--state", os.path.join(folder, "ledger"))
        self.nodes = [Node(program, os.path.join(folder, name), seed) for name, seed in (("hub", HUB), ("client", CLIENT))]
        self.hub, self.client = self.nodes
        self.seen = {node: 0 for node in self.nodes}
        # (the last strangers come later, when entries are timed)
        self.hub.follows_strangers(max(others - repeat, 0))
        for nonce in range(1, own + 1):
            self.open(nonce)
        self.ledger.close()
        self.turns = itertools.cycle(self.names)

    def close(self):
        for node in self.nodes:
            node.close()

    def open(self, nonce):
        """Both open the channel of this nonce, and act until nothing happens any more."""
        keys = [node.key for node in self.nodes]
        fixed = bytes.fromhex("02" + "".join(keys)) + nonce.to_bytes(8, "big") + b"\1" + (10).to_bytes(4, "big")
        self.names.append(hashlib.sha256(b"\1" + fixed).hexdigest())
        channel = {"people": keys, "nonce": nonce, "app": "payment", "duration": 10}
        outcome = [{"asset": 0, "items": [[key, 1000000] for key in keys]}]
        for node in self.nodes:
            node.takes({"do": "open", "channel": channel, "outcome": outcome})
        self.due = set(self.nodes)
        while self.due:
            for node, other in (self.nodes, self.nodes[::-1]):
                if node in self.due:
                    self.act(node, other)

    def act(self, node, other):
        """The node is shown what is new, and acts. The other is due if a message waits for it, and both are after a call."""
        self.due.remove(node)
        for entry in self.entries[self.seen[node]:]:
            node.takes(node.next_entry(*entry))
            self.seen[node] += 1
        node.takes_from(other)
        node.takes({"do": "tick"})
        if node.sent:
            self.due.add(other)
        if node.calls:
            self.due.update(self.nodes)
        for call in node.calls:
            entry = self.ledger.timed({"do": "enter", "by": 1, "call": call}, ("done",))[0][-2]
            self.entries.append((entry["by"], entry["op"], entry["reply"]))
        node.calls = []

    def pay(self):
        """The seconds of a payment of the hub, and of the message by which the client pays it back."""
        pay = {"do": "pay", "channel": next(self.turns), "asset": 0, "amount": 1}
        payment = self.hub.takes(pay)
        self.client.takes_from(self.hub)
        self.client.takes(pay)
        return payment, self.hub.takes_from(self.client)

    def measured(self):
        """The seconds of each kind of event. The last of the entries make the strangers as many as they are to be."""
        count = min(self.others, self.repeat)
        entry = statistics.median([self.hub.takes(self.hub.next_deposit()) for _ in range(count)])
        tick, = medians(lambda: (self.hub.takes({"do": "tick"}),), 4 * self.repeat)
        payment, message = medians(self.pay, self.repeat)
        return tick, payment, entry, message


def medians(act, count):
    """The median of each of the seconds that `act` gives `count` times. If it is slow, it stops after some seconds."""
    rows = []
    while len(rows) < count and (len(rows) < LEAST or sum(map(sum, rows)) < PATIENCE):
        rows.append(act())
    return [statistics.median(column) for column in zip(*rows)]


def measured_all(program, place, given):
    """The seconds of each kind of event, by how many channels the hub has and by how many others there are.

    Pairs are made side by side, the largest first, and then measured one at a time.
    """
    sizes = sorted(itertools.product(given.own, given.others), key=lambda size: size[0] * size[1], reverse=True)
    with tempfile.TemporaryDirectory(dir=place) as folder, concurrent.futures.ThreadPoolExecutor(os.cpu_count()) as pool:
        pairs = list(pool.map(
            lambda size: Pair(program, tempfile.mkdtemp(dir=folder), *size, given.repeat), sizes))
        figures = {(pair.own, pair.others): pair.measured() for pair in pairs}
        for pair in pairs:
            pair.close()
        return figures


def table_of(figures, given):
    """Prints the table, and returns what grows too much, in words."""
    print("%5s %9s" % ("own", "others") + "".join("%10s" % column for column in COLUMNS) + "   (ms)")
    faults = []
    for own in given.own:
        rows = [figures[own, others] for others in given.others]
        for others, row in zip(given.others, rows):
            print("%5d %9s" % (own, "{:,}".format(others)) + "".join("%10.3f" % (1000 * seconds) for seconds in row))
        growth = [most / fewest for fewest, most in zip(rows[0], rows[-1])]
        print("%5d %9s" % (own, "growth") + "".join("%10.2f" % factor for factor in growth) + "   (times)")
        faults += ["%s with %d own channels grows by a factor of %.2f" % (column, own, factor)
                   for column, factor in zip(COLUMNS, growth) if factor > LIMIT]
    return faults


def main():
    words = argparse.ArgumentParser(description=__doc__.split("\n")[0])
    words.add_argument("--own", type=int, nargs="+", default=[4, 60], help="channels of the hub with the client")
    words.add_argument("--others", type=int, nargs="+", default=[100, 10000, 100000], help="channels of strangers, rising")
    words.add_argument("--repeat", type=int, default=50, help="payments to take the median of; ticks are four times as many")
    words.add_argument("--check", action="store_true", help="a growth above %.1f is a fault" % LIMIT)
    words.add_argument("--folder", default="/dev/shm" if os.path.isdir("/dev/shm") else None, help="where the state files are")
    words.add_argument("--program", default=os.environ.get("NITRO", "nitro"))
    given = words.parse_args()
    if given.repeat < 1 or any(most <= fewest for fewest, most in zip([0] + given.others, given.others)):
        words.error("the numbers of strangers' channels have to rise, and there has to be a payment")
    # (an opening takes two signatures, and three are kept back for each channel)
    if not 1 <= min(given.own) <= max(given.own) <= 64 or 5 * max(given.own) + len(given.others) * given.repeat > SIGNATURES:
        words.error("a node has at most 64 channels, and a key %d signatures" % SIGNATURES)
    program = os.path.abspath(shutil.which(given.program) or given.program)
    faults = table_of(measured_all(program, given.folder, given), given)
    if given.check:
        for fault in faults:
            print("hub.py: %s, which is above %.1f" % (fault, LIMIT), file=sys.stderr)
    return 1 if given.check and faults else 0


if __name__ == "__main__":
    sys.exit(main())
