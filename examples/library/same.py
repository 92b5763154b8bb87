#!/usr/bin/env python3
"""Gives the same lines to the library and to the processes, and compares all bytes: same.py LIBNITRO.SO NITRO FOLDER

The lines are those of two people who open a channel, pay and close, with broken lines and queries among them. In the end the
state files are the same too, but for their first lines, and each opens the other's.
"""
import json
import subprocess
import sys

from nitro import Failed, Library

SEEDS = (32 * b"\xa1", 32 * b"\xb2")
BROKEN = (b"x", b"{}", b'{"do":"fly"}', b'{"do":"entry","number":7,"by":1,"op":"","reply":""}', b'{"do":"message","bytes":"00"}',
          b'{"do":"message","bytes":"zz"}', b"\xff", b'{"do":"pay","channel":"' + 64 * b"0" + b'","asset":0,"amount":1}')
QUERIES = (b'{"do":"plan"}', b'{"do":"chains"}', b'{"do":"share","asset":0}', b'{"do":"report"}', b'{"do":"resend"}')


class Both:
    """A service of the library beside the process, which get the same lines."""

    def __init__(self, service, words, first=None):
        self.service = service
        self.child = subprocess.Popen(words, stdin=subprocess.PIPE, stdout=subprocess.PIPE)
        if first is not None:
            self.write(first)
        self.compare(service.first)

    def write(self, line):
        self.child.stdin.write(line + b"\n")
        self.child.stdin.flush()

    def compare(self, wanted):
        found = self.child.stdout.read(len(wanted))
        if found != wanted:
            sys.exit("the library gives %r, and the process %r" % (wanted[:300], found[:300]))
        return [json.loads(line) for line in wanted.splitlines()]

    def ask(self, line):
        self.write(line)
        return self.compare(self.service.step(line))

    def close(self):
        self.service.close()
        self.child.stdin.close()
        if self.child.stdout.read() or self.child.wait():
            sys.exit("the process has more to say")


def line_of(do, **keys):
    return json.dumps({"do": do, **keys}).encode()


def node_of(library, nitro, folder, place):
    path = "%s/%%s-node-%d" % (folder, place)
    return Both(library.node(path % "library", SEEDS[place], 10), [nitro, "node", "--state", path % "process"],
                line_of("start", seed=SEEDS[place].hex(), h=10))


def act(node, state, ledger, entries, messages):
    """Shows a node what is new, lets it act, and returns its messages."""
    effects = []
    for entry in entries[state["seen"]:]:
        effects += node.ask(line_of("entry", **{key: entry[key] for key in ("number", "by", "op", "reply")}))
    state["seen"] = len(entries)
    for message in messages:
        effects += node.ask(line_of("message", bytes=message))
    effects += node.ask(line_of("tick"))
    for effect in effects:
        if effect["effect"] == "call":
            entries.append(ledger.ask(line_of("enter", by=state["by"], call=effect["call"]))[0])
    return [effect["bytes"] for effect in effects if effect["effect"] == "send"]


def main(path, nitro, folder):
    library = Library(path)
    ledger = Both(library.ledger(folder + "/library-ledger"), [nitro, "ledger", "--state", folder + "/process-ledger"])
    nodes = [node_of(library, nitro, folder, place) for place in range(2)]
    keys = [json.loads(node.service.first.splitlines()[-1])["key"] for node in nodes]
    states, entries, letters = [{"seen": 0, "by": place + 1} for place in range(2)], [], [[], []]
    channel = {"people": keys, "nonce": 1, "app": "payment", "duration": 10}
    outcome = [{"asset": 0, "items": [[keys[0], 5], [keys[1], 3]]}]
    for node in nodes:
        node.ask(line_of("open", channel=channel, outcome=outcome))
    name = nodes[0].ask(b'{"do":"plan"}')[0]["channels"][0]

    def rounds(count):
        for turn in range(2 * count):
            place = turn % 2
            messages, letters[1 - place] = letters[1 - place], []
            letters[place] += act(nodes[place], states[place], ledger, entries, messages)

    rounds(8)
    for place, amount in ((0, 2), (1, 1)):
        effects = nodes[place].ask(line_of("pay", channel=name, asset=0, amount=amount))
        letters[place] += [effect["bytes"] for effect in effects if effect["effect"] == "send"]
        for line in BROKEN + QUERIES:
            nodes[place].ask(line)
        rounds(1)
    for line in BROKEN + (b'{"do":"time","to":3}', b'{"do":"enter","by":1,"call":"00"}'):
        ledger.ask(line)
    for node in nodes:
        node.ask(line_of("close", channel=name))
    rounds(6)
    for service in (ledger, *nodes):
        service.close()
    compare_files(library, nitro, folder)


def compare_files(library, nitro, folder):
    """The files are the same, and the process plays the one of the library, with the same answers."""
    for name in ("ledger", "node-0", "node-1"):
        bytes_of = [open("%s/%s-%s" % (folder, by, name), "rb").read().split(b"\n", 1)[1] for by in ("library", "process")]
        if bytes_of[0] != bytes_of[1]:
            sys.exit("the state files of %s differ" % name)
    mine = library.node(folder + "/process-node-0", SEEDS[0], 10, 0)
    mine.close()
    words = [nitro, "node", "--state", folder + "/library-node-0", "--after", "0"]
    start = line_of("start", seed=SEEDS[0].hex(), h=10) + b"\n"
    theirs = subprocess.run(words, input=start, stdout=subprocess.PIPE, check=True).stdout
    if mine.first != theirs:
        sys.exit("a file that is played again has other answers")
    torn_and_copied(library, folder)


def torn_and_copied(library, folder):
    """A torn record is cut off, a wrong one before others isn't, and a copy is opened only if it is said to be one."""
    path, copy = folder + "/library-node-1", folder + "/copy"
    whole = open(path, "rb").read()
    with open(path, "ab") as file:
        file.write(b"17 torn")
    expect(library, 0, path)
    if open(path, "rb").read() != whole:
        sys.exit("a torn record stays, or more was cut")
    wrong = whole.replace(b"tick", b"tock", 1)
    for status, moved, found in ((10, False, whole), (0, True, whole), (9, True, wrong), (10, True, b"nitro-node 0\n")):
        with open(copy, "wb") as file:
            file.write(found)
        expect(library, status, copy, moved)
        if open(copy, "rb").read() != found:
            sys.exit("a file with status %d was changed" % status)
    expect(library, 10, path, seed=SEEDS[0])
    expect(library, 11, path, after=1000000)


def expect(library, status, path, moved=False, seed=SEEDS[1], after=None):
    """The status with which a file is opened. It is closed again."""
    found = 0
    try:
        library.node(path, seed, 10, after, moved).close()
    except Failed as failed:
        found = failed.args[0]
    if found != status:
        sys.exit("%s is opened with status %d, wanted is %d" % (path, found, status))


if __name__ == "__main__":
    main(*sys.argv[1:])
