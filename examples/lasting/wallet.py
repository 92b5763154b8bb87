#!/usr/bin/env python3
"""Two people pay each other, with a node each, over a ledger: wallet.py NITRO"""
import hashlib
import json
import subprocess
import sys
import tempfile

# The last line of an answer is `done` or `error`, a query's own word, or one of these.
LAST = {"start": "ready", "message": "refused", "resend": "resent"}


class Service:
    """A process that reads an event a line, and answers it with an effect a line."""

    def __init__(self, *words):
        self.child = subprocess.Popen(words, stdin=subprocess.PIPE, stdout=subprocess.PIPE, text=True)

    def ask(self, do, **keys):
        print(json.dumps({"do": do, **keys}), file=self.child.stdin, flush=True)
        effects, last = [], ("done", "error", do, LAST.get(do))
        while not effects or effects[-1]["effect"] not in last:
            line = self.child.stdout.readline()
            if not line:
                sys.exit(f"{self.child.args[1]} ended with status {self.child.wait()}")
            effects.append(json.loads(line))
        return effects


class Wallet:
    """A person: a node that decides and signs, and this, which carries its messages and calls."""

    def __init__(self, number, seed, words, entries, enter):
        self.number, self.seed, self.words, self.entries, self.enter = number, seed, words, entries, enter
        self.sent, self.seen, self.done = [], 0, 0
        self.start()

    def start(self):
        """Starts the node. After a crash it goes on, and writes again what it wrote after record `done`."""
        self.node = Service(*self.words, "--after", str(self.done))
        ready = self.ask("start", seed=self.seed, h=10)[-1]
        self.key, self.name = ready["key"], ready["name"]

    def ask(self, do, **keys):
        effects = self.node.ask(do, **keys)
        for effect in effects:
            if effect["effect"] == "send":
                self.sent.append((effect["to"], effect["bytes"]))
            elif effect["effect"] == "call" and not (do == "start" and self.was_entered(effect["call"])):
                self.enter(self.number, effect["call"])
            elif effect["effect"] == "done":
                self.done = effect["n"]
        return effects

    def was_entered(self, call):
        """Of a call that is written again after a crash: whether the ledger has it."""
        return any(entry["op"] == "01" + call for entry in self.entries)

    def act(self, messages):
        """Shows the node what is new, and lets it act."""
        for entry in self.entries[self.seen:]:
            self.ask("entry", **{key: entry[key] for key in ("number", "by", "op", "reply")})
            self.seen += 1
        for to, message in messages:
            if to == self.name:
                self.ask("message", bytes=message)
        self.ask("tick")


def main(nitro, folder):
    ledger, entries = Service(nitro, "ledger", "--state", folder + "/ledger"), []

    def enter(number, call):
        entries.append(ledger.ask("enter", by=number, call=call)[-2])

    def rounds(count):
        for _ in range(count):
            for one, other in ((alice, bob), (bob, alice)):
                messages, other.sent = other.sent, []
                one.act(messages)

    # A seed is 32 random bytes, and is used with one state file alone.
    alice = Wallet(1, 32 * "a1", (nitro, "node", "--state", folder + "/alice"), entries, enter)
    bob = Wallet(2, 32 * "b2", (nitro, "node", "--state", folder + "/bob"), entries, enter)
    channel = {"people": [alice.key, bob.key], "nonce": 1, "app": "payment", "duration": 10}
    outcome = [{"asset": 0, "items": [[alice.key, 5], [bob.key, 3]]}]
    fixed = bytes.fromhex("02" + alice.key + bob.key + "0000000000000001" + "01" + "0000000a")
    name = hashlib.sha256(b"\1" + fixed).hexdigest()
    for wallet in (alice, bob):
        wallet.ask("open", channel=channel, outcome=outcome)
    rounds(8)
    alice.ask("pay", channel=name, asset=0, amount=2)
    rounds(1)
    bob.node.child.kill()
    bob.start()
    bob.ask("pay", channel=name, asset=0, amount=1)
    rounds(1)
    for wallet in (alice, bob):
        print("balance", wallet.ask("balance", channel=name)[-1]["items"])
        wallet.ask("close", channel=name)
    rounds(6)
    for entry in entries:
        print(entry["number"], entry["by"], entry["text"].replace(name, "C"))


if __name__ == "__main__":
    with tempfile.TemporaryDirectory() as place:
        main(sys.argv[1], place)
