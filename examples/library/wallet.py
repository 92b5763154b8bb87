#!/usr/bin/env python3
"""Two people pay each other over a ledger, with a node each, in one process: wallet.py LIBNITRO.SO FOLDER

What examples/lasting/wallet.py does with processes.
"""
import hashlib
import json
import sys

from nitro import Library, effects_of


class Wallet:
    """A person: a node that decides and signs, and this, which carries its messages and calls."""

    def __init__(self, library, number, seed, path, entries, enter):
        self.library, self.number, self.seed, self.path = library, number, seed, path
        self.entries, self.enter = entries, enter
        self.sent, self.seen, self.done = [], 0, 0
        self.start()

    def start(self):
        """Opens the node. After a crash it goes on, and gives again what it gave after record `done`."""
        self.node = self.library.node(self.path, self.seed, 10, self.done)
        effects = effects_of(self.node.first)
        self.key, self.name = effects[-1]["key"], effects[-1]["name"]
        self.follow(effects, lambda call: any(entry["op"] == "01" + call for entry in self.entries))

    def ask(self, do, **keys):
        effects = self.node.ask(do, **keys)
        self.follow(effects, lambda call: False)
        return effects

    def follow(self, effects, was_entered):
        for effect in effects:
            if effect["effect"] == "send":
                self.sent.append((effect["to"], effect["bytes"]))
            elif effect["effect"] == "call" and not was_entered(effect["call"]):
                self.enter(self.number, effect["call"])
            elif effect["effect"] == "done":
                self.done = effect["n"]

    def act(self, messages):
        """Shows the node what is new, and lets it act."""
        for entry in self.entries[self.seen:]:
            self.ask("entry", **{key: entry[key] for key in ("number", "by", "op", "reply")})
            self.seen += 1
        for to, message in messages:
            if to == self.name:
                self.ask("message", bytes=message)
        self.ask("tick")


def main(path, folder):
    library, entries = Library(path), []
    ledger = library.ledger(folder + "/ledger")

    def enter(number, call):
        entries.append(ledger.ask("enter", by=number, call=call)[-2])

    def rounds(count):
        for _ in range(count):
            for one, other in ((alice, bob), (bob, alice)):
                messages, other.sent = other.sent, []
                one.act(messages)

    # A seed is 32 random bytes, and is used with one state file alone.
    alice = Wallet(library, 1, 32 * b"\xa1", folder + "/alice", entries, enter)
    bob = Wallet(library, 2, 32 * b"\xb2", folder + "/bob", entries, enter)
    channel = {"people": [alice.key, bob.key], "nonce": 1, "app": "payment", "duration": 10}
    outcome = [{"asset": 0, "items": [[alice.key, 5], [bob.key, 3]]}]
    fixed = bytes.fromhex("02" + alice.key + bob.key + "0000000000000001" + "01" + "0000000a")
    name = hashlib.sha256(b"\1" + fixed).hexdigest()
    for wallet in (alice, bob):
        wallet.ask("open", channel=channel, outcome=outcome)
    rounds(8)
    alice.ask("pay", channel=name, asset=0, amount=2)
    rounds(1)
    bob.node.close()
    bob.start()
    bob.ask("pay", channel=name, asset=0, amount=1)
    rounds(1)
    for wallet in (alice, bob):
        items = wallet.ask("balance", channel=name)[-1]["items"]
        print("balance", json.dumps(items, separators=(",", ":")))
        wallet.ask("close", channel=name)
    rounds(6)
    for entry in entries:
        print(entry["number"], entry["by"], entry["text"].replace(name, "C"))
    for service in (alice.node, bob.node, ledger):
        service.close()


if __name__ == "__main__":
    main(*sys.argv[1:])
