#!/usr/bin/env python3
"""Bob challenges with an old state, Alice's node answers, and Alice leaves: dispute.py NITRO"""
import hashlib
import shutil
import sys
import tempfile

from wallet import Service, Wallet


def main(nitro, folder):
    ledger, entries = Service(nitro, "ledger", "--state", folder + "/ledger"), []

    def enter(number, call):
        entries.append(ledger.ask("enter", by=number, call=call)[-2])

    def pass_time(to):
        entries.append(ledger.ask("time", to=to)[-2])

    def show(wallet):
        """Shows the wallet's node what is new, and prints what it says of it."""
        for entry in entries[wallet.seen:]:
            for effect in wallet.ask("entry", **{key: entry[key] for key in ("number", "by", "op", "reply")}):
                if effect["effect"] == "challenged":
                    print("challenged until", effect["until"])
                elif effect["effect"] == "call":
                    print("answered by", effect["text"].replace(name, "C"))
                elif effect["effect"] == "final":
                    print("final")
            wallet.seen += 1

    def rounds(count):
        for _ in range(count):
            for one, other in ((alice, bob), (bob, alice)):
                messages, other.sent = other.sent, []
                one.act(messages)

    alice = Wallet(1, 32 * "a1", (nitro, "node", "--state", folder + "/alice"), entries, enter)
    bob = Wallet(2, 32 * "b2", (nitro, "node", "--state", folder + "/bob"), entries, enter)
    channel = {"people": [alice.key, bob.key], "nonce": 1, "app": "payment", "duration": 10}
    outcome = [{"asset": 0, "items": [[alice.key, 5], [bob.key, 3]]}]
    fixed = bytes.fromhex("02" + alice.key + bob.key + "0000000000000001" + "01" + "0000000a")
    name = hashlib.sha256(b"\1" + fixed).hexdigest()
    for wallet in (alice, bob):
        wallet.ask("open", channel=channel, outcome=outcome)
    rounds(8)
    alice.ask("pay", channel=name, asset=0, amount=2)
    rounds(1)

    # Bob has 5 now, and keeps a copy of his file. Then he pays 4.
    old_file = shutil.copy(folder + "/bob", folder + "/old")
    old_done, old_seen = bob.done, bob.seen
    bob.ask("pay", channel=name, asset=0, amount=4)
    rounds(1)

    # He runs the copy, which nobody must do, and leaves: it challenges with the state in which he has 5.
    bob.node.child.kill()
    bob.words, bob.done, bob.seen = (nitro, "node", "--state", old_file, "--moved"), old_done, old_seen
    bob.start()
    bob.ask("exit")
    bob.act([])

    # Alice's node is shown the challenge before its deadline, and answers with the newer state.
    show(alice)

    # She leaves too. Nobody answers her challenge up to its deadline, and then she is paid what she had.
    alice.ask("exit")
    alice.act([])
    pass_time(10)
    show(alice)
    alice.act([])
    print("share", alice.ask("share", asset=0)[-1]["amount"])
    for entry in entries:
        print(entry["number"], entry["by"], entry["text"].replace(name, "C"))


if __name__ == "__main__":
    with tempfile.TemporaryDirectory() as place:
        main(sys.argv[1], place)
