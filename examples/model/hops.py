#!/usr/bin/env python3
"""The scripts of hops, where A pays B over two intermediaries, and their comparison with the texts of examples/hop.

`hops.py` compares them all; `hops.py close 3` prints the script as JSON, whose routes are `ledger onward`.
"""
import glob
import json
import os
import sys

from play import play

HOPS = os.path.join(os.path.dirname(os.path.abspath(__file__)), "..", "hop")
ROUTES = ("ledger", "onward")
PEOPLE = {"A": "41", "I1": "31", "I2": "32", "B": "42"}
LEDGERS = {"LA": ("A", "I1"), "LI": ("I1", "I2"), "LB": ("I2", "B")}


def declarations():
    people = [{"do": "person", "name": name, "seed": byte * 32, "h": 10, "node": True, "watchers": 1}
              for name, byte in PEOPLE.items()]
    channels = [(name, pair, "consensus") for name, pair in LEDGERS.items()]
    channels += [("GA1", ("A", "I1"), "fixed"), ("GB1", ("I1", "I2"), "fixed"), ("J1", ("A", "I1", "I2"), "consensus"),
                 ("VL", ("A", "I2"), "consensus"), ("GA2", ("A", "I2"), "fixed"), ("GB2", ("I2", "B"), "fixed"),
                 ("J2", ("A", "I2", "B"), "consensus"), ("X2", ("A", "B"), "payment")]
    return people + [{"do": "channel", "name": name, "people": list(pair), "nonce": nonce, "app": app, "duration": 5}
                     for nonce, (name, pair, app) in enumerate(channels, 1)]


def virtual(who, ledgers, guarantors, joint, channel, amounts):
    return {"do": "open_virtual", "who": who, "ledgers": ledgers, "guarantors": guarantors, "joint": joint,
            "channel": channel, "asset": 0, "amounts": amounts}


def rounds(count):
    return {"do": "rounds", "count": count}


def script(word, count):
    """The steps of `close` or `exit` after so many payments."""
    steps = declarations()
    for name, pair in LEDGERS.items():
        outcome = [{"asset": 0, "items": [[person, 100] for person in pair]}]
        steps += [{"do": "open", "who": list(pair), "channel": name, "outcome": outcome}, rounds(64)]
    first, second = ["A", "I1", "I2"], ["A", "I2", "B"]
    steps += [virtual(first, ["LA", "LI"], ["GA1", "GB1"], "J1", "VL", [60, 20]), rounds(64),
              virtual(second, ["VL", "LB"], ["GA2", "GB2"], "J2", "X2", [40, 10]), rounds(64)]
    for _ in range(count):
        for who, amount in (("A", 1), ("B", 0)):
            steps += [{"do": "pay", "who": who, "channel": "X2", "asset": 0, "amount": amount}, rounds(1)]
    if word == "exit":
        return steps + [{"do": "exit", "who": list(PEOPLE)}, rounds(8), {"do": "time", "to": 5}, rounds(12)]
    for who, name in [(second, "X2"), (first, "VL")] + [(list(pair), name) for name, pair in LEDGERS.items()]:
        steps += [{"do": "close", "who": who, "channel": name}, rounds(64)]
    return steps


def text(word, count):
    lines = [f"hop {word} {count}"] + play(script(word, count), ROUTES).tail()
    return "".join(line + "\n" for line in lines)


def main(words):
    if words:
        print(json.dumps({"steps": script(words[0], int(words[1]))}))
        return 0
    found = sorted(glob.glob(os.path.join(HOPS, "*.txt")))
    wrong = []
    for path in found:
        word, count = os.path.basename(path)[:-4].split("_")
        with open(path, encoding="ascii") as file:
            if file.read() != text(word, int(count)):
                wrong.append(f"{word} {count}")
    print("".join(f"another text: {it}\n" for it in wrong) + f"{len(found) - len(wrong)} of {len(found)} hops agree")
    return 1 if wrong else 0


if __name__ == "__main__":
    sys.exit(main(sys.argv[1:]))
