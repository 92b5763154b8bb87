#!/usr/bin/env python3
"""jsons.py PROGRAM: compares what `PROGRAM --json` prints with the lines of the text beside each example, as JSON.

What is wanted is made of the texts by the table of docs/USING.md, and of `check` and `tower` of what they print without the
option. Each line that is printed is also read by a JSON parser. Prints how many lines were compared, and ends with 1 where
one is something else.
"""
import glob
import json
import os
import subprocess
import sys
import tempfile

EXAMPLES = os.path.join(os.path.dirname(os.path.abspath(__file__)), "..")
PROGRAM = sys.argv[1] if len(sys.argv) > 1 else os.path.join(EXAMPLES, "..", "nitro")

# Of an entry, by its call: the names of the words, after which come those of the reply.
CALLS = {"deposit": "channel asset expected amount", "transfer": "channel asset index",
         "claim": "guarantor target asset position", "time": "to"}
# Of another line, by its first word: the names of the words, with - where a word names the next one.
LINES = {"command": "line step person", "load": "line - seed - count", "hop": "line ending count",
         "asset": "line asset - deposited - held - paid", "held": "line channel asset amount",
         "paid": "line person asset amount", "premises": "line person - unforged - distinct - intime",
         "person": "line person asset - paid - share", "exit": "line person asset - share", "sound": "line - entries",
         "bytes": "line fault place", "reply": "line entry", "script": "line step rule name", "read": "line why",
         "too": "line why"}
ENDS = {5: "line - entries - now", 7: "line - entries - clients - calls"}


def names_of(words):
    if words[0][0].isdigit():
        return "number by call " + CALLS.get(words[2], "channel turn")
    if words[0] == "end":
        return ENDS[len(words)]
    return LINES.get(words[0], "line place")


def contents(path):
    with open(path, encoding="utf-8") as file:
        return file.read()


def members_of(line):
    """The members of a line, in their order."""
    words = line.split(" ")
    names = names_of(words).split(" ")
    members = [("version", "1")] + ([("line", "entry")] if words[0][0].isdigit() else [])
    members += [(name, word) for name, word in zip(names, words) if name != "-"]
    rest = words[len(names):]
    return members + ([("reply", rest)] if rest else [])


def as_json(text):
    lines = [members_of(line) for line in text.split("\n") if line]
    return "".join(json.dumps(dict(line), separators=(",", ":"), ensure_ascii=False) + "\n" for line in lines)


def printed(arguments):
    run = subprocess.run([PROGRAM, *arguments], stdin=subprocess.DEVNULL, capture_output=True, check=False)
    return run.stdout.decode(), run.returncode


def cases():
    """The arguments of a call, the text that it prints without the option, and the status."""
    for path in sorted(glob.glob(f"{EXAMPLES}/*.json") + glob.glob(f"{EXAMPLES}/runs/*.json")):
        text, status = path[:-len("json")] + "txt", path[:-len("json")] + "status"
        if os.path.exists(text):
            yield ["run", path], contents(text), int(contents(status)) if os.path.exists(status) else 0
    yield ["run", "none"], "read fault\n", 4
    yield ["race", f"{EXAMPLES}/races/deposit.json"], contents(f"{EXAMPLES}/races/deposit.txt"), 0
    for name in ("defended", "virtual", "hub"):
        with tempfile.TemporaryDirectory() as folder:
            record = os.path.join(folder, "record")
            with open(record, "wb") as file:
                subprocess.run([PROGRAM, "record", "run", f"{EXAMPLES}/{name}.json"], stdout=file, check=True)
            for command in ("check", "tower"):
                yield [command, record], *printed([command, record])
            os.truncate(record, 100)
            yield ["check", record], *printed(["check", record])


def main():
    count, wrong = 0, []
    for arguments, text, status in cases():
        wanted, found = (as_json(text), status), printed([arguments[0], "--json", *arguments[1:]])
        for line in found[0].split("\n")[:-1]:
            assert json.loads(line)["version"] == "1"
            count += 1
        if found != wanted:
            lines = [it for it in zip(wanted[0].split("\n"), found[0].split("\n")) if it[0] != it[1]]
            wrong.append(f"{arguments}: status {found[1]}, wanted {wanted[1]}; the first line that differs (wanted, found): {lines[:1]}")
    print(f"jsons.py: {count} lines of JSON were compared, {len(wrong)} calls print something else")
    for fault in wrong[:20]:
        print(fault)
    sys.exit(1 if wrong or count < 200 else 0)


if __name__ == "__main__":
    main()
