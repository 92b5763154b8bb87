"""The text of a record, by the tables of docs/USING.md and docs/SCRIPT.md, in another language than the program's.

`shown(bytes)` gives what `nitro show` prints of bytes, and the status.
"""
import os
import sys

from record_forms import CUT, Challenge, Claim, Deposit, End, OnLedger, Refute, Respond, Root, Time, Transfer
from record_forms import TRAILING, Checkpoint, Unspelled, record_of
from record_rules import name_of

# (where the names of refusals stand)
sys.path.append(os.path.join(os.path.dirname(os.path.abspath(__file__)), "..", "model"))
from calls import REFUSALS  # noqa: E402

ACCEPTED = {1: "held", 2: "until", 3: "open", 4: "final", 5: "paid", 6: "now"}
SUMS = {1: "deposited", 2: "held", 3: "paid"}
LIMIT = 4194304


def number(data):
    return str(int.from_bytes(data, "big"))


def top(states):
    return str(states[-1].turn) if states else "-"


# ---- entries


def op_words(op):
    if isinstance(op, Time):
        return ["time", str(op.to)]
    if isinstance(op, Deposit):
        return ["deposit", op.channel.hex(), *map(str, op[1:])]
    if isinstance(op, Transfer):
        return ["transfer", op.channel.hex(), str(op.asset), str(op.index)]
    if isinstance(op, Claim):
        return ["claim", op.guarantor.hex(), op.target.hex(), str(op.asset), str(op.position)]
    if isinstance(op, (Respond, Refute)):
        word = "respond" if isinstance(op, Respond) else "refute"
        return [word, name_of(op.fixed).hex(), str(op.next.state.turn)]
    word = "challenge" if isinstance(op, Challenge) else "checkpoint" if isinstance(op, Checkpoint) else "conclude"
    return [word, name_of(op.chain.fixed).hex(), top(op.chain.states)]


def support_words(fault):
    tag, place, rule = fault[0], number(fault[1:9]), str(fault[9])
    return [[], ["1"], ["2", place], ["3", place, rule], ["4", place]][tag]


def refusal_words(data):
    """A refusal by its number, its name, and what it keeps."""
    kind, kept = data[0], data[1:]
    words = [str(kind), REFUSALS[kind - 1]]
    if kind == 2:
        return words + support_words(kept)
    if kind in (16, 17):
        return words + [kept.hex()]
    return words + ([number(kept)] if kept else [])


def reply_words(data):
    if data[0] in ACCEPTED:
        return ["ok", ACCEPTED[data[0]], number(data[1:])]
    return ["no", *refusal_words(data[1:])]


def entry_words(entry):
    return [str(entry.number), str(entry.by), *op_words(entry.op), *reply_words(entry.reply)]


# ---- sums and endings


def sum_words(it):
    return ["sum", SUMS[it.kind], it.name.hex(), str(it.asset), str(it.amount)]


def virtual_words(it):
    return [it.channel.hex(), "joint", it.joint.hex(), "ledgers", it.ledger_a.hex(), it.ledger_b.hex(),
            "guarantors", it.guarantor_a.hex(), it.guarantor_b.hex(), "asset", str(it.asset), "total", str(it.total),
            "side", "b" if it.side_b else "a"]


def part_words(part):
    if isinstance(part, Root):
        return ["part", "root", part.channel.hex()]
    if isinstance(part, OnLedger):
        return ["part", "funded", part.channel.hex(), "by", part.ledger.hex()]
    return ["part", "end" if isinstance(part, End) else "middle", *virtual_words(part)]


def ending_lines(ending):
    yield ["ending", ending.person.hex()]
    yield from map(part_words, ending.parts)
    for known in ending.known:
        yield ["signed", known.channel.hex(), str(known.state.turn), "final" if known.state.final else "open"]
    for channel, chain in ending.chains:
        yield ["chain", channel.hex(), top(chain.states)]
    for asset, amount in ending.shares:
        yield ["share", str(asset), str(amount)]


# ---- records


def record_lines(record):
    counts = [len(it) for it in record]
    yield ["record", "entries", str(counts[0]), "sums", str(counts[1]), "endings", str(counts[2])]
    yield from map(entry_words, record.history)
    yield from map(sum_words, record.sums)
    for ending in record.ends:
        yield from ending_lines(ending)


def shown(data):
    """What is printed of these bytes, and the status."""
    if len(data) > LIMIT:
        return "too long\n", 6
    try:
        record = record_of(data)
    except Unspelled as fault:
        assert CUT <= fault.args[0] <= TRAILING
        return "bytes {} {}\n".format(*fault.args), 3
    return "".join(" ".join(words) + "\n" for words in record_lines(record)), 0
