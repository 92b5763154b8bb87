"""What `nitro check` says of a record, by the tables of docs/definitions/channels.md, in another language than the program's.

`verdict_of(bytes)` gives the line. Signatures are verified too (RFC 8554).
"""
import collections
import functools
import hashlib
import itertools

from record_forms import Allocation, Challenge, Checkpoint, Claim, Conclude, Deposit, Guarantee, Middle, OnLedger
from record_forms import Outcome, Refute, Respond, Root, Sum, Time, Transfer, Unspelled, outcome_of, record_of

Row = collections.namedtuple("Row", "turn deadline state_digest outcome_digest challenger outcome")
BLANK = Row(0, None, bytes(32), bytes(32), 0, None)
OPEN, CHALLENGED, FINAL = "open", "challenged", "final"
OUTCOME, DATA, VOTES, PROPOSAL, RAISED, LOWERED, EARLY_FINAL, AFTER_FINAL = range(1, 9)
LENGTH, TURN, STEP, SIGNATURE = range(1, 5)
HELD, UNTIL, OPENED, CONCLUDED, PAID, NOW, NO = range(1, 8)


def digest(*parts):
    return hashlib.sha256(b"".join(parts)).digest()


def long(number):
    return number.to_bytes(8, "big")


class Refused(Exception):
    """The reply that refuses a call."""


def refuse_if(broken, number, kept=b""):
    if broken:
        raise Refused(bytes([NO, number]) + kept)


# ---- signatures


@functools.lru_cache(maxsize=None)
def verifies(key, message, signature):
    """Whether an LMS key verifies it: algorithm 6a, over 4b."""
    lms, ots, name, root = int.from_bytes(key[:4], "big"), int.from_bytes(key[4:8], "big"), key[8:24], key[24:]
    if lms not in (5, 6, 7) or ots not in (1, 2, 3, 4):
        return False
    height, width, chains, shift = (lms - 4) * 5, 2 ** (ots - 1), (265, 133, 67, 34)[ots - 1], (7, 6, 4, 0)[ots - 1]
    path = 44 + 32 * chains
    if len(signature) != path + 32 * height:
        return False
    leaf, kinds = int.from_bytes(signature[:4], "big"), (signature[4:8], signature[path - 4 : path])
    if kinds != (key[4:8], key[:4]) or leaf >= 2**height:
        return False
    most, leaf_name = 2**width - 1, name + signature[:4]
    hashed = digest(leaf_name, b"\x81\x81", signature[8:40], message)
    digits = [byte >> at & most for byte in hashed for at in range(8 - width, -1, -width)]
    check = (sum(most - it for it in digits) << shift).to_bytes(2, "big")
    digits += [byte >> at & most for byte in check for at in range(8 - width, -1, -width)]
    ends = []
    for i, first in enumerate(digits[:chains]):
        at = signature[40 + 32 * i : 72 + 32 * i]
        for j in range(first, most):
            at = digest(leaf_name, i.to_bytes(2, "big"), bytes([j]), at)
        ends.append(at)
    node = 2**height + leaf
    at = digest(name, node.to_bytes(4, "big"), b"\x82\x82", digest(leaf_name, b"\x80\x80", *ends))
    for place in range(path, len(signature), 32):
        sides = (at, signature[place : place + 32]) if node % 2 == 0 else (signature[place : place + 32], at)
        node //= 2
        at = digest(name, node.to_bytes(4, "big"), b"\x83\x83", *sides)
    return at == root


def name_of(fixed):
    return digest(b"\x01", fixed.text)


def state_digest(fixed, state):
    return digest(b"\x03", name_of(fixed), state.text)


def outcome_digest(outcome):
    return digest(b"\x04", outcome.text)


def signs_state(fixed, who, state, signature):
    return verifies(fixed.keys[who], b"\x05" + state_digest(fixed, state), signature)


def signs_challenge(chain, who, signature):
    if who >= len(chain.fixed.keys):
        return False
    message = b"\x06" + state_digest(chain.fixed, chain.states[-1]) + bytes([who])
    return verifies(chain.fixed.keys[who], message, signature)


# ---- steps: the number of the first broken rule, or 0


def votes_of(people, data):
    """Votes, and the spelling of what they are for; None where the data are neither that nor empty."""
    if not data:
        return 0, b""
    return (data[0], data[1:]) if 1 <= data[0] < people and outcome_of(data[1:]) else None


def consensus_fault(people, s, t):
    before, after = votes_of(people, s.data), votes_of(people, t.data)
    if before is None or after is None:
        return DATA
    k, left = before[0], after[0]
    is_vote = k >= 2 and left == k - 1
    if not (left == 0 or (k == 0 and left == people - 1) or is_vote):
        return VOTES
    if is_vote and before[1] != after[1]:
        return PROPOSAL
    becomes = k == 1 and left == 0 and t.outcome.text == before[1]
    return OUTCOME if s.outcome.text != t.outcome.text and not becomes else 0


def are_alike(persons, a, b):
    """Nothing differs but what the two people have."""
    if type(a) is not type(b) or a.asset != b.asset:
        return False
    if type(a) is Guarantee:
        return a == b
    if [to for to, _ in a.items] != [to for to, _ in b.items]:
        return False
    return all(x[0] in persons or x[1] == y[1] for x, y in zip(a.items, b.items))


def payment_fault(fixed, s, t):
    if s.data or t.data:
        return DATA
    persons = [b"\x01" + digest(b"\x02", key) for key in fixed.keys]
    pairs = list(zip(s.outcome.assets, t.outcome.assets))
    if len(s.outcome.assets) != len(t.outcome.assets) or not all(are_alike(persons, a, b) for a, b in pairs):
        return OUTCOME
    shared = [(a.items, b.items) for a, b in pairs if type(a) is Allocation]
    for before, after in shared:
        for (to, had), (_, has) in zip(before, after):
            if to == persons[t.turn % 2] and has > had:
                return RAISED
            if to == persons[1 - t.turn % 2] and has < had:
                return LOWERED
    totals = [[sum(it for _, it in items) for items in pair] for pair in shared]
    return OUTCOME if any(before != after for before, after in totals) else 0


def step_fault(fixed, s, t):
    people = len(fixed.keys)
    if s.final and not t.final:
        return AFTER_FINAL
    if t.final and t.turn < 2 * people:
        return EARLY_FINAL
    repeats = t.final or t.turn < 2 * people
    if not repeats and fixed.app == 0:
        return consensus_fault(people, s, t)
    if not repeats and fixed.app == 1:
        return payment_fault(fixed, s, t)
    if s.data != t.data if repeats else s.data or t.data:
        return DATA
    return OUTCOME if s.outcome.text != t.outcome.text else 0


# ---- support: the first fault of a chain as a reply tells it, or None


def support_fault(chain):
    fixed, states, people = chain.fixed, chain.states, len(chain.fixed.keys)

    def told(tag, place=0, rule=0):
        return bytes([tag]) + long(place) + bytes([rule])

    if not 1 <= len(states) <= people or len(chain.marks) != people:
        return told(LENGTH)
    steps = list(enumerate(zip(states, states[1:]), 1))
    for place, (s, t) in steps:
        if t.turn != s.turn + 1:
            return told(TURN, place)
    top = states[-1].turn
    if top < people - 1:
        return told(LENGTH)
    for place, (s, t) in steps:
        if step_fault(fixed, s, t):
            return told(STEP, place, step_fault(fixed, s, t))
    for who, mark in enumerate(chain.marks):
        last_turn = top - (top - who) % people
        on = states[mark.place] if mark.place < len(states) else None
        if on is None or on.turn < last_turn or not signs_state(fixed, who, on, mark.signature):
            return told(SIGNATURE, who)
    return None


# ---- the ledger


def shape_in(outcome, asset):
    return next((it for it in outcome.assets if it.asset == asset), None)


def place_of(items, to):
    return next((place for place, (it, _) in enumerate(items) if it == to), len(items))


class Ledger:
    """What an adjudicator knows after some calls."""

    def __init__(self):
        self.now, self.rows, self.payments = 0, {}, collections.Counter()
        self.deposited, self.held, self.paid = collections.Counter(), collections.Counter(), collections.Counter()
        # whoever received something, with its asset, in the order of first receipt
        self.receivers = {}

    def row(self, channel):
        return self.rows.get(channel, BLANK)

    def mode(self, channel):
        deadline = self.row(channel).deadline
        return OPEN if deadline is None else FINAL if deadline <= self.now else CHALLENGED

    def move(self, source, to, asset, amount):
        self.receivers[to, asset] = True
        if source is None:
            self.deposited[asset] += amount
        else:
            self.held[source, asset] -= amount
        (self.held if to[0] == 2 else self.paid)[to[1:], asset] += amount

    def rest(self, channel, asset, items):
        """What is left of each item of an outcome."""
        return [max(0, amount - self.payments[channel, asset, place]) for place, (_, amount) in enumerate(items)]

    def reply_to(self, op):
        """The reply to a call, which is entered if it isn't refused."""
        try:
            tag, number = self.CALLS[type(op)](self, op)
            return bytes([tag]) + long(number)
        except Refused as refused:
            return refused.args[0]

    def time(self, op):
        refuse_if(op.to < self.now, 24, long(self.now))
        refuse_if(op.to > 2**62, 25)
        self.now = op.to
        return NOW, op.to

    def deposit(self, op):
        held = self.held[op.channel, op.asset]
        refuse_if(op.amount == 0, 13)
        refuse_if(held < op.expected, 14, long(held))
        refuse_if(self.deposited[op.asset] + op.amount >= 2**64, 15, long(self.deposited[op.asset]))
        self.move(None, b"\x02" + op.channel, op.asset, op.amount)
        return HELD, held + op.amount

    # ---- calls that turn a channel

    def supported(self, chain):
        """The name of a chain's channel and its row, if it isn't final and the chain is supported."""
        channel = name_of(chain.fixed)
        refuse_if(self.mode(channel) == FINAL, 1)
        fault = support_fault(chain)
        refuse_if(fault is not None, 2, fault)
        return channel, self.row(channel)

    def settle(self, channel, chain, deadline, challenger):
        last = chain.states[-1]
        digests = state_digest(chain.fixed, last), outcome_digest(last.outcome)
        self.rows[channel] = Row(last.turn, deadline, *digests, challenger, last.outcome)

    def challenge(self, op):
        channel, row = self.supported(op.chain)
        turn, is_challenged = op.chain.states[-1].turn, self.mode(channel) == CHALLENGED
        refuse_if(turn < row.turn or (is_challenged and turn == row.turn), 3, long(row.turn))
        refuse_if(not signs_challenge(op.chain, op.challenger, op.signature), 4)
        until = self.now + op.chain.fixed.duration
        self.settle(channel, op.chain, until, op.challenger)
        return UNTIL, until

    def respond(self, op):
        channel = name_of(op.fixed)
        row, next_state = self.row(channel), op.next.state
        refuse_if(self.mode(channel) != CHALLENGED, 5)
        refuse_if(state_digest(op.fixed, op.origin) != row.state_digest, 6)
        refuse_if(next_state.turn != row.turn + 1, 7, long(row.turn + 1))
        refuse_if(not signs_state(op.fixed, next_state.turn % len(op.fixed.keys), *op.next), 8)
        fault = step_fault(op.fixed, op.origin, next_state)
        refuse_if(fault, 9, bytes([fault]))
        self.rows[channel] = row._replace(turn=next_state.turn, deadline=None)
        return OPENED, next_state.turn

    def refute(self, op):
        channel = name_of(op.fixed)
        row, mover = self.row(channel), op.next.state.turn % len(op.fixed.keys)
        refuse_if(self.mode(channel) != CHALLENGED, 5)
        refuse_if(op.next.state.turn <= row.turn, 10, long(row.turn))
        refuse_if(mover != row.challenger, 11)
        refuse_if(not signs_state(op.fixed, mover, *op.next), 8)
        self.rows[channel] = row._replace(deadline=None)
        return OPENED, row.turn

    def checkpoint(self, op):
        channel, row = self.supported(op.chain)
        turn = op.chain.states[-1].turn
        refuse_if(turn <= row.turn, 10, long(row.turn))
        self.rows[channel] = row._replace(turn=turn, deadline=None)
        return OPENED, turn

    def conclude(self, op):
        channel, row = self.supported(op.chain)
        for place, state in enumerate(op.chain.states):
            refuse_if(not state.final, 12, long(place))
        self.settle(channel, op.chain, self.now, row.challenger)
        return CONCLUDED, op.chain.states[-1].turn

    # ---- payouts

    def pay(self, payer, owner, asset, place, to, rests):
        """Pays the item at a place to somebody, where these rests come in order and the last is the item's."""
        held = self.held[payer, asset]
        amount = min(rests[-1], max(0, held - sum(rests[:-1])))
        refuse_if(amount == 0, 23, long(held))
        self.payments[owner, asset, place] += amount
        self.move(payer, to, asset, amount)
        return PAID, amount

    def transfer(self, op):
        refuse_if(self.mode(op.channel) != FINAL, 16, op.channel)
        refuse_if(outcome_digest(op.outcome) != self.row(op.channel).outcome_digest, 17, op.channel)
        shape = shape_in(op.outcome, op.asset)
        refuse_if(shape is None, 18)
        refuse_if(type(shape) is Guarantee, 19)
        refuse_if(op.index >= len(shape.items), 22)
        rests = self.rest(op.channel, op.asset, shape.items)[: op.index + 1]
        return self.pay(op.channel, op.channel, op.asset, op.index, shape.items[op.index][0], rests)

    def claim(self, op):
        sides = (op.guarantor, op.promise), (op.target, op.outcome)
        for channel, _ in sides:
            refuse_if(self.mode(channel) != FINAL, 16, channel)
        for channel, outcome in sides:
            refuse_if(outcome_digest(outcome) != self.row(channel).outcome_digest, 17, channel)
        promise, shape = shape_in(op.promise, op.asset), shape_in(op.outcome, op.asset)
        refuse_if(promise is None or shape is None, 18)
        refuse_if(type(promise) is Allocation or type(shape) is Guarantee, 19)
        refuse_if(promise.target != op.target, 20)
        refuse_if(op.position >= len(promise.list), 21)
        to = promise.list[op.position]
        place = place_of(shape.items, to)
        refuse_if(place == len(shape.items), 22)
        rests = self.rest(op.target, op.asset, shape.items) + [0]
        listed = [rests[place_of(shape.items, it)] for it in promise.list[: op.position + 1]]
        return self.pay(op.guarantor, op.target, op.asset, place, to, listed)

    CALLS = {Time: time, Deposit: deposit, Challenge: challenge, Respond: respond, Refute: refute}
    CALLS.update({Checkpoint: checkpoint, Conclude: conclude, Transfer: transfer, Claim: claim})

    # ---- what is told in the end

    def sums(self):
        """What was deposited of each asset, what channels hold, and what persons were paid."""
        deposited = [Sum(1, bytes(32), asset, amount) for asset, amount in sorted(self.deposited.items())]
        held = [(2, to[1:], asset, self.held[to[1:], asset]) for to, asset in self.receivers if to[0] == 2]
        paid = [(3, to[1:], asset, self.paid[to[1:], asset]) for to, asset in self.receivers if to[0] == 1]
        return deposited + [Sum(*it) for it in held + paid if it[3] > 0]

    def possible(self, known):
        """The outcomes that a channel can end with, by the state that its participant signed last."""
        if self.mode(known.channel) == FINAL:
            settled = self.row(known.channel).outcome.assets
            return [[self.less_paid(known.channel, it) for it in settled]]
        last, voted = known.state, None
        if last.data and 1 <= last.data[0] <= 3:
            voted = outcome_of(last.data[1:])
        return [last.outcome.assets] + ([voted.assets] if voted else [])

    def less_paid(self, channel, shape):
        if type(shape) is Guarantee:
            return shape
        rests = self.rest(channel, shape.asset, shape.items)
        return Allocation(shape.asset, [(to, rest) for (to, _), rest in zip(shape.items, rests)])


# ---- plans and shares


def channels_of(part):
    if type(part) in (Root, OnLedger):
        return [part.channel]
    return [part.guarantor_a, part.guarantor_b, part.joint, part.channel]


def own_side(part):
    """The ledger and the guarantor of an end."""
    return (part.ledger_b, part.guarantor_b) if part.side_b else (part.ledger_a, part.guarantor_a)


def joined_of(part):
    if type(part) in (Root, OnLedger):
        return [part.channel]
    if type(part) is Middle:
        return [part.guarantor_a, part.guarantor_b, part.joint]
    return [own_side(part)[1], part.joint, part.channel]


def ledgers_of(part):
    if type(part) is Root:
        return []
    if type(part) is OnLedger:
        return [part.ledger]
    return [part.ledger_a, part.ledger_b] if type(part) is Middle else [own_side(part)[0]]


def possible_in(ledger, ending):
    """Of each channel of the ending's plan that counts, the outcomes that it can end with."""
    joined = [channel for part in ending.parts for channel in joined_of(part)]
    possible = {}
    for known in ending.known:
        if known.channel in joined and known.channel not in possible:
            possible[known.channel] = ledger.possible(known)
    return possible


def is_tellable(ending, possible):
    channels = [channel for part in ending.parts for channel in channels_of(part)]
    before = set()
    for part in ending.parts:
        if not before.issuperset(ledgers_of(part)):
            return False
        if type(part) is not Middle:
            before.add(part.channel)
    with_two = [outcomes for outcomes in possible.values() if outcomes[0] != outcomes[-1]]
    return len(channels) == len(set(channels)) and len(with_two) <= 2


class Books:
    """Of one asset, and of one outcome for each channel that counts: what is held, and what parts are worth."""

    def __init__(self, held, outcomes, asset):
        self.outcomes, self.asset, self.reaches = outcomes, asset, {}
        self.held = lambda channel: held[channel, asset]

    def shape(self, channel):
        return shape_in(Outcome(self.outcomes.get(channel, []), b""), self.asset)

    def items(self, channel):
        shape = self.shape(channel)
        return shape.items if type(shape) is Allocation else []

    def amount(self, channel, to):
        return dict(self.items(channel)).get(to, 0)

    def has(self, channel, to):
        return to in dict(self.items(channel))

    def affords(self, channel, reach, to):
        for it, amount in self.items(channel):
            if it == to:
                return min(amount, reach)
            reach = max(0, reach - amount)
        return 0

    def child(self, ledger, channel):
        to = b"\x02" + channel
        if not self.has(ledger, to):
            return 0
        return self.held(channel) + self.affords(ledger, self.reaches.get(ledger, 0), to)

    def guarantor(self, ledger, guarantor, total):
        return min(self.child(ledger, guarantor), total) if guarantor in self.outcomes else 0

    def end(self, part, me):
        """What an end's channel reaches, and what is its person's own in the joint channel."""
        reach, to = self.guarantor(*own_side(part), part.total), b"\x02" + part.channel
        taken = self.amount(part.joint, to)
        virtual = self.held(part.channel) + min(taken, reach) if self.has(part.joint, to) else 0
        return virtual, min(self.amount(part.joint, me), max(0, reach - taken))

    def second(self, guarantor, joint):
        shape = self.shape(guarantor)
        dests = shape.list if type(shape) is Guarantee else []
        return self.amount(joint, dests[1]) if len(dests) > 1 else 0

    def middle(self, part, me):
        taken = self.amount(part.joint, b"\x02" + part.channel)
        a, b = self.second(part.guarantor_a, part.joint), self.second(part.guarantor_b, part.joint)
        reach_a = self.guarantor(part.ledger_a, part.guarantor_a, part.total)
        reach_b = self.guarantor(part.ledger_b, part.guarantor_b, part.total)
        apart = max(0, reach_a - (taken + a)) + max(0, reach_b - (taken + b))
        return min(self.amount(part.joint, me), max(apart, reach_a + reach_b - (taken + a + b)))

    def part(self, part, me):
        if type(part) is Middle:
            return self.middle(part, me)
        own = 0
        if type(part) is Root:
            reach = self.held(part.channel)
        elif type(part) is OnLedger:
            reach = self.child(part.ledger, part.channel)
        else:
            reach, own = self.end(part, me)
        self.reaches[part.channel] = reach
        return self.affords(part.channel, reach, me) + own


def share_of(ledger, ending, possible, asset):
    choices = [dict(zip(possible, outcomes)) for outcomes in itertools.product(*possible.values())]
    worths = []
    for outcomes in choices:
        books = Books(ledger.held, outcomes, asset)
        worths.append(sum(books.part(part, b"\x01" + ending.person) for part in ending.parts))
    return ledger.paid[ending.person, asset] + min(worths)


# ---- verdicts


def first_difference(found, wanted):
    if found == wanted:
        return None
    return next((place for place, (a, b) in enumerate(zip(found, wanted)) if a != b), min(len(found), len(wanted)))


def verdict_on(record):
    ledger = Ledger()
    for number, entry in enumerate(record.history, 1):
        if entry.number != number or ledger.reply_to(entry.op) != entry.reply:
            return f"reply {number}"
    place = first_difference(record.sums, ledger.sums())
    if place is not None:
        return f"sums {place}"
    endings = [(ending, possible_in(ledger, ending)) for ending in record.ends]
    for place, (ending, possible) in enumerate(endings):
        if not is_tellable(ending, possible):
            return f"plan {place}"
    assets = sorted(ledger.deposited)
    for place, (ending, possible) in enumerate(endings):
        if ending.shares != [(asset, share_of(ledger, ending, possible, asset)) for asset in assets]:
            return f"share {place}"
    return f"sound entries {len(record.history)}"


def verdict_of(data):
    try:
        return verdict_on(record_of(data))
    except Unspelled as fault:
        return "bytes {} {}".format(*fault.args)
