"""Makes records by chance, from a seed: calls of a few people on a few channels, with the replies, sums and shares that
record_rules.py works out. Signatures are real, or of something else now and then.
"""
import functools
import random

from record_forms import Allocation, Bytes, Chain, Challenge, Checkpoint, Claim, Conclude, Deposit, End, Ending, Fixed
from record_forms import Guarantee, Known, Mark, Middle, OnLedger, Outcome, Refute, Respond, Root, Signed, State, Time
from record_forms import Transfer, all_of
from record_rules import Ledger, digest, is_tellable, name_of, possible_in, share_of, state_digest
from towers import Signer, a, b

CALLS = (None, Deposit, Challenge, Respond, Refute, Checkpoint, Conclude, Transfer, Claim)
PEOPLE = (a, b, Signer(b"\x33" * 32))
PERSONS = [b"\x01" + digest(b"\x02", person.key) for person in PEOPLE]


def number(value, size):
    return value.to_bytes(size, "big")


@functools.lru_cache(maxsize=None)
def signature(who, message):
    # (an index may sign again here, where nothing has to be kept from anybody)
    PEOPLE[who].used = who
    return PEOPLE[who].sign(message)


# ---- spelling


def few(texts):
    return number(len(texts), 1) + b"".join(texts)


def sized(text):
    return number(len(text), 2) + text


def fixed(people, nonce, app, duration):
    keys = [person.key for person in PEOPLE[:people]]
    return Fixed(keys, nonce, app, duration, few(keys) + number(nonce, 8) + number(app, 1) + number(duration, 4))


def shape_text(shape):
    if type(shape) is Guarantee:
        return number(shape.asset, 4) + b"\x02" + shape.target + few(shape.list)
    return number(shape.asset, 4) + b"\x01" + few([to + number(amount, 8) for to, amount in shape.items])


def outcome(assets):
    return Outcome(assets, few([shape_text(it) for it in assets]))


def state(turn, final, of, data):
    return State(turn, final, of, data, number(turn, 8) + number(final, 1) + of.text + sized(data))


def text_of(value):
    """The spelling of a field of a call by its type, where a number's size is that of its place."""
    if type(value) in (Outcome, Fixed, State):
        return value.text
    if type(value) is Signed:
        return value.state.text + sized(value.signature)
    if type(value) is Chain:
        marks = [number(it.place, 1) + sized(it.signature) for it in value.marks]
        return value.fixed.text + few([it.text for it in value.states]) + few(marks)
    return value


def op_text(op):
    if type(op) is Time:
        return b"\x02" + number(op.to, 8)
    op_fields = op._asdict()
    if type(op) is Challenge:
        op_fields["signature"] = sized(op.signature)
    sizes = {"asset": 4, "expected": 8, "amount": 8, "challenger": 1, "index": 1, "position": 1}
    op_fields.update({key: number(op_fields[key], size) for key, size in sizes.items() if key in op_fields})
    return b"\x01" + number(CALLS.index(type(op)), 1) + b"".join(map(text_of, op_fields.values()))


def part_text(part):
    if type(part) in (Root, OnLedger):
        return number(len(part), 1) + b"".join(part)
    kind = b"\x03" if type(part) is End else b"\x04"
    return kind + b"".join(part[:6]) + number(part.asset, 4) + number(part.total, 8) + number(part.side_b, 1)


def ending_text(ending):
    known = [it.channel + it.state.text for it in ending.known]
    shares = b"".join(number(asset, 4) + number(amount, 16) for asset, amount in ending.shares)
    parts = [part_text(it) for it in ending.parts]
    return ending.person + few(parts) + few(known) + b"\x00" + number(len(ending.shares), 4) + shares


# ---- what comes by chance

CHANNELS = [fixed(2, 1, 1, 2), fixed(2, 2, 0, 3), fixed(2, 3, 2, 1), fixed(3, 4, 0, 2)]
NAMES = [name_of(it) for it in CHANNELS]
OTHERS = [bytes([it]) * 32 for it in range(0x61, 0x67)]
DESTS = PERSONS + [b"\x02" + name for name in NAMES + OTHERS]


class Maker:
    def __init__(self, seed):
        self.random, self.ledger, self.states = random.Random(seed), Ledger(), {}

    def often(self, share):
        return self.random.random() < share

    def among(self, *values):
        return self.random.choice(values)

    # ---- outcomes and states

    def shape(self, asset, promises):
        dests = self.random.sample(DESTS[:3] if self.often(0.7) else DESTS, self.among(1, 2, 2, 3))
        if self.often(promises):
            return Guarantee(asset, self.among(NAMES[0], NAMES[0], NAMES[1], self.random.choice(OTHERS)), dests)
        return Allocation(asset, [(to, self.among(0, 1, 2, 3, 5, 9)) for to in dests])

    def outcome(self, of=None):
        """An outcome; most of those of channels of the last application are guarantees."""
        promises = 0.8 if of and of.app == 2 else 0.08
        return outcome([self.shape(asset, promises) for asset in self.among([], [0], [0], [0], [0], [0], [3], [0, 3])])

    def votes(self, people):
        if self.often(0.5):
            return b""
        return number(people - 1 if self.often(0.8) else self.among(0, 1, 2, 3), 1) + self.outcome().text

    def paid(self, of, mover):
        """An outcome in which the one who moves pays the other."""
        assets = []
        for shape in of.assets:
            has = dict(shape.items) if type(shape) is Allocation else {}
            amount = self.among(0, 1, 2)
            if PERSONS[mover] in has and PERSONS[1 - mover] in has and has[PERSONS[mover]] >= amount:
                has[PERSONS[mover]] -= amount
                has[PERSONS[1 - mover]] += amount
                shape = Allocation(shape.asset, list(has.items()))
            assets.append(shape)
        return outcome(assets)

    def first(self, of, final):
        """A state to begin with, often one that is there."""
        there = self.states.setdefault(name_of(of), [])
        if there and self.often(0.3):
            return self.random.choice(there)
        row = self.ledger.row(name_of(of))
        turn = max(0, row.turn + self.among(-1, 0, 1, 1, 2, 3)) if row.turn else self.among(0, 1, 2, 2, 3, 4, 6)
        data = self.votes(len(of.keys)) if of.app == 0 else b""
        there.append(state(turn, self.often(final), self.outcome(of), data))
        return there[-1]

    def after(self, of, s):
        turn, people = s.turn + 1 if self.often(0.95) else s.turn, len(of.keys)
        if s.final or turn < 2 * people:
            return state(turn, s.final or self.often(0.05), s.outcome, s.data)
        if self.often(0.2):
            return state(turn, True, s.outcome, s.data)
        if of.app == 1:
            return state(turn, False, self.paid(s.outcome, turn % 2), s.data)
        if of.app == 2:
            return state(turn, False, s.outcome if self.often(0.9) else self.outcome(of), s.data)
        if s.data[:1] == b"\x01":
            kept = all_of(s.data[1:], Bytes.outcome)
            return state(turn, False, self.among(kept, kept, s.outcome, self.outcome()), b"")
        if s.data:
            return state(turn, False, s.outcome, number(max(1, s.data[0]) - 1, 1) + s.data[1:])
        return state(turn, False, s.outcome, self.votes(people))

    def sign(self, of, who, message):
        """Often the signature of the participant, else another's, or none."""
        if self.often(0.03):
            return b""
        return signature(who if self.often(0.97) else (who + 1) % 3, message)

    def sign_state(self, of, who, s):
        return self.sign(of, who, b"\x05" + state_digest(of, s))

    def chain(self, of, final=0.1, most=4):
        people = len(of.keys)
        states = [self.first(of, final)]
        while len(states) < min(most, self.among(1, 1, 2, people)):
            states.append(self.after(of, states[-1]))
        self.states[name_of(of)].append(states[-1])
        if self.often(0.04):
            return Chain(of, [], [])
        marks = []
        for who in range(people if self.often(0.97) else self.among(0, 1, 4)):
            last_turn = states[-1].turn - (states[-1].turn - who) % people
            late = [place for place, it in enumerate(states) if it.turn >= last_turn]
            place = late[0] if late and self.often(0.97) else self.among(0, 1, 2)
            on = states[min(place, len(states) - 1)]
            marks.append(Mark(place, self.sign_state(of, who % 3, on)))
        return Chain(of, states, marks)

    # ---- calls

    def challenge(self):
        chain = self.chain(self.random.choice(CHANNELS))
        who, last = self.among(0, 1, 1), chain.states[-1:]
        message = b"\x06" + b"".join(state_digest(chain.fixed, it) for it in last) + number(who, 1)
        return Challenge(chain, who if self.often(0.97) else self.among(2, 3), self.sign(chain.fixed, who, message))

    def answered(self):
        """A channel, more often one that is challenged, and the state that it is challenged with."""
        challenged = [it for it in CHANNELS if name_of(it) in self.standing("challenged")]
        of = self.random.choice(challenged if challenged and self.often(0.9) else CHANNELS)
        row, there = self.ledger.row(name_of(of)), self.states.get(name_of(of), [])
        wanted = [it for it in there if state_digest(of, it) == row.state_digest]
        return of, wanted[0] if wanted and self.often(0.9) else self.first(of, 0.1)

    def respond(self):
        of, origin = self.answered()
        after = self.after(of, origin)
        self.states[name_of(of)].append(after)
        return Respond(of, origin, Signed(after, self.sign_state(of, after.turn % len(of.keys), after)))

    def refute(self):
        of, origin = self.answered()
        row = self.ledger.row(name_of(of))
        newer = origin._replace(turn=row.turn + self.among(0, 1, 2, 2, 3, 3))
        newer = state(newer.turn, newer.final, newer.outcome, newer.data)
        return Refute(of, Signed(newer, self.sign_state(of, newer.turn % len(of.keys), newer)))

    def settled(self):
        """A channel, more often a final one, and the outcome that it ended with, more often than another."""
        name = self.random.choice(self.standing("final") if self.stands("final") and self.often(0.9) else NAMES)
        ended = self.ledger.row(name).outcome
        return name, ended if ended and self.often(0.95) else self.outcome()

    def asset(self, *of):
        there = [shape.asset for it in of for shape in it.assets]
        return self.among(*there) if there and self.often(0.95) else self.among(0, 3, 4)

    def transfer(self):
        name, of = self.settled()
        return Transfer(name, of, self.asset(of), self.among(0, 0, 0, 1, 1, 2))

    def claim(self):
        """A claim of a final guarantor on its target, where there is one, more often than another."""
        ended = {name: self.ledger.row(name).outcome for name in self.standing("final")}
        promises = [(name, of, shape) for name, of in ended.items() for shape in of.assets if type(shape) is Guarantee]
        promises = [it for it in promises if it[2].target in ended]
        if not promises or self.often(0.05):
            return self.transfer() if self.often(0.8) else Claim(*self.settled(), *self.settled(), 0, self.among(0, 1))
        name, of, shape = self.random.choice(promises)
        return Claim(name, of, shape.target, ended[shape.target], shape.asset, self.among(0, 0, 1, 2))

    def deposit(self):
        name = self.random.choice(NAMES if self.often(0.8) else OTHERS)
        if self.stands("final") and self.often(0.6):
            name = self.random.choice(self.standing("final"))
        asset, amount = self.among(0, 0, 0, 0, 3), self.among(1, 2, 4, 9)
        expected = 7 if self.often(0.1) else self.among(0, 0, self.ledger.held[name, asset])
        return Deposit(name, asset, expected, amount if self.often(0.92) else self.among(0, 2**64 - 5))

    def standing(self, mode):
        return [name for name in NAMES if self.ledger.mode(name) == mode]

    def stands(self, mode):
        return bool(self.standing(mode))

    def op(self):
        if self.often(0.12):
            return Time(max(0, self.ledger.now + self.among(-1, 0, 1, 1, 2, 4)))
        if self.often(0.25):
            return self.deposit()
        if self.often(0.12 + 0.25 * len(self.standing("final"))):
            pays = self.stands("final") or self.often(0.2)
            return self.among(self.transfer, self.claim)() if pays else self.deposit()
        if self.often(0.6 if self.stands("challenged") else 0.06):
            return self.among(self.respond, self.refute)()
        chained = self.among(Challenge, Challenge, Checkpoint, Conclude, Conclude)
        if chained is Challenge:
            return self.challenge()
        if chained is Conclude:
            return Conclude(self.chain(self.random.choice(CHANNELS + [CHANNELS[0], CHANNELS[2]]), 0.8))
        return Checkpoint(self.chain(self.random.choice(CHANNELS)))

    # ---- endings

    def known(self):
        name, there = self.random.choice(NAMES + OTHERS), self.outcome()
        return Known(name, state(self.among(1, 4, 7), False, there, self.votes(3) if self.often(0.4) else b""))

    def parts(self):
        names = self.random.sample(NAMES + OTHERS, len(NAMES + OTHERS))
        parts, before = [], []
        for _ in range(self.among(0, 1, 2, 3)):
            kind = self.among(Root, Root, OnLedger, End, Middle) if before else Root
            if kind is Middle and len(before) < 2:
                kind = OnLedger
            if len(names) < 4 or kind in (Root, OnLedger):
                part = Root(names.pop()) if kind is Root else OnLedger(self.random.choice(before), names.pop())
            else:
                ledgers = [self.random.choice(before), self.random.choice(before)]
                new = [names.pop() for _ in range(4)]
                part = kind(*ledgers, *new, self.among(0, 0, 3), self.among(0, 2, 4, 9), self.often(0.5))
            parts.append(part)
            before += [] if kind is Middle else [part.channel]
            names = names or list(OTHERS)
        return parts

    def tied(self, known, part):
        """Known states that fit a part: its ledgers pay its guarantors, and its joint channel its channel."""
        if type(part) in (Root, OnLedger) or self.often(0.2):
            return known
        joint = [(b"\x02" + part.channel, self.among(1, 3)), *((it, self.among(0, 1, 4)) for it in PERSONS)]
        items = {part.joint: joint, part.channel: [(it, self.among(1, 2)) for it in PERSONS[:2]]}
        for ledger, guarantor in ((part.ledger_a, part.guarantor_a), (part.ledger_b, part.guarantor_b)):
            items.setdefault(ledger, []).append((b"\x02" + guarantor, self.among(1, 4)))
            dests = [b"\x02" + part.channel, self.random.choice(PERSONS)]
            known.insert(0, Known(guarantor, state(1, False, outcome([Guarantee(part.asset, part.joint, dests)]), b"")))
        outcomes = [(name, outcome([Allocation(part.asset, its)])) for name, its in items.items()]
        return [Known(name, state(5, False, of, b"")) for name, of in outcomes] + known

    def ending(self):
        parts, known = self.parts(), [self.known() for _ in range(self.among(0, 2, 5, 8))]
        for part in parts:
            known = self.tied(known, part)
        ending = Ending(self.random.choice(PERSONS)[1:], parts, known, [], [])
        possible = possible_in(self.ledger, ending)
        assets = sorted(self.ledger.deposited)
        if not is_tellable(ending, possible):
            return ending
        shares = [(asset, share_of(self.ledger, ending, possible, asset)) for asset in assets]
        return ending._replace(shares=shares)

    def ops(self):
        """Deposits, often the ends of a guarantor and its channel, and then anything."""
        for _ in range(6):
            yield self.deposit()
        if self.often(0.6):
            yield Conclude(self.chain(CHANNELS[2], 1, 1))
            yield Conclude(self.chain(CHANNELS[0], 1, 1))
        while True:
            yield self.op()

    def record(self, entries):
        texts = []
        for place, op in zip(range(1, entries + 1), self.ops()):
            texts.append(number(place, 4) + number(0, 4) + op_text(op) + self.ledger.reply_to(op))
        sums = [number(it.kind, 1) + it.name + number(it.asset, 4) + number(it.amount, 8) for it in self.ledger.sums()]
        endings = [ending_text(self.ending()) for _ in range(self.among(0, 1, 2, 3))]
        return number(entries, 4) + b"".join(texts) + number(len(sums), 4) + b"".join(sums) + few(endings)


def record_by_chance(seed):
    return Maker(seed).record(36)
