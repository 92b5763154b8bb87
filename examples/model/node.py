"""A participant's node: it takes commands and messages, signs what its stages want, and calls the adjudicator.

A node acts only directly after it has seen the whole history, so what the adjudicator shows is what it knows.
"""
from collections import Counter
from dataclasses import dataclass

from adjudicator import CHALLENGED, FINAL, OPEN
from calls import Challenge, Checkpoint
from leaving import exit_calls
from parts import Loan, OnLedger, Root
from steps import step_fault
from store import Record
from values import (CONSENSUS, FIXED, MOST, PAYMENT, TURNS, Allocation, Signature, Signed, State, amount_of, verifies,
                    with_items)
from virtual import MIDDLE, Virtual, own_of, side_of
from worth import share

PLAIN, LEDGER, ONWARD = "plain", "ledger", "onward"
LEFT, CHANNELS = 99, 64
REFUSALS = ("BadBytes", "UnknownChannel", "NotOpen", "NotNext", "BadSignature", "NotAStep", "NotWanted", "KeySpent",
            "TooMany")


@dataclass(frozen=True)
class NodeRefusal:
    """Why a node refused a command or a message."""
    name: str
    values: tuple = ()

    def words(self):
        return " ".join(map(str, ("no", REFUSALS.index(self.name) + 1, self.name) + self.values))


def refusal(name, *values):
    return NodeRefusal(name, values)


@dataclass(frozen=True)
class Event:
    """What happened after so many entries were seen: a state of a channel was signed or taken, or a watcher looked."""
    seen: int
    deed: str
    channel: object = None


class Node:
    def __init__(self, me, number, height, adjudicator):
        self.me, self.number, self.adjudicator = me, number, adjudicator
        self.signatures, self.used = 2**height, 0
        self.parts, self.owners, self.records, self.journal, self.outbox = [], {}, {}, [], []
        self.seen, self.exited, self.exit_given = 0, False, False
        self.tally, self.known, self.known_at, self.changes = Counter(), {}, None, 0
        self.idle_at, self.given = None, Counter()

    # ---- facts

    def record(self, name):
        return self.records[name]

    def own_channels(self):
        return list(self.records)

    def mode(self, name):
        return self.adjudicator.mode(name)

    def held(self, name, asset):
        return self.adjudicator.held(name, asset)

    def settled(self, name):
        return self.adjudicator.settled(name)

    def rest(self, name):
        return self.adjudicator.rest(name)

    def due(self, name, outcome, asset, index):
        return self.adjudicator.due(name, outcome, asset, index)

    def paid(self, asset):
        return self.adjudicator.paid(self.me, asset)

    def _now(self):
        """Grows with each change of what the node knows."""
        return self.changes, len(self.adjudicator.history)

    def _remembered(self, key, find):
        """What was found since anything changed."""
        now = self._now()
        if self.known_at != now:
            self.known, self.known_at = {}, now
        if key not in self.known:
            self.known[key] = find()
        return self.known[key]

    def stage(self, part):
        return self._remembered(part, lambda: part.stage(self))

    def part_of(self, name):
        """The part to which a channel belongs, or None where it isn't in the plan."""
        return self.owners.get(name)

    def standing_on(self, ledger):
        return [part for part in self.parts if ledger in part.ledgers]

    def first_not_open(self):
        """The first channel of the node, of a part that isn't closed, that isn't open."""
        def find():
            return next((name for name in self.records if self.mode(name) != OPEN
                         and not self.part_of(name).is_closed(self)), None)
        return self._remembered("not open", find)

    def _not_open(self):
        name = self.first_not_open()
        return None if name is None else refusal("NotOpen", name, self.mode(name))

    def _busy_stage(self):
        """The stage that hinders another objective, or None."""
        if self.exited:
            return LEFT
        return next((self.stage(part) for part in self.parts if part.is_unfinished(self)), None)

    # ---- what is seen

    def see(self):
        """Follows the history, and takes newer chains that it shows."""
        for entry in self.adjudicator.history[self.seen:]:
            record = self.records.get(entry.shows.channel.name) if entry.shows else None
            if record and record.adopt(entry.shows):
                self.changes += 1
                self.tally["adopted"] += 1
        self.seen = len(self.adjudicator.history)

    def handle(self, message):
        """Takes the state of a message, or tells why not."""
        found = self._message_refusal(message)
        self.tally["message " + (found.name if found else "taken")] += 1
        if found is None:
            self.records[message.channel].note(message)
            self.changes += 1
            self.journal.append(Event(self.seen, "handled", message.channel))
        return found

    def _message_refusal(self, message):
        record, state = self.records.get(message.channel), message.state
        if record is None:
            return refusal("UnknownChannel")
        if self.first_not_open():
            return self._not_open()
        if record.has_ended() or state.turn != record.next_turn():
            return refusal("NotNext", 0 if record.has_ended() else record.next_turn())
        if not verifies(record.channel.mover(state.turn), message.channel, state, message.signature):
            return refusal("BadSignature")
        if record.latest() and step_fault(record.channel, record.latest(), state) is not None:
            return refusal("NotAStep")
        part = self._asked(message.channel)
        if self.exited or not part.accepts(self, message.channel, state):
            return refusal("NotWanted", LEFT if self.exited else self.stage(part))
        return None

    def _asked(self, name):
        """The part that tells whether a state is taken: on a ledger the unfinished one that stands on it."""
        standing = (part for part in self.standing_on(name) if part.is_unfinished(self))
        return next(standing, self.part_of(name))

    # ---- commands

    def open(self, channel, opening):
        def make():
            people = all(isinstance(it, Allocation) and all(to in channel.people for to, _ in it.items)
                         for it in opening)
            fits = channel.app != FIXED and self.me in channel.people and people
            return Root(channel, opening) if fits else None
        return self._begin((), make)

    def open_on(self, ledger, channel, asset, amounts):
        def make():
            lender = self._lender(ledger, False)
            if lender is None or channel.app != PAYMENT or channel.people != lender.people:
                return None
            fits = Loan(lender, channel.name, asset, amounts).fits(self.records[ledger].latest().outcome)
            return OnLedger(lender, channel, asset, amounts) if fits else None
        return self._begin((ledger,), make)

    def open_virtual(self, route, ledgers, guarantors, joint, channel, asset, amounts):
        side = side_of(self.me, channel)
        own = own_of(side, ledgers)

        def make():
            lenders = tuple(self._lender(name, route == ONWARD) for name in own)
            if None in lenders or not self._is_virtual(route, side, lenders, guarantors, joint, channel):
                return None
            part = Virtual(side, lenders, guarantors, joint, channel, asset, amounts)
            fits = all(loan.fits(self.records[loan.ledger.name].latest().outcome) for loan in part.loans())
            return part if fits and 2 * sum(amounts) <= MOST else None
        return self._begin(own, make)

    def _lender(self, name, onward):
        """The running ledger of that name, or None: a direct channel or, onward, also a virtual ledger of an end."""
        part, record = self.part_of(name), self.records.get(name)
        if part is None or record is None or record.channel.app != CONSENSUS or len(record.channel.people) != 2:
            return None
        is_virtual = isinstance(part, Virtual) and part.is_end() and part.channel.name == name
        lends = isinstance(part, Root) or (onward and is_virtual)
        return record.channel if lends and self.stage(part) == part.running else None

    def _is_virtual(self, route, side, lenders, guarantors, joint, channel):
        """Whether people and applications are those of a virtual channel on this route, and the node is among them."""
        if len(joint.people) != 3:
            return False
        first, middle, second = joint.people
        pairs = ((first, middle), (middle, second))
        apps = (FIXED, FIXED, CONSENSUS, CONSENSUS if route == LEDGER else PAYMENT)
        virtual = [it for it in lenders if not isinstance(self.part_of(it.name), Root)]
        return (
            tuple(it.people for it in guarantors) == pairs
            and tuple(it.people for it in lenders) == own_of(side, pairs)
            and channel.people == (first, second)
            and tuple(it.app for it in guarantors + (joint, channel)) == apps
            and (side != MIDDLE or self.me == middle)
            and (route != ONWARD or side != MIDDLE or len(virtual) == 1)
        )

    def _begin(self, ledgers, make):
        """Adds a part to the plan, or tells why not. `make` gives no part where what was commanded doesn't fit."""
        if any(self.part_of(ledger) is None or self.part_of(ledger).released for ledger in ledgers):
            return refusal("UnknownChannel")
        if self.first_not_open():
            return self._not_open()
        part = make()
        if part is None or any(self.part_of(name) for name in part.channels()):
            return refusal("NotAStep")
        if self._busy_stage() is not None:
            return refusal("NotWanted", self._busy_stage())
        count = sum(len(it.channels()) for it in self.parts)
        if count + len(part.channels()) > CHANNELS:
            return refusal("TooMany", count)
        self._add(part)
        return None

    def _add(self, part):
        own = [part.channel]
        if isinstance(part, Virtual):
            own = list(part.own_guarantors()) + [part.joint] + ([part.channel] if part.is_end() else [])
        self.parts.append(part)
        self.owners.update((name, part) for name in part.channels())
        self.records.update((it.name, Record(it, self.me)) for it in own)
        self.changes += 1

    def close(self, name):
        part = self.part_of(name)
        if part is None:
            return refusal("UnknownChannel")
        if self.first_not_open():
            return self._not_open()
        stage = self._busy_stage()
        if stage is None and self.stage(part) != part.running:
            stage = self.stage(part)
        if stage is None:
            stage = self._standing_stage(part)
        if stage is not None:
            return refusal("NotWanted", stage)
        part.closing = True
        self.changes += 1
        return None

    def _standing_stage(self, part):
        """The stage of the first part that stands on the part's channel and isn't closed, or None."""
        standing = self.standing_on(part.channel.name)
        return next((self.stage(it) for it in standing if not it.is_closed(self)), None)

    def _release(self, name, may):
        """Lets go of a part, whether other channels are open or not. `may` tells whether it may."""
        part = self.part_of(name)
        if part is None:
            return refusal("UnknownChannel")
        stage = self._standing_stage(part) if may(part) else self.stage(part)
        if self.exited or stage is not None:
            return refusal("NotWanted", LEFT if self.exited else stage)
        part.closing = part.released = True
        self.changes += 1
        return None

    def settle(self, name):
        return self._release(name, lambda part: part.settles(self))

    def abandon(self, name):
        return self._release(name, lambda part: part.abandons(self))

    def resend(self, name):
        """Sends the newest state that it signed in a channel once more, also after its exit. It signs nothing."""
        record = self.records.get(name)
        if record is None:
            return refusal("UnknownChannel")
        if record.last_signed is None:
            return refusal("NotWanted", self.stage(self.part_of(name)))
        self._send(record, record.signed[record.last_signed.turn])
        return None

    def pay(self, name, asset, amount):
        part, record = self.part_of(name), self.records.get(name)
        if record is None:
            return refusal("UnknownChannel")
        if self.first_not_open():
            return self._not_open()
        if not record.is_own_turn():
            return refusal("NotNext", record.next_turn())
        state = self._payment(part, record, asset, amount)
        if state is None:
            return refusal("NotAStep")
        if self.exited or self.stage(part) != part.running:
            return refusal("NotWanted", LEFT if self.exited else self.stage(part))
        if self.used == self.signatures:
            return refusal("KeySpent", self.used)
        self._sign(record, state)
        self.given[asset] += amount
        return None

    def _payment(self, part, record, asset, amount):
        """The state by which the node pays, or None where it can't."""
        if record.channel.app != PAYMENT or record.next_turn() >= TURNS:
            return None
        latest = record.latest()
        outcome = latest.outcome if latest else part.opening_of(record.channel.name)
        other = next(person for person in record.channel.people if person != self.me)
        if amount > (amount_of(outcome, asset, self.me) or 0):
            return None
        if amount > 0:
            if amount_of(outcome, asset, other) is None:
                return None
            more = {self.me: -amount, other: amount}
            items = next(it.items for it in outcome if it.asset == asset)
            outcome = with_items(outcome, asset, [(to, had + more.get(to, 0)) for to, had in items])
        state = State(record.next_turn(), False, outcome)
        return None if latest and step_fault(record.channel, latest, state) is not None else state

    def exit(self):
        self.exited = True
        self.changes += 1
        return None

    # ---- acts

    def _sign(self, record, state):
        """Signs a state, if there is a signature left, and sends it to the others of the channel."""
        if self.used == self.signatures:
            self.tally["spent"] += 1
            return
        name = record.channel.name
        signed = Signed(name, state, Signature(self.me, name, state))
        self.used += 1
        record.note_own(signed)
        self.changes += 1
        self.journal.append(Event(self.seen, "signed", name))
        self._send(record, signed)

    def _send(self, record, signed):
        self.outbox += [(person, signed) for person in record.channel.people if person != self.me]

    def _ordered(self):
        """The node's channels in the order of acts: direct ones first."""
        roots = [name for name in self.records if isinstance(self.part_of(name), Root)]
        return [self.records[name] for name in roots + [name for name in self.records if name not in roots]]

    def tick(self):
        """Signs in each channel what is wanted there, and answers the calls."""
        if self.idle_at == self._now():
            return []
        changes, calls = self.changes, self._act()
        if not calls and self.changes == changes:
            self.idle_at = self._now()
        return calls

    def _act(self):
        if self.exited:
            return self._leave()
        for record in self._ordered():
            state = None if self.first_not_open() else self._wanted(record)
            if state is not None:
                self._sign(record, state)
        return [call for part in self.parts for call in part.calls(self)]

    def _wanted(self, record):
        """The state that a stage wants in a channel, where it may be signed."""
        name = record.channel.name
        for part in [self.part_of(name)] + self.standing_on(name):
            state = part.wanted(self, name)
            if state is not None:
                break
        if state is None or record.has_ended() or state.turn != record.next_turn() or not record.is_own_turn():
            return None
        latest = record.latest()
        return None if latest and step_fault(record.channel, latest, state) is not None else state

    def _leave(self):
        """Challenges each open channel, and calls for what is owed once all of them are final."""
        calls = []
        for record in self._ordered():
            if record.chain and self.mode(record.channel.name) == OPEN:
                calls += self._challenge(record)
        if all(self.mode(name) == FINAL for name, record in self.records.items() if record.chain):
            assets = self.adjudicator.deposits
            if not self.exit_given or any(share(self, asset) > self.paid(asset) for asset in assets):
                calls += exit_calls(self)
            self.exit_given = True
        return calls

    def _challenge(self, record):
        if self.used == self.signatures:
            self.tally["spent"] += 1
            return []
        self.used += 1
        name, place = record.channel.name, record.channel.position(self.me)
        return [Challenge(record.chain, place, Signature(self.me, name, record.chain.last(), place))]

    def watch(self):
        """What a watcher of the node calls: the held chain of each channel that is challenged below it."""
        self.journal.append(Event(len(self.adjudicator.history), "watched"))
        return [Checkpoint(record.chain) for name, record in self.records.items()
                if record.chain and self.mode(name) == CHALLENGED
                and self.adjudicator.row(name).turn < record.chain.turn()]
