#!/usr/bin/env python3
"""Two nodes and a ledger that are killed again and again: both people are paid exactly, and no index signs two messages.

    drive.py [--seeds N] [--first N] [--jobs N] [--program PATH]

Of each seed some plays are tried. In the first, two people open a channel with 5 and 3, pay forty times each way, and close
it. Meanwhile one of the two `nitro node` and the `nitro ledger` is killed now and then, messages are lost and doubled, calls
are dropped, and entries are late. All choices follow from the seed.
"""
import argparse
import concurrent.futures
import hashlib
import os
import random
import shutil
import sys
import tempfile
import time
import traceback

from services import Ended, Indices, Killer, Service

ASSET, BROUGHT, DURATION, PAYMENTS, PATIENCE = 0, (5, 3), 10, 40, 4000
IN_USE, FOREIGN, BEHIND, NOT_ITS_LEDGER = 8, 10, 11, 12


class Person:
    """A person's node, the messages on their way to it, and its calls that are under way."""

    def __init__(self, place, node):
        self.place, self.node = place, node
        node.ask({"do": "plan"})
        self.key, self.name = node.ready["key"], node.ready["name"]
        self.post, self.took, self.gained = [], -1, 0
        self.seen, self.waiting, self.calls = 0, {}, []


class Play:
    """Two people with their nodes, a ledger, and somebody who carries messages, enters calls and passes time."""

    def __init__(self, program, folder, seed, rate, height=5):
        self.program, self.folder, self.chance = program, folder, random.Random(seed)
        self.killer, self.indices = Killer(self.chance, rate), Indices()
        self.history, self.now, self.paid, self.balance = [], 0, [0, 0], list(BROUGHT)
        self.ended, self.deadlines = [], {}
        self.lost = self.doubled = self.dropped = 0
        self.loses, self.drops = 0.15, 0.15
        self.ledger = Service([program, "ledger"], os.path.join(folder, "ledger"), self.killer)
        self.people = [Person(place, self.node("node-%d" % place, height)) for place in range(2)]
        self.running = list(self.people)
        self.channel, self.name = self.payment_channel(seed)

    def __enter__(self):
        return self

    def __exit__(self, *_):
        for service in self.killer.services:
            service.kill()

    def node(self, name, height):
        seed = bytes(self.chance.randrange(256) for _ in range(32)).hex()
        return Service(
            [self.program, "node"], os.path.join(self.folder, name), self.killer, {"do": "start", "seed": seed, "h": height})

    def payment_channel(self, nonce):
        """A payment channel of both people, and its name."""
        channel = {
            "people": [person.key for person in self.people], "nonce": nonce, "app": "payment", "duration": DURATION}
        keys = [bytes.fromhex(person.key) for person in self.people]
        fixed = b"\2" + b"".join(keys) + nonce.to_bytes(8, "big") + b"\1" + DURATION.to_bytes(4, "big")
        name = hashlib.sha256(b"\1" + fixed).hexdigest()
        self.indices.people[bytes.fromhex(name)] = keys
        return channel, name

    # ---- what a node is asked, and what comes of its effects

    def ask(self, person, **event):
        effects = person.node.ask(event)
        for effect in effects:
            self.indices.note(effect)
            self.heed(person, effect)
        return effects

    def heed(self, person, effect):
        word = effect["effect"]
        if word == "send":
            receiver = next(other for other in self.people if other.name == effect["to"])
            receiver.post.append(effect["bytes"])
        elif word == "call":
            call = (effect["event"], effect["place"])
            person.waiting[call] = effect["call"]
            person.calls.append(call)
        elif word == "took":
            assert effect["turn"] > person.took, "an old state was taken"
            person.took = effect["turn"]
        elif word == "gained":
            person.gained += effect["amount"]

    def does(self, person, **command):
        """Whether the node does what it is told."""
        return not any(effect["effect"] in ("refused", "error") for effect in self.ask(person, **command))

    def balance_of(self, person):
        """What the person has in the channel, and whether it is its turn."""
        balance, = self.ask(person, do="balance", channel=self.name)
        return balance["items"][0][1], balance["mine"]

    # ---- steps

    def step(self):
        """One of the steps that are possible, by chance."""
        steps = []
        for person in self.running:
            steps += [(3, self.tick, person), (1, self.resend, person), (0.3, self.misread, person)]
            steps += [(6, self.carry, person)] if person.post else []
            steps += [(6, self.enter, person)] if person.calls else []
            steps += [(6, self.show, person)] if person.seen < len(self.history) else []
        # (time passes only while nobody is late, so all watchers are in time)
        if all(person.seen == len(self.history) and not person.calls for person in self.running):
            steps.append((1, self.pass_time, None))
        _, step, person = self.chance.choices(steps, [weight for weight, _, _ in steps])[0]
        step(person)

    def until(self, is_done, words):
        """Steps until this is so."""
        for _ in range(PATIENCE):
            if is_done():
                return
            self.step()
        raise AssertionError("it takes too long: " + words)

    def carry(self, person):
        """A message arrives, or is lost, or arrives and comes again later."""
        letter = person.post.pop(self.chance.randrange(len(person.post)))
        fate = self.chance.random()
        if fate < self.loses:
            self.lost += 1
            return
        if fate < 2 * self.loses:
            self.doubled += 1
            person.post.append(letter)
        self.ask(person, do="message", bytes=letter)

    def enter(self, person):
        """A call is entered; or it is dropped, of which its node hears."""
        call = person.calls.pop(0)
        if self.chance.random() < self.drops:
            self.dropped += 1
            self.ask(person, do="dropped", event=call[0], place=call[1])
            del person.waiting[call]
        else:
            self.write({"do": "enter", "by": person.place + 1, "call": person.waiting[call]})

    def write(self, event):
        """Writes an event to the ledger. All are to follow its entry."""
        entry, _ = self.ledger.ask(event)
        self.indices.note(entry)
        self.history.append(entry)
        words = entry["text"].split()
        self.ended.append(self.ended_by(words))
        if words[0] == "transfer" and words[4:6] == ["ok", "paid"]:
            self.paid[int(words[3])] += int(words[6])

    def ended_by(self, words):
        """The channels that an entry makes final: the one that it concludes, or those whose challenge runs out by its time."""
        ended, is_turned = [], words[3:4] == ["ok"]
        if words[0] == "time":
            ended = [channel for channel, deadline in self.deadlines.items() if deadline <= int(words[-1])]
        elif is_turned and words[4] == "final":
            ended = [words[1]]
        if is_turned and words[4] == "until":
            self.deadlines[words[1]] = int(words[5])
        for channel in [words[1]] if is_turned and words[4] == "open" else ended:
            self.deadlines.pop(channel, None)
        return ended

    def show(self, person):
        """A node follows the next entry. If that is a call of the node, it isn't under way any more. It says which channels,
        of all of which it holds a chain, are final by the entry."""
        entry = self.history[person.seen]
        before = dict(person.waiting)
        effects = self.ask(person, do="entry", **{key: entry[key] for key in ("number", "by", "op", "reply")})
        assert effects[-1]["effect"] == "done", effects
        final = [effect["channel"] for effect in effects if effect["effect"] == "final"]
        assert final == self.ended[person.seen], (entry["text"], final)
        person.seen += 1
        for call, digits in before.items():
            if "01" + digits == entry["op"]:
                del person.waiting[call]
        person.calls = [call for call in person.calls if call in person.waiting]

    def tick(self, person):
        """A node acts, unless calls of it are under way."""
        waits = person.waiting != {}
        effects = self.ask(person, do="tick")
        assert (effects == [{"effect": "error", "why": "waits"}]) == waits, effects

    def resend(self, person):
        self.ask(person, do="resend")

    def pass_time(self, _):
        self.now += self.chance.randint(1, 3)
        self.write({"do": "time", "to": self.now})

    def misread(self, person):
        """A node doesn't take a line."""
        number = self.chance.choice([person.seen, person.seen + 2])
        entry = {"do": "entry", "number": number, "by": 0, "op": "02" + 16 * "0", "reply": "06" + 16 * "0"}
        cases = [(entry, "number"), ({"do": "dropped", "event": 0, "place": 0}, "unknown"), ({"do": "pay"}, "shape"),
                 ({"do": "message", "bytes": "0"}, "bytes")]
        event, why = self.chance.choice(cases)
        effects = self.ask(person, **event)
        assert effects == [{"effect": "error", "why": why}], (event, effects)

    # ---- parts of plays

    def opens(self, person, channel):
        """Whether the person's node opens the channel with what both bring."""
        items = [[other.key, amount] for other, amount in zip(self.people, BROUGHT)]
        return self.does(person, do="open", channel=channel, outcome=[{"asset": ASSET, "items": items}])

    def open(self):
        for person in self.people:
            assert self.opens(person, self.channel)
        self.until(lambda: [person.took for person in self.people] == [3, 2], "opening")

    def pay(self, number, is_carried=True):
        """The payment of this number, from 0, whose turn is after the four of the opening. Whether the node has indices for it."""
        payer, payee = self.people[number % 2], self.people[1 - number % 2]
        amount = self.chance.randint(0, self.balance[payer.place])
        effects = self.ask(payer, do="pay", channel=self.name, asset=ASSET, amount=amount)
        if effects == [{"effect": "error", "why": "reserve"}]:
            return False
        assert [effect["effect"] for effect in effects] == ["send", "done"], effects
        self.balance[payer.place] -= amount
        if is_carried:
            self.balance[payee.place] += amount
            gained = payee.gained + amount
            self.until(lambda: payee.took == number + 4, "payment %d" % number)
            assert payee.gained == gained, "another amount was gained"
            assert self.balance_of(payee) == (self.balance[payee.place], True)
        return True

    def leave_alone(self, left, gone):
        """One is gone for good, and the other leaves."""
        gone.node.kill()
        self.running.remove(gone)
        self.killer.services.remove(gone.node)
        assert self.does(left, do="exit")
        self.until(lambda: self.paid[left.place] == self.balance[left.place], "leaving")

    def finish(self):
        """Everybody has what the ledger paid, all premises held, and the files give once more all that was written."""
        self.until(lambda: not any(it.waiting or it.seen < len(self.history) for it in self.running), "the end")
        for person in self.running:
            assert self.paid[person.place] == self.balance[person.place], (self.paid, self.balance)
            report, = self.ask(person, do="report")
            share, = self.ask(person, do="share", asset=ASSET)
            assert report["unforged"] and report["distinct"] and report["in_time"], report
            assert share["amount"] == self.paid[person.place], (share, self.paid)
            person.node.replay()
            used, seen = person.node.ready["used"], self.indices.count(bytes.fromhex(person.key))
            assert used == seen, "%d indices are used, and %d were seen" % (used, seen)
        self.ledger.replay()
        for service in self.killer.services:
            service.close()
        assert not self.indices.twice, "an index signed two messages"

    def status_of(self, node, path=None, first=None, after=None, words=(), event=None):
        """How another process ends that is given the file of a node, or another file, line `start` or `--after`."""
        other = Service([*node.words, *words], path or node.path, Killer(self.chance, 0), first or node.first)
        other.done = node.done if after is None else after
        try:
            other.ask(event or {"do": "plan"})
        except Ended as ended:
            assert ended.text == b"", ended.text
            return ended.status
        other.close()
        return 0

    def told(self):
        return "%d kills, %d messages lost, %d doubled, %d calls dropped, %d entries; paid %d and %d" % (
            self.killer.kills, self.lost, self.doubled, self.dropped, len(self.history), *self.paid)


# ---- plays


def agree(program, folder, seed):
    """Both open, pay forty times each way, and close."""
    with Play(program, folder, seed, 0.04, height=10) as play:
        play.open()
        for number in range(2 * PAYMENTS):
            play.pay(number)
        for person in play.people:
            play.until(lambda: play.does(person, do="close", channel=play.name), "closing")
        play.until(lambda: sum(play.paid) == sum(BROUGHT), "being paid")
        play.finish()
        return play.told()


def leave(program, folder, seed):
    """One is gone for good, perhaps before the last payment arrives, and the other leaves."""
    with Play(program, folder, seed, 0.1) as play:
        play.open()
        count = play.chance.randrange(6)
        for number in range(count):
            play.pay(number)
        if play.chance.random() < 0.5:
            play.pay(count, is_carried=False)
        # (nobody may have anything, where all was paid by a message that was lost)
        owed = [person for person in play.people if play.balance[person.place] > 0]
        left = play.chance.choice(owed or play.people)
        play.leave_alone(left, play.people[1 - left.place])
        play.finish()
        return play.told()


def spend(program, folder, seed):
    """Keys of 32 signatures: a payment is refused once the rest is kept back. It is enough to close, and then to leave."""
    with Play(program, folder, seed, 0.02) as play:
        play.open()
        number = 0
        while play.pay(number):
            number += 1
        # (each signed two states of the opening and 27 payments, and three indices are left)
        assert number == 54, number
        assert play.does(play.people[0], do="close", channel=play.name)
        play.until(lambda: play.balance_of(play.people[0]) == (play.balance[0], False), "a final state")
        play.drops = 0
        play.leave_alone(*play.people)
        play.finish()
        return play.told()


def settle(program, folder, seed):
    """One leaves, and the other lets go of the channel once it is final. Both are paid."""
    with Play(program, folder, seed, 0.1) as play:
        play.open()
        for number in range(play.chance.randrange(6)):
            play.pay(number)
        gone, left = play.chance.sample(play.people, 2)
        assert not play.does(left, do="settle", channel=play.name), "the channel isn't final"
        assert play.does(gone, do="exit")
        play.until(lambda: play.does(left, do="settle", channel=play.name), "settling")
        play.until(lambda: play.paid == play.balance, "being paid")
        play.finish()
        return play.told()


def abandon(program, folder, seed):
    """The other never answers an opening. Once it is given up, another channel is opened and closed."""
    with Play(program, folder, seed, 0.1) as play:
        channel, name = play.payment_channel(2**32 + seed)
        person = play.chance.choice(play.people)
        assert play.opens(person, channel)
        for _ in range(20):
            play.step()
        assert not play.opens(person, play.channel), "an opening is unfinished"
        assert play.does(person, do="abandon", channel=name)
        play.open()
        play.pay(0)
        for person in play.people:
            play.until(lambda: play.does(person, do="close", channel=play.name), "closing")
        play.until(lambda: play.paid == play.balance, "being paid")
        play.finish()
        return play.told()


def set_back(program, folder, seed):
    """A node is set back to a copy of its file, and leaves with an old state. The other's node answers, and leaves too."""
    with Play(program, folder, seed, 0.04) as play:
        play.open()
        honest, cheat = play.people
        copy, count = os.path.join(folder, "copy"), 2 * play.chance.randint(2, 4)
        for number in range(count):
            if number == 2:
                shutil.copy(cheat.node.path, copy)
                kept = cheat.node.done, cheat.node.written[:], cheat.seen
            play.pay(number)
        assert play.status_of(cheat.node, path=copy, words=["--moved"]) == BEHIND
        cheat.node.close()
        cheat.node.words, cheat.node.path = cheat.node.words + ["--moved"], copy
        cheat.node.done, cheat.node.written, cheat.seen = kept
        assert play.does(cheat, do="exit")
        play.until(lambda: any(it["text"].startswith("challenge ") for it in play.history), "an old challenge")
        assert play.does(honest, do="exit")
        play.until(lambda: play.paid[0] == play.balance[0], "leaving")
        assert play.indices.twice == {bytes.fromhex(cheat.key)}, "the copy signed at indices that were used"
        play.indices.twice.clear()
        play.running = [honest]
        play.finish()
        return play.told()


def refuse(program, folder, seed):
    """Files that a node doesn't take, and an entry that isn't the adjudicator's."""
    with Play(program, folder, seed, 0) as play:
        play.open()
        play.until(lambda: play.people[0].seen == len(play.history), "following")
        person, node = play.people[0], play.people[0].node
        assert play.status_of(node) == IN_USE
        node.close()
        copy = shutil.copy(node.path, os.path.join(folder, "copy"))
        assert play.status_of(node, path=copy) == FOREIGN
        assert play.status_of(node, first=play.people[1].node.first) == FOREIGN
        assert play.status_of(node, after=node.done + 1) == BEHIND
        op, reply = "02" + (play.now + 1).to_bytes(8, "big").hex(), "06" + (play.now + 2).to_bytes(8, "big").hex()
        entry = {"do": "entry", "number": person.seen + 1, "by": 0, "op": op, "reply": reply}
        assert play.status_of(node, event=entry) == NOT_ITS_LEDGER
        node.replay()
        return "statuses %d, %d, %d and %d" % (IN_USE, FOREIGN, BEHIND, NOT_ITS_LEDGER)


PLAYS = (agree, leave, settle, abandon, spend, set_back, refuse)


def tried(program, play, seed):
    begun = time.monotonic()
    with tempfile.TemporaryDirectory() as folder:
        told = play(program, folder, seed)
    return "seed %d, %s: %s (%.1f s)" % (seed, play.__name__, told, time.monotonic() - begun)


def main():
    words = argparse.ArgumentParser(description=__doc__.split("\n")[0])
    words.add_argument("--seeds", type=int, default=20)
    words.add_argument("--first", type=int, default=1)
    words.add_argument("--jobs", type=int, default=2)
    words.add_argument("--program", default=os.environ.get("NITRO", "nitro"))
    words.add_argument("plays", nargs="*", help="names of plays; without one, all")
    given = words.parse_args()
    plays = [play for play in PLAYS if not given.plays or play.__name__ in given.plays]
    program = os.path.abspath(shutil.which(given.program) or given.program)
    failed = 0
    with concurrent.futures.ProcessPoolExecutor(given.jobs) as pool:
        seeds = range(given.first, given.first + given.seeds)
        trials = {pool.submit(tried, program, play, seed): (seed, play) for seed in seeds for play in plays
                  if play is not refuse or seed == given.first}
        for trial, (seed, play) in trials.items():
            try:
                print(trial.result(), flush=True)
            except (AssertionError, Ended) as fault:
                failed += 1
                print("seed %d, %s: FAILED: %s" % (seed, play.__name__, fault), flush=True)
                traceback.print_exception(type(fault), fault, fault.__traceback__)
    return 1 if failed else 0


if __name__ == "__main__":
    sys.exit(main())
