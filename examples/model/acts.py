"""Hostile acts of random plays: what is entered, sent and lost, and what people command out of order."""
from dataclasses import replace

from adjudicator import CHALLENGED, FINAL
from lies import Lies
from play import outcome_of
from steps import step_fault
from values import FIXED, PAYMENT, Allocation, Guarantee


class Acts(Lies):
    """Acts on a stage. Each adds some steps, or none where it can't."""

    def some(self, people):
        """Some of the people, not none, perhaps in another order."""
        people = list(people)
        if people and self.chance(0.4):
            people = self.random.sample(people, self.random.randint(1, len(people)))
        return people

    # ---- chains

    def repeat(self):
        """Some known state goes to some node once more."""
        name = self.some_channel()
        known = self.stage.known_states(name)
        if known and self.world.nodes:
            signer, state = self.random.choice(known)
            found = self.stage.name_of(signer, name, state)
            people = self.nodes_of(self.world.channels[name].people)
            if found:
                to = self.random.choice(people if people and self.chance(0.9) else list(self.world.nodes))
                self.stage.do("send", to=to, state=found)

    def chain(self, name, liar):
        """Names of a chain of some turn, seldom a broken one."""
        channel, known = self.world.channels[name], self.stage.known_states(name)
        n = len(channel.people)
        own = [(signer, state) for signer, state in known if channel.mover(state.turn) == signer]
        turns = sorted({state.turn for _, state in own})
        if not turns or (liar and self.chance(0.15)):
            return self.signed_by_all(name, liar, known)
        last = self.random.choice(turns[-3:] if self.chance(0.6) else turns)
        found = []
        for turn in range(max(0, last - n + 1), last + 1):
            fitting = [it for it in own if it[1].turn == turn]
            if found and self.chance(0.9):
                steps = [it for it in fitting if step_fault(channel, found[-1][1], it[1]) is None]
                fitting = steps or fitting
            if fitting:
                found.append(self.random.choice(fitting))
        names = [self.stage.name_of(signer, name, state) for signer, state in found]
        names = [it for it in names if it]
        if names and self.chance(0.06):
            self.random.shuffle(names)
        return names[:-1] if len(names) > 1 and self.chance(0.05) else names

    def signed_by_all(self, name, liar, known):
        """One state that the others signed, which a liar signs too."""
        if not known or not liar:
            return []
        signer, state = self.random.choice(known[-4:])
        names = [self.stage.name_of(signer, name, state), self.stage.sign(liar, name, state)]
        return [it for it in names if it]

    def challenge(self, name=None):
        if name is None:
            name = self.some_channel(lambda name: self.liar_of(name)) if self.chance(0.95) else self.some_channel()
        liars = list(self.world.shadows)
        if not name or not liars:
            return
        liar = self.liar_of(name) if self.chance(0.9) else self.random.choice(liars)
        liar = liar or self.random.choice(liars)
        chain = self.chain(name, liar)
        if self.stage.left[liar] and (chain or self.chance(0.1)):
            self.stage.left[liar] -= 1
            self.stage.do("challenge", channel=name, chain=chain, by=liar)

    def surprise(self):
        """A challenge, and at once the time at which it runs out: no watcher can look between."""
        self.challenge()
        if self.chance(0.5):
            self.deposit()
        deadlines = self._deadlines()
        if deadlines:
            self.stage.do("time", to=max(deadlines))

    def _deadlines(self):
        """When the challenges that stand run out."""
        book = self.world.adjudicator
        return [row.deadline for row in book.rows.values() if row.deadline and row.deadline > book.now]

    def barrage(self):
        """Challenges of several channels at once."""
        for _ in range(self.random.choice((2, 3, 4))):
            self.challenge()

    def dispute(self):
        """A challenge, and an answer before any watcher looks."""
        self.challenge()
        for _ in range(self.random.choice((1, 1, 2))):
            self.answer()
        if self.chance(0.5):
            self.challenge()

    def checkpoint(self):
        name = self.some_channel()
        self.stage.do("checkpoint", channel=name, chain=self.chain(name, self.liar_of(name)))

    def conclude(self):
        name = self.some_channel()
        channel, known = self.world.channels[name], self.stage.known_states(name)
        final, liar = [it for it in known if it[1].final], self.liar_of(name)
        if final and liar and self.chance(0.5):
            chain = self.signed_by_all(name, liar, final)
        elif final and self.chance(0.9):
            listed = [it for it in final if channel.mover(it[1].turn) == it[0]][-len(channel.people):]
            chain = [it for it in (self.stage.name_of(signer, name, state) for signer, state in listed) if it]
        else:
            chain = self.chain(name, liar)
        self.stage.do("conclude", channel=name, chain=chain)

    def _challenged(self):
        return self.some_channel(lambda name: self.world.adjudicator.mode(name) == CHALLENGED)

    def answer(self):
        """A response or a refutation of a challenge, mostly one that fits."""
        name = self._challenged() if self.chance(0.95) else self.some_channel()
        known = self.stage.known_states(name) if name else []
        if not known:
            return
        row, channel = self.world.adjudicator.row(name), self.world.channels[name]
        later = [it for it in known if it[1].turn == row.turn + 1] if self.chance(0.8) else known
        liar = self.liar_of(name)
        if self.chance(0.3) and row.challenger:
            mine = [it for it in known if channel.mover(it[1].turn) == row.challenger and it[1].turn > row.turn]
            state = self._name_among(name, mine or known, None)
            if state:
                self.stage.do("refute", channel=name, state=state)
                self.challenge(name if self.chance(0.6) else None)
            return
        state = self._name_among(name, later, liar)
        before = [it for it in known if it[1] == row.state] if self.chance(0.9) else known
        before = self._name_among(name, before, None)
        if state and before:
            self.stage.do("respond", channel=name, state=state, **{"from": before})

    def _name_among(self, name, listed, liar):
        """The name of one of the states, or of a next one that a liar signs."""
        if listed and (liar is None or self.chance(0.7)):
            signer, state = self.random.choice(listed)
            return self.stage.name_of(signer, name, state)
        row = self.world.adjudicator.row(name)
        if liar is None or row.state is None:
            return None
        follow = replace(row.state, turn=row.turn + 1)
        return self.stage.sign(liar, name, self.random.choice((follow, self.forged(name, follow))))

    # ---- payouts

    def payout(self):
        """A transfer or a claim by anybody, mostly of a final channel and with its outcome."""
        book = self.world.adjudicator
        final = [name for name in self.world.channels if book.mode(name) == FINAL]
        name = self.random.choice(final) if final and self.chance(0.9) else self.some_channel()
        ready = [it for it in final if any(isinstance(owed, Guarantee) and book.mode(owed.target) == FINAL
                                           for owed in book.settled(it))]
        if ready and self.chance(0.4):
            name = self.random.choice(ready)
        outcome = book.settled(name)
        known = self.stage.known_states(name)
        if outcome is None or self.chance(0.05):
            outcome = self.random.choice(known)[1].outcome if known else ()
        liars = list(self.world.shadows)
        liar = self.random.choice(liars) if liars else None
        guarantees = [it for it in outcome if isinstance(it, Guarantee)]
        if guarantees and self.chance(0.9):
            self._claim(liar, name, outcome, guarantees[0])
            return
        it = self.random.choice(outcome) if outcome else None
        asset = it.asset if it and self.chance(0.95) else self.random.randint(0, 2)
        places = len(it.items) if isinstance(it, Allocation) else 1
        index = self.random.randrange(places + (1 if self.chance(0.1) else 0)) if places else 0
        self.stage.transfer(liar, name, outcome, asset, index)

    def _claim(self, liar, name, outcome, guarantee):
        book = self.world.adjudicator
        final = [it for it in self.world.channels if book.mode(it) == FINAL]
        target = self.random.choice(final) if final and self.chance(0.15) else guarantee.target
        owed = book.settled(target)
        known = self.stage.known_states(target)
        if owed is None or self.chance(0.05):
            owed = self.random.choice(known)[1].outcome if known else ()
        state, owes = self.stage.state_with(liar, name, outcome), self.stage.state_with(liar, target, owed)
        if state and owes:
            self.stage.do("claim", guarantor=name, state=state, target=target, target_state=owes,
                          asset=guarantee.asset, position=self.random.randrange(4))

    def deposit(self):
        """Something comes into a channel, sometimes one that nobody declared."""
        book = self.world.adjudicator
        name = self.some_channel() if self.chance(0.9) else self.random.choice("17") * 64
        asset = self.random.choice(self.shape.assets) if self.chance(0.9) else 3
        guarantors = [it for it in self.world.channels.values() if it.app == FIXED]
        if guarantors and self.chance(0.2):
            name = self.random.choice(guarantors).name
        held = book.held(name, asset)
        expected = self.random.choice((0, held, held, held + 1))
        amount = self.random.choice((1, 3, 20, 60, 0, 2**64 - 1))
        self.stage.do("deposit", channel=name, asset=asset, expected=expected, amount=amount)

    def late_deposit(self):
        """Something comes into a channel that is final already."""
        book = self.world.adjudicator
        final = [name for name in self.world.channels if book.mode(name) == FINAL]
        short = [name for name in final for it in book.rest(name) if isinstance(it, Allocation)
                 and it.total() > book.held(name, it.asset)]
        if final:
            name = self.random.choice(short) if short and self.chance(0.7) else self.random.choice(final)
            asset, amount = self.random.choice(self.shape.assets), self.random.choice((1, 10, 100))
            self.stage.do("deposit", channel=name, asset=asset, expected=0, amount=amount)

    # ---- time and messages

    def time(self):
        """Time goes on, often past a deadline, and seldom back."""
        now = self.world.adjudicator.now
        deadlines = self._deadlines()
        if deadlines and self.chance(0.7):
            self.stage.do("time", to=self.random.choice(deadlines) - (1 if self.chance(0.2) else 0))
        else:
            self.stage.do("time", to=max(0, now + self.random.choice((1, 2, 5, -1))))

    def drop(self):
        """Messages on their way to a node are lost."""
        waiting = sorted({to for to, _ in self.world.post})
        people = waiting or list(self.world.nodes)
        if people:
            self.stage.do("drop", to=self.random.choice(people))

    def some_rounds(self):
        for _ in range(self.random.choice((1, 1, 2, 3, 5, 8))):
            if not self.stage.is_full():
                self.stage.rounds(1)
                self.stage.play_liars(self.alter)

    # ---- commands

    def open(self, opening, people=None):
        """The opening command of all, or of some; the liars' shadows get it too."""
        people = list(opening.people) if people is None else people
        step, who, stage = opening.step, self.nodes_of(people), self.stage
        if who and opening.route:
            stage.open_virtual(opening.route, who, step)
        elif who:
            stage.do(step["do"], who=who, **{key: value for key, value in step.items() if key != "do"})
        stage.command_shadows(people, lambda node: self._command(node, opening))

    def _command(self, node, opening):
        step, channels = opening.step, self.world.channels
        channel = channels[step["channel"]]
        if step["do"] == "open":
            node.open(channel, outcome_of(step["outcome"]))
        elif step["do"] == "open_on":
            node.open_on(step["ledger"], channel, step["asset"], tuple(step["amounts"]))
        else:
            node.open_virtual(opening.route, tuple(step["ledgers"]), tuple(channels[it] for it in step["guarantors"]),
                              channels[step["joint"]], channel, step["asset"], tuple(step["amounts"]))

    def odd_open(self):
        """An opening that doesn't fit, comes out of order, or only to some."""
        spares = self.shape.spares if self.chance(0.6) else []
        opening = self.random.choice(spares or self.shape.openings)
        step, route = dict(opening.step), opening.route
        names = list(self.world.channels)
        change = self.random.choice(("none", "route", "ledgers", "amounts", "channel", "names", "order"))
        if change == "route" and route:
            route = self.random.choice(self.routes)
        if change == "ledgers":
            if "ledgers" in step:
                ledgers = list(step["ledgers"])
                ledgers[self.random.randrange(2)] = self.random.choice(names)
                step["ledgers"] = ledgers
            elif "ledger" in step:
                step["ledger"] = self.random.choice(names)
        if change == "amounts" and "amounts" in step:
            step["amounts"] = [self.random.choice((0, 1, it, 10**4, 2**64 - 1)) for it in step["amounts"]]
        if change == "channel":
            step["channel"] = self.random.choice(names)
        if change == "names" and "joint" in step:
            step[self.random.choice(("joint", "channel"))] = self.random.choice(names)
        if change == "order":
            for key in ("ledgers", "guarantors", "amounts"):
                if key in step and self.chance(0.5):
                    step[key] = step[key][::-1]
        who = self.nodes_of(self.some(opening.people)) or self.some(list(self.world.nodes))
        if who and route:
            self.stage.open_virtual(route, who, step)
        elif who:
            self.stage.do(step["do"], who=who, **{key: value for key, value in step.items() if key != "do"})

    def pay(self):
        """A payment, mostly one that is covered and at the own turn."""
        payments = [name for name, channel in self.world.channels.items() if channel.app == PAYMENT]
        people = {**self.world.nodes, **self.world.shadows}
        ready = [(person, name) for name in payments for person, node in people.items()
                 if name in node.records and node.records[name].is_own_turn() and node.records[name].holds(3)]
        if not ready or self.chance(0.15):
            ready = [(person, self.some_channel()) for person in self.world.nodes]
        if not ready:
            return
        who, name = self.random.choice(ready)
        amount = self.random.choice((0, 0, 1, 1, 2, 5, 9, 10**5))
        asset = self.random.choice(self.shape.assets)
        if who in self.world.nodes:
            self.stage.do("pay", who=who, channel=name, asset=asset, amount=amount)
        else:
            people[who].see()
            people[who].pay(name, asset, amount)

    def close(self, name=None, people=None):
        """A closing of some channel, by all or some; mostly by a name that people use."""
        if name is None:
            openings = [it.channel() for it in self.shape.openings]
            name = self.random.choice(openings) if self.chance(0.85) else self.random.choice(list(self.world.channels))
        opening = next((it for it in self.shape.openings if it.channel() == name), None)
        people = people or self.some(opening.people if opening else self.world.people)
        self.give(people, "close", name)

    def let_go(self, word, everybody=False):
        """Somebody settles or abandons, mostly where it may; or everybody does, wherever it may."""
        people = list({**self.world.nodes, **self.world.shadows}.values())
        parts = [(node, part) for node in people for part in node.parts]
        ready = [it for it in parts if (it[1].settles(it[0]) if word == "settle" else it[1].abandons(it[0]))]
        if not everybody and (not ready or self.chance(0.1)):
            ready = parts
        self.random.shuffle(ready)
        for node, part in ready if everybody else ready[:1]:
            odd = self.random.choice(part.channels() + [self.some_channel()])
            self.give([node.me], word, odd if self.chance(0.08) else part.channel.name)

    def settle(self):
        self.let_go("settle")

    def abandon(self):
        self.let_go("abandon")

    def resend(self):
        """Somebody sends its newest state once more, mostly where another lacks it."""
        people = {**self.world.nodes, **self.world.shadows}
        kept = [(node, record) for node in people.values() for record in node.records.values()]
        lost = [(node, record) for node, record in kept if record.last_signed is not None and any(
            other.records[record.channel.name].next_turn() <= record.last_signed.turn
            for person, other in people.items()
            if person in record.channel.people and record.channel.name in other.records)]
        if lost and self.chance(0.7):
            node, record = self.random.choice(lost)
            self.give([node.me], "resend", record.channel.name)
        elif kept and self.chance(0.8):
            node, record = self.random.choice(kept)
            self.give(self.some(record.channel.people), "resend", record.channel.name)
        else:
            self.give(self.some(list(people)), "resend", self.some_channel())

    def lose(self):
        """A payment is lost, and mostly sent once more, soon or later."""
        self.pay()
        self.drop()
        if self.chance(0.5):
            self.some_rounds()
        if self.chance(0.8):
            self.resend()

    def give(self, people, word, name):
        """A command of a channel alone, to nodes and shadows."""
        who = self.nodes_of(people)
        if who:
            self.stage.do(word, who=who, channel=name)
        self.stage.command_shadows(people, lambda node: getattr(node, word)(name))

    def leave(self, people=None):
        who = self.nodes_of(self.world.people if people is None else people)
        if who:
            self.stage.do("exit", who=who)

    def leave_some(self):
        self.leave(self.some(list(self.world.nodes)) if self.chance(0.5) else self.random.sample(
            list(self.world.nodes), 1))
