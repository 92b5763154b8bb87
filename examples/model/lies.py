"""Lies of random plays: what people without nodes sign in place of what an honest person would."""
from dataclasses import replace

from values import CONSENSUS, FIXED, PAYMENT, Allocation, State, with_items


class Lies:
    """What liars sign on a stage, send to nodes or show to the adjudicator."""

    def __init__(self, stage, shape, routes):
        self.stage, self.shape, self.random, self.routes = stage, shape, stage.random, routes
        self.world, self.honesty = stage.world, 1.0

    # ---- choices

    def chance(self, part):
        return self.random.random() < part

    def liar_of(self, name):
        """A liar of a channel, or None."""
        people = self.world.channels[name].people
        found = [person for person in people if person in self.world.shadows]
        return self.random.choice(found) if found else None

    def some_channel(self, wanted=None):
        """A channel in which something was signed, where there is one, and of which `wanted` holds."""
        names = [name for name in self.world.channels if wanted is None or wanted(name)]
        if not names:
            return None
        live = [name for name in names if self.stage.known_states(name)]
        return self.random.choice(live if live and self.chance(0.9) else names)

    def nodes_of(self, people):
        return [person for person in people if person in self.world.nodes]

    # ---- lies in place of states that are wanted

    def alter(self, liar, channel, state):
        """What a liar signs and sends where an honest person would this; it seldom lies while a channel opens."""
        early = state.turn < 2 * len(self.world.channels[channel].people)
        if self.random.random() < self.honesty or (early and self.chance(0.8)):
            return [state]
        known = [it for _, it in self.stage.known_states(channel) if it.turn == state.turn - 1]
        follow = self.followers(channel, self.random.choice(known)) if known and self.chance(0.8) else []
        follow = [it for it in follow if it != state and (not it.final or self.chance(0.2))]
        forged = self.random.choice(follow) if follow else self.forged(channel, state)
        way = self.random.choices(("before", "shown", "after", "instead", "lost"), (6, 5, 1, 1, 1))[0]
        if way == "shown":
            self.show(liar, channel, forged)
            return [state] if self.chance(0.3) else []
        return {"before": [forged, state], "after": [state, forged], "instead": [forged], "lost": []}[way]

    def show(self, liar, name, state):
        """A liar brings a state before the adjudicator, after those that others signed, and tells nobody."""
        channel, n = self.world.channels[name], len(self.world.channels[name].people)
        known = self.stage.known_states(name)
        chain = [next((self.stage.name_of(signer, name, it) for signer, it in known
                       if it.turn == turn and signer == channel.mover(turn)), None)
                 for turn in range(max(0, state.turn - n + 1), state.turn)]
        chain = [it for it in chain + [self.stage.sign(liar, name, state)] if it]
        if self.chance(0.8) or not self.stage.left[liar]:
            self.stage.do("checkpoint", channel=name, chain=chain)
        else:
            self.stage.left[liar] -= 1
            self.stage.do("challenge", channel=name, chain=chain, by=liar)

    def forged(self, name, state):
        """Another state in place of this one."""
        channel = self.world.channels[name]
        change = self.random.choice(("outcome", "outcome", "votes", "final", "turn", "pass"))
        if change == "outcome":
            return replace(state, outcome=self.other_outcome(name, state.outcome))
        if change == "votes" and channel.app == CONSENSUS:
            proposal = self.other_outcome(name, state.proposal or state.outcome)
            return replace(state, votes=self.random.choice((1, len(channel.people) - 1)), proposal=proposal)
        if change == "final":
            return replace(state, final=not state.final, votes=0, proposal=())
        if change == "turn":
            return replace(state, turn=max(0, state.turn + self.random.choice((-2, -1, 1, 2, 3))))
        return replace(state, votes=0, proposal=())

    def other_outcome(self, name, outcome):
        """An outcome near to this one, or one that the channel had."""
        seen = [it for _, state in self.stage.known_states(name) for it in (state.outcome, state.proposal) if it]
        if seen and self.chance(0.5):
            outcome = self.random.choice(seen)
            if self.chance(0.5):
                return outcome
        listed = [it for it in outcome if isinstance(it, Allocation) and it.items]
        if not listed:
            return outcome
        it = self.random.choice(listed)
        items = list(it.items)
        i, j = (self.random.randrange(len(items)) for _ in range(2))
        amount = self.random.randint(0, items[i][1])
        change = self.random.choice(("move", "move", "move", "less", "more", "gone", "named"))
        if change == "move" and i != j:
            items[i] = items[i][0], items[i][1] - amount
            items[j] = items[j][0], items[j][1] + amount
        elif change == "less":
            items[i] = items[i][0], items[i][1] - amount
        elif change == "more":
            items[i] = items[i][0], items[i][1] + 1 + amount
        elif change == "gone":
            del items[i]
        elif change == "named":
            other = self.random.choice(list(self.world.channels) + list(self.world.people))
            if len(items) < 16 and other not in dict(items):
                items.append((other, amount))
        return with_items(outcome, it.asset, items)

    def followers(self, name, state):
        """States that may follow a state of a channel."""
        channel = self.world.channels[name]
        follow = replace(state, turn=state.turn + 1)
        found = [follow, replace(follow, votes=0, proposal=()), replace(follow, final=True)]
        if channel.app == CONSENSUS and state.votes:
            fewer = state.votes - 1
            found.append(replace(follow, votes=fewer) if fewer else State(follow.turn, False, state.proposal))
        elif channel.app == CONSENSUS:
            votes, proposals = len(channel.people) - 1, [self.other_outcome(name, state.outcome) for _ in range(3)]
            found += [replace(follow, votes=votes, proposal=it) for it in proposals]
        elif channel.app == PAYMENT:
            found.append(replace(follow, outcome=self.other_outcome(name, state.outcome)))
        return found

    def lie(self):
        """A liar signs a state of its own: often one that may follow, or a second one of a turn that it had."""
        live = [name for name in self.world.channels if self.liar_of(name) and self.stage.known_states(name)]
        if not live:
            return
        weights = [1 if self.world.channels[name].app == FIXED else 4 for name in live]
        name = self.random.choices(live, weights)[0]
        liar, state, keeps = self._lied(name)
        signed = self.stage.sign(liar, name, state)
        if signed and not keeps:
            for person in self.nodes_of(self.world.channels[name].people):
                self.stage.do("send", to=person, state=signed)

    def _lied(self, name):
        """Who lies in a channel, the state, and whether it is kept for a challenge."""
        known, channel = self.stage.known_states(name), self.world.channels[name]
        newest = known[-1][1]
        mover = channel.mover(newest.turn + 1)
        if mover in self.world.shadows and self.chance(0.8):
            follow = self.followers(name, newest)
            ends = self.chance(0.35)
            follow = [it for it in follow if it.final == ends] or follow
            return mover, self.random.choice(follow), self.chance(0.3)
        liars = self.world.shadows
        own = [state for signer, state in known if signer in liars and channel.mover(state.turn) == signer]
        if own and self.chance(0.8):
            turn = self.random.choice(own[-2:]).turn
            before = [state for _, state in known if state.turn == turn - 1]
            if before:
                follow = self.followers(name, self.random.choice(before))
                return channel.mover(turn), self.random.choice(follow), self.chance(0.8)
        return self.liar_of(name), self.forged(name, newest), self.chance(0.4)

    # ---- lies where they may do harm

    def plot(self):
        """A lie at a place where it may do harm, if there is one."""
        ways = [self.end_early, self.pay_twice, self.move_jointly, self.move_jointly, self.lie]
        self.random.shuffle(ways)
        count = len(self.stage.steps)
        for way in ways:
            way()
            if len(self.stage.steps) > count:
                return

    def _tell(self, liar, name, state, shown):
        """A liar sends a state to the nodes of a channel, or shows it to all."""
        if self.chance(shown):
            self.show(liar, name, state)
            return
        signed = self.stage.sign(liar, name, state)
        for person in self.nodes_of(self.world.channels[name].people) if signed else ():
            self.stage.do("send", to=person, state=signed)

    def _liars_turns(self, app, count):
        """Channels past their opening where a liar is to move, with their newest states."""
        found = []
        for name, channel in self.world.channels.items():
            known = self.stage.known_states(name) if (channel.app, len(channel.people)) == (app, count) else []
            newest = known[-1][1] if known else None
            if newest and newest.turn >= 2 * count - 1 and channel.mover(newest.turn + 1) in self.world.shadows:
                found.append((name, newest))
        return found

    def end_early(self):
        """A ledger, direct or virtual, gets a final state that nobody asked for."""
        found = [it for it in self._liars_turns(CONSENSUS, 2) if not it[1].votes and not it[1].final]
        virtual = [it.channel() for it in self.shape.openings if it.route]
        if found:
            name, newest = self.random.choice([it for it in found if it[0] in virtual] or found)
            liar = self.world.channels[name].mover(newest.turn + 1)
            self._tell(liar, name, replace(newest, turn=newest.turn + 1, final=True), 0.2)

    def move_jointly(self):
        """A joint channel is to go back, before the time or with other amounts."""
        found = self._liars_turns(CONSENSUS, 3)
        joints = {it.step["joint"]: it for it in self.shape.openings if it.route}
        found = [it for it in found if it[0] in joints]
        if not found:
            return
        name, newest = self.random.choice(found)
        step, channel = joints[name].step, self.world.channels[name]
        odd = self.chance(0.4)
        self._tell(channel.mover(newest.turn + 1), name, self._moved(name, step, newest, odd), 0.5 if odd else 0.2)

    def _moved(self, name, step, newest, odd, passes=0.25):
        """A move in a joint channel: a vote, a pass, or a proposal to go back, odd or not."""
        turn, total = newest.turn + 1, sum(step["amounts"])
        if newest.votes and self.chance(0.9):
            follow = [it for it in self.followers(name, newest) if not it.final]
            return follow[-1] if self.chance(0.9) else self.random.choice(follow)
        if not odd and self.chance(passes):
            return replace(newest, turn=turn, votes=0, proposal=())
        payments, amount = self.stage.known_states(step["channel"]), self.random.randint(0, total)
        if payments and self.chance(0.7):
            amount = next((amount for it in payments[-1][1].outcome for _, amount in it.items), amount)
        first, middle, second = self.world.channels[name].people
        items = ((first, amount), (second, max(0, total - amount) + odd), (middle, total))
        return State(turn, False, newest.outcome, 2, (Allocation(step["asset"], items),))

    def play_jointly(self, name):
        """The liars of a joint channel move as they like at their turns, and nodes at theirs."""
        step = next(it.step for it in self.shape.openings if it.step.get("joint") == name)
        passes = self.random.choice((0.25, 1.0))
        for _ in range(9):
            known = self.stage.known_states(name)
            newest = known[-1][1] if known else None
            if newest is None or newest.turn < 5 or newest.final or self.stage.is_full():
                return
            liar = self.world.channels[name].mover(newest.turn + 1)
            if liar in self.world.shadows:
                self._tell(liar, name, self._moved(name, step, newest, False, passes), 0.05)
                passes = 0.1
            self.stage.rounds(1)

    def pay_twice(self):
        """A payer brings another payment of its last turn before the adjudicator."""
        found = []
        for name, channel in self.world.channels.items():
            known = self.stage.known_states(name) if channel.app == PAYMENT else []
            if known and known[-1][1].turn > 3 and known[-1][0] in self.world.shadows:
                found.append((known[-1][0], name, known[-1][1]))
        if found:
            liar, name, state = self.random.choice(found)
            self.show(liar, name, replace(state, outcome=self.other_outcome(name, state.outcome)))
