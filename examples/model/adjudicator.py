"""The adjudicator: holdings, challenges and payouts, one call after another."""
from dataclasses import dataclass, replace

from calls import (Challenge, Checkpoint, Claim, Conclude, Deposit, Entry, Refute, Reply, Respond, Time, Transfer,
                   refused)
from steps import step_fault, support_fault
from values import MOST, Allocation, Guarantee, allocation_of, answered, asset_of, verifies

OPEN, CHALLENGED, FINAL = "open", "challenged", "final"
LATEST_TIME = 2**62


@dataclass(frozen=True)
class Row:
    """What is recorded of a channel. State, outcome and challenger are those of its last challenge or conclusion."""
    turn: int = 0
    deadline: object = None
    state: object = None
    outcome: object = None
    challenger: object = None
    chain: object = None


class Adjudicator:
    def __init__(self, people):
        self.people, self.now, self.history, self.rows = people, 0, [], {}
        self.balances, self.payouts, self.deposits, self.lowered = {}, {}, {}, {}

    # ---- what is known

    def row(self, channel):
        return self.rows.get(channel, Row())

    def mode(self, channel):
        deadline = self.row(channel).deadline
        if deadline is None:
            return OPEN
        return CHALLENGED if deadline > self.now else FINAL

    def held(self, channel, asset):
        return self.balances.get((channel, asset), 0)

    def paid(self, person, asset):
        return self.payouts.get((person, asset), 0)

    def settled(self, channel):
        """The outcome with which the channel became final, or None."""
        return self.row(channel).outcome if self.mode(channel) == FINAL else None

    def rest(self, channel):
        """The settled outcome less what was paid of it, or None."""
        outcome = self.settled(channel)
        if outcome is None:
            return None
        return tuple(replace(it, items=self.rest_items(channel, it)) if isinstance(it, Allocation) else it
                     for it in outcome)

    def rest_items(self, channel, allocation):
        """The items less what was paid of them."""
        return tuple((to, max(0, amount - self.lowered.get((channel, allocation.asset, place), 0)))
                     for place, (to, amount) in enumerate(allocation.items))

    def due(self, channel, outcome, asset, index):
        """What a transfer of the item would pay."""
        return affordable(self.rest_items(channel, allocation_of(outcome, asset)), index, self.held(channel, asset))

    # ---- entries

    def enter(self, by, call):
        """Answers a call and writes it down."""
        reply, shows = self._answers[type(call)](self, call)
        entry = Entry(len(self.history) + 1, by, call, reply, shows if reply.accepted else None)
        self.history.append(entry)
        return entry

    def _time(self, call):
        if call.to < self.now:
            return refused("Backwards", self.now), None
        if call.to > LATEST_TIME:
            return refused("TooLate"), None
        self.now = call.to
        return Reply("now", self.now), None

    def _deposit(self, call):
        held, deposited = self.held(call.channel, call.asset), self.deposits.get(call.asset, 0)
        if call.amount == 0:
            return refused("Zero"), None
        if held < call.expected:
            return refused("Underheld", held), None
        if deposited + call.amount > MOST:
            return refused("AssetFull", deposited), None
        self.deposits[call.asset] = deposited + call.amount
        self.balances[call.channel, call.asset] = held + call.amount
        return Reply("held", held + call.amount), None

    # ---- disputes

    def _chain_refusal(self, chain):
        """The two first refusals of each call that shows a chain."""
        if self.mode(chain.channel.name) == FINAL:
            return refused("IsFinal")
        fault = support_fault(chain)
        return None if fault is None else refused("NotSupported", *fault)

    def _challenge(self, call):
        chain, channel = call.chain, call.chain.channel
        refusal = self._chain_refusal(chain)
        if refusal:
            return refusal, None
        row, turn = self.row(channel.name), chain.turn()
        if turn < row.turn or (turn == row.turn and self.mode(channel.name) == CHALLENGED):
            return refused("Stale", row.turn), None
        if call.challenger >= len(channel.people):
            return refused("BadChallenger"), None
        challenger = channel.people[call.challenger]
        if not verifies(challenger, channel.name, chain.last(), call.signature, call.challenger):
            return refused("BadChallenger"), None
        until = self.now + channel.duration
        self.rows[channel.name] = Row(turn, until, chain.last(), chain.last().outcome, challenger, chain)
        return Reply("until", until), chain

    def _respond(self, call):
        channel, row = call.channel, self.row(call.channel.name)
        if self.mode(channel.name) != CHALLENGED:
            return refused("NoChallenge"), None
        if call.before != row.state:
            return refused("WrongState"), None
        if call.after.state.turn != row.turn + 1:
            return refused("WrongTurn", row.turn + 1), None
        if not self._is_movers(channel, call.after):
            return refused("BadSignature"), None
        fault = step_fault(channel, call.before, call.after.state)
        if fault is not None:
            return refused("BadStep", fault), None
        self.rows[channel.name] = replace(row, turn=row.turn + 1, deadline=None)
        return Reply("open", row.turn + 1), answered(row.chain, call.after)

    def _is_movers(self, channel, signed):
        mover = channel.mover(signed.state.turn)
        return verifies(mover, channel.name, signed.state, signed.signature)

    def _refute(self, call):
        channel, row = call.channel, self.row(call.channel.name)
        if self.mode(channel.name) != CHALLENGED:
            return refused("NoChallenge"), None
        if call.after.state.turn <= row.turn:
            return refused("NotNewer", row.turn), None
        if channel.mover(call.after.state.turn) != row.challenger:
            return refused("NotChallengers"), None
        if not self._is_movers(channel, call.after):
            return refused("BadSignature"), None
        self.rows[channel.name] = replace(row, deadline=None)
        return Reply("open", row.turn), None

    def _checkpoint(self, call):
        chain, name = call.chain, call.chain.channel.name
        refusal = self._chain_refusal(chain)
        if refusal:
            return refusal, None
        row = self.row(name)
        if chain.turn() <= row.turn:
            return refused("NotNewer", row.turn), None
        self.rows[name] = replace(row, turn=chain.turn(), deadline=None)
        return Reply("open", chain.turn()), chain

    def _conclude(self, call):
        chain, name = call.chain, call.chain.channel.name
        refusal = self._chain_refusal(chain)
        if refusal:
            return refusal, None
        for place, state in enumerate(chain.states):
            if not state.final:
                return refused("NotFinalState", place), None
        last = chain.last()
        self.rows[name] = replace(self.row(name), turn=last.turn, deadline=self.now, state=last, outcome=last.outcome)
        return Reply("final", last.turn), chain

    # ---- payouts

    def _settled_refusal(self, given):
        """Each channel must be final, and with the outcome that is given."""
        for channel, _ in given:
            if self.mode(channel) != FINAL:
                return refused("NotFinal", channel)
        for channel, outcome in given:
            if self.settled(channel) != outcome:
                return refused("WrongOutcome", channel)
        return None

    def _transfer(self, call):
        refusal = self._settled_refusal([(call.channel, call.outcome)])
        if refusal:
            return refusal, None
        found = asset_of(call.outcome, call.asset)
        if found is None:
            return refused("NoAsset"), None
        if isinstance(found, Guarantee):
            return refused("WrongKind"), None
        if call.index >= len(found.items):
            return refused("NoItem"), None
        amount = self.due(call.channel, call.outcome, call.asset, call.index)
        return self._pay(call.channel, call.channel, call.asset, call.index, found.items[call.index][0], amount), None

    def _claim(self, call):
        refusal = self._settled_refusal([(call.guarantor, call.outcome), (call.target, call.target_outcome)])
        if refusal:
            return refusal, None
        guarantee, target = asset_of(call.outcome, call.asset), asset_of(call.target_outcome, call.asset)
        if guarantee is None or target is None:
            return refused("NoAsset"), None
        if isinstance(guarantee, Allocation) or isinstance(target, Guarantee):
            return refused("WrongKind"), None
        if guarantee.target != call.target:
            return refused("WrongTarget"), None
        if call.position >= len(guarantee.places):
            return refused("NotListed"), None
        to = guarantee.places[call.position]
        index = next((i for i, item in enumerate(target.items) if item[0] == to), None)
        if index is None:
            return refused("NoItem"), None
        items = self.rest_items(call.target, target)
        amount = claimable(items, guarantee.places, call.position, self.held(call.guarantor, call.asset))
        return self._pay(call.guarantor, call.target, call.asset, index, to, amount), None

    def _pay(self, payer, lowered, asset, place, to, amount):
        """Moves what is due from a channel, and lowers the item that it pays."""
        held = self.held(payer, asset)
        if amount == 0:
            return refused("NothingDue", held)
        self.lowered[lowered, asset, place] = self.lowered.get((lowered, asset, place), 0) + amount
        self.balances[payer, asset] = held - amount
        purse = self.payouts if to in self.people else self.balances
        purse[to, asset] = purse.get((to, asset), 0) + amount
        return Reply("paid", amount)

    _answers = {Deposit: _deposit, Time: _time, Challenge: _challenge, Respond: _respond, Refute: _refute,
                Checkpoint: _checkpoint, Conclude: _conclude, Transfer: _transfer, Claim: _claim}


def affordable(items, index, balance):
    """What the balance leaves for an item after those before it."""
    before = sum(amount for _, amount in items[:index])
    return min(items[index][1], max(0, balance - before))


def claimable(items, places, position, balance):
    """What the balance leaves for a destination of a list after those before it there."""
    amounts = dict(items)
    before = sum(amounts.get(to, 0) for to in places[:position])
    return min(amounts.get(places[position], 0), max(0, balance - before))
