"""Parts through an intermediary: a payment channel, or a virtual ledger, of two people who share no ledger."""
from dataclasses import dataclass

from parts import Loan, Part, final_state, no_target, opening_state, repeated_state, takes, voted_state
from steps import is_settled
from values import CONSENSUS, TURNS, Allocation, Channel, Guarantee, State, amount_of, names

FIRST, SECOND, MIDDLE = "first", "second", "middle"


def side_of(person, channel):
    """Which part a person plays: the first or the second of the channel's people, else the intermediary."""
    return {0: FIRST, 1: SECOND}.get(channel.position(person), MIDDLE)


def own_of(side, pair):
    """What of a pair, one for each end, belongs to a side."""
    return {FIRST: pair[:1], SECOND: pair[1:], MIDDLE: pair}[side]


@dataclass(eq=False)
class Virtual(Part):
    """One person's part in a virtual channel. Of the ledgers only those are there in which the person is."""
    side: str
    own_ledgers: tuple
    guarantors: tuple
    joint: Channel
    channel: Channel
    asset: int
    amounts: tuple

    running, closed = 5, 9

    # ---- channels and outcomes

    @property
    def ledgers(self):
        return tuple(ledger.name for ledger in self.own_ledgers)

    def is_end(self):
        return self.side != MIDDLE

    def own_guarantors(self):
        return own_of(self.side, self.guarantors)

    def channels(self):
        """All channels of the part, also the other side's guarantor."""
        return [it.name for it in self.guarantors + (self.joint, self.channel)]

    def total(self):
        return sum(self.amounts)

    def loans(self):
        return [Loan(ledger, guarantor.name, self.asset, self.amounts)
                for ledger, guarantor in zip(self.own_ledgers, self.own_guarantors())]

    def opening_of(self, name):
        first, middle, second = self.joint.people
        if name == self.channel.name:
            return (Allocation(self.asset, tuple(zip((first, second), self.amounts))),)
        if name == self.joint.name:
            return self.back(self.amounts)
        end = first if name == self.guarantors[0].name else second
        return (Guarantee(self.asset, self.joint.name, (self.channel.name, end, middle)),)

    def over(self):
        """The joint outcome while the channel is funded."""
        middle = self.joint.people[1]
        return (Allocation(self.asset, ((self.channel.name, self.total()), (middle, self.total()))),)

    def back(self, amounts):
        """The joint outcome that gives the two ends these amounts."""
        first, middle, second = self.joint.people
        return (Allocation(self.asset, ((first, amounts[0]), (second, amounts[1]), (middle, self.total()))),)

    def is_back(self, outcome):
        """Whether an outcome gives the whole back, in whatever two amounts."""
        amounts = self.back_amounts(outcome)
        return sum(amounts) == self.total() and outcome == self.back(amounts)

    def back_amounts(self, outcome):
        first, _, second = self.joint.people
        return tuple(amount_of(outcome, self.asset, end) or 0 for end in (first, second))

    # ---- stages

    def stage(self, facts):
        return self._closing_stage(facts) if self.closing else self._opening_stage(facts)

    def _opening_stage(self, facts):
        joint = facts.record(self.joint.name)
        own = self.own_guarantors() + (self.joint,) + ((self.channel,) if self.is_end() else ())
        if not all(facts.record(it.name).holds(len(it.people) - 1) for it in own):
            return 0
        past = joint.last_signed is not None and joint.last_signed.turn >= 3
        if not past and not all(loan.is_up(facts) for loan in self.loans()):
            return 1
        if not joint.holds(5):
            return 2
        if not is_settled(joint.last_signed, self.over()):
            return 3
        return 4 if self.is_end() and not facts.record(self.channel.name).holds(3) else 5

    def _closing_stage(self, facts):
        if self.is_end() and not facts.record(self.channel.name).has_ended():
            return 6
        if not self._is_joint_back(facts):
            return 7
        return 9 if all(loan.is_down(facts) for loan in self.loans()) else 8

    def _is_joint_back(self, facts):
        last = facts.record(self.joint.name).last_signed
        if self.is_end():
            return is_settled(last, self.back(self._final_amounts(facts)))
        return last is not None and last.votes == 0 and not names(last.outcome, self.channel.name)

    def _final_amounts(self, facts):
        """What the two ends have in the newest state of the channel, where that is final, else None."""
        latest = facts.record(self.channel.name).latest()
        return self.back_amounts(latest.outcome) if latest is not None and latest.final else None

    # ---- targets

    def joint_targets(self, facts):
        """Tells of an outcome whether the joint channel may go there in this stage."""
        stage = facts.stage(self)
        if stage < self.running:
            return lambda outcome: outcome == self.over()
        if stage not in (6, 7, 8):
            return no_target
        if not self.is_end():
            return self.is_back
        amounts = self._final_amounts(facts)
        return no_target if amounts is None else lambda outcome: outcome == self.back(amounts)

    def ledger_target(self, facts, name):
        """What a ledger of the part is to become in this stage, or None."""
        loan = next(loan for loan in self.loans() if loan.ledger.name == name)
        present, stage = facts.record(name).latest().outcome, facts.stage(self)
        if stage < self.running:
            return loan.up(present)
        amounts = self._returned_amounts(facts) if stage in (6, 7, 8) else None
        return None if amounts is None else loan.down(present, amounts)

    def _returned_amounts(self, facts):
        """What goes back to the two people of a ledger, or None while it isn't known."""
        if self.is_end():
            return self._final_amounts(facts)
        latest = facts.record(self.joint.name).latest()
        if latest is None:
            return None
        if self.is_back(latest.outcome):
            return self.back_amounts(latest.outcome)
        return self.back_amounts(latest.proposal) if latest.votes and self.is_back(latest.proposal) else None

    # ---- what is signed and taken

    def wanted(self, facts, name):
        record, stage = facts.record(name), facts.stage(self)
        if name in self.ledgers:
            return voted_state(record, self.ledger_target(facts, name)) if stage in (1, 8) else None
        if stage == 0:
            return opening_state(record, self.opening_of(name))
        if name == self.joint.name:
            return self._wanted_jointly(facts, record, stage)
        if name != self.channel.name:
            return None
        if stage == 4:
            return repeated_state(record)
        return final_state(record) if stage == 6 else None

    def _wanted_jointly(self, facts, record, stage):
        if stage == 2:
            return repeated_state(record)
        if stage == 3:
            return voted_state(record, self.over())
        if stage != 7:
            return None
        if self.is_end():
            return voted_state(record, self.back(self._final_amounts(facts)))
        return self._followed_back(record)

    def _followed_back(self, record):
        """The intermediary goes where the ends want to go, and lets a turn pass until they tell."""
        latest = record.latest()
        if self.is_back(latest.outcome):
            return voted_state(record, latest.outcome)
        if latest.votes:
            return voted_state(record, latest.proposal) if self.is_back(latest.proposal) else None
        passes = latest.outcome == self.over() and not latest.final and latest.turn + 1 < TURNS
        return State(latest.turn + 1, False, latest.outcome) if passes and record.is_own_turn() else None

    def accepts(self, facts, name, state):
        record = facts.record(name)
        if name in self.ledgers:
            target = self.ledger_target(facts, name)
            return takes(record, state, None, lambda outcome: target is not None and outcome == target)
        if name == self.joint.name:
            return takes(record, state, self.opening_of(name), self.joint_targets(facts))
        is_ledger = name == self.channel.name and self.channel.app == CONSENSUS
        if is_ledger and state.final and state.turn >= 2 and not self.closing:
            return False
        return takes(record, state, self.opening_of(name), no_target)
