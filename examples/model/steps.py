"""Which state may follow which, which chains support a turn, and the move of a vote."""
from values import CONSENSUS, FIXED, PAYMENT, TURNS, Allocation, Guarantee, State, verifies

OUTCOME, DATA, VOTES, PROPOSAL, RAISED, LOWERED, EARLY_FINAL, AFTER_FINAL = range(1, 9)
LENGTH, TURN, STEP, SIGNATURE = range(1, 5)


def step_fault(channel, before, after):
    """The first rule that the step breaks, or None. The turn of the state before isn't looked at."""
    n = len(channel.people)
    if before.final and not after.final:
        return AFTER_FINAL
    if after.final and after.turn < 2 * n:
        return EARLY_FINAL
    if after.turn < 2 * n or after.final:
        return _repeat_fault(before, after)
    if channel.app == CONSENSUS:
        return _vote_fault(n, before, after)
    if before.votes or after.votes:
        return DATA
    if channel.app == PAYMENT:
        return _payment_fault(channel.people, after.turn % n, before.outcome, after.outcome)
    assert channel.app == FIXED
    return None if before.outcome == after.outcome else OUTCOME


def _repeat_fault(before, after):
    """Early turns and final states repeat what was there."""
    if before.data() != after.data():
        return DATA
    return None if before.outcome == after.outcome else OUTCOME


def _vote_fault(n, before, after):
    """Pass, propose, vote, final vote or veto."""
    if before.votes >= n or after.votes >= n:
        return DATA
    had, has = before.votes, after.votes
    stays = before.outcome == after.outcome
    if had == 0 and has in (0, n - 1):
        return None if stays else OUTCOME
    if had > 0 and has == 0:
        won = had == 1 and after.outcome == before.proposal
        return None if stays or won else OUTCOME
    if had >= 2 and has == had - 1:
        if before.proposal != after.proposal:
            return PROPOSAL
        return None if stays else OUTCOME
    return VOTES


def _payment_fault(people, mover, before, after):
    """The mover may give, and nobody else's item changes."""
    if _frame(before, people) != _frame(after, people):
        return OUTCOME
    for old, new in zip(before, after):
        if isinstance(old, Guarantee):
            continue
        for (to, had), (_, has) in zip(old.items, new.items):
            if to == people[mover] and has > had:
                return RAISED
            if to == people[1 - mover] and has < had:
                return LOWERED
    totals = [[it.total() for it in outcome if isinstance(it, Allocation)] for outcome in (before, after)]
    return None if totals[0] == totals[1] else OUTCOME


def _frame(outcome, people):
    """An outcome without the amounts of two people."""
    return [it if isinstance(it, Guarantee) else
            (it.asset, [(to, None if to in people else amount) for to, amount in it.items]) for it in outcome]


def support_fault(chain):
    """The first rule that the chain breaks, as the numbers that are printed, or None where it supports a turn."""
    channel, states = chain.channel, chain.states
    n, k = len(channel.people), len(states)
    if not 1 <= k <= n or len(chain.marks) != n:
        return (LENGTH,)
    for i in range(1, k):
        if states[i].turn != states[i - 1].turn + 1:
            return TURN, i
    if states[-1].turn < n - 1:
        return (LENGTH,)
    for i in range(1, k):
        fault = step_fault(channel, states[i - 1], states[i])
        if fault is not None:
            return STEP, i, fault
    for j in range(n):
        if not _is_marked(chain, j):
            return SIGNATURE, j
    return None


def _is_marked(chain, j):
    """Whether participant j signed a state of the chain that is no older than its own last turn."""
    mark, last, n = chain.marks[j], chain.turn(), len(chain.channel.people)
    if mark.place >= len(chain.states):
        return False
    state = chain.states[mark.place]
    own_last = last - (last - j) % n
    return state.turn >= own_last and verifies(chain.channel.people[j], chain.channel.name, state, mark.signature)


def is_settled(own_last, target):
    """Whether the last state that a participant signed has this outcome and no votes."""
    return own_last is not None and own_last.votes == 0 and own_last.outcome == target


def move_toward(n, target, latest, own_last):
    """The state by which a participant, at its turn, moves a vote toward a target, or None."""
    turn = latest.turn + 1
    if latest.final or turn >= TURNS or latest.votes >= n:
        return None
    if latest.votes and latest.proposal == target:
        if latest.votes == 1:
            return State(turn, False, target)
        return State(turn, False, latest.outcome, latest.votes - 1, target)
    if latest.votes:
        return State(turn, False, latest.outcome)
    if latest.outcome != target:
        return State(turn, False, latest.outcome, n - 1, target)
    return None if is_settled(own_last, target) else State(turn, False, latest.outcome)
