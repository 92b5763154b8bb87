"""Whether a person's watchers looked in time.

The two other premises hold in each play of a model with ideal signatures: nobody forges, and names don't collide.
"""
from calls import Challenge, Checkpoint, Conclude, Refute, Respond, Time

TURNING = (Challenge, Respond, Refute, Checkpoint, Conclude)


def _channel_of(call):
    return call.channel.name if isinstance(call, (Respond, Refute)) else call.chain.channel.name


def expired(history):
    """Each challenge that ran out: its channel, its entry's number, and the number of the entry by which it did."""
    found, open_challenges = [], {}
    for entry in history:
        if not entry.reply.accepted:
            continue
        if isinstance(entry.call, TURNING):
            name = _channel_of(entry.call)
            open_challenges.pop(name, None)
            if isinstance(entry.call, Challenge):
                open_challenges[name] = entry.number, entry.reply.value
        elif isinstance(entry.call, Time):
            due = [name for name, (_, deadline) in open_challenges.items() if deadline <= entry.call.to]
            found += [(name, open_challenges.pop(name)[0], entry.number) for name in due]
    return found


def in_time(history, journal):
    """Whether at each challenge that ran out, of a channel with states in the journal, a watcher had looked after all
    of them. What watchers call is entered at once."""
    return all(_is_watched(journal, *challenge) for challenge in expired(history))


def _is_watched(journal, channel, number, end):
    noted = [i for i, event in enumerate(journal) if event.channel == channel and event.seen < end]
    if not noted:
        return True
    return any(event.deed == "watched" and number <= event.seen < end for event in journal[noted[-1] + 1:])
