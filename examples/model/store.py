"""The signed states that a participant keeps of each of its channels."""
from dataclasses import dataclass, field

from steps import support_fault
from values import Channel, answered, first_chain


@dataclass
class Record:
    """What is kept of one channel. Before there is a chain, the first states wait in a window."""
    channel: Channel
    me: str
    window: list = field(default_factory=list)
    chain: object = None
    last_signed: object = None
    signed: dict = field(default_factory=dict)

    def latest(self):
        """The newest state, or None."""
        if self.chain:
            return self.chain.last()
        return self.window[-1].state if self.window else None

    def next_turn(self):
        latest = self.latest()
        return latest.turn + 1 if latest else 0

    def is_own_turn(self):
        return self.channel.mover(self.next_turn()) == self.me

    def holds(self, turn):
        """Whether the newest held chain has this turn or more."""
        return self.chain is not None and self.chain.turn() >= turn

    def has_ended(self):
        """Whether there is a held chain and all of its states are final."""
        return self.chain is not None and all(state.final for state in self.chain.states)

    def note(self, signed):
        """Takes the next state, which is known to verify and to be a step."""
        if self.chain:
            self.chain = answered(self.chain, signed)
        else:
            self.window.append(signed)
            if len(self.window) == len(self.channel.people):
                self.chain, self.window = first_chain(self.channel, self.window), []

    def note_own(self, signed):
        self.note(signed)
        self.last_signed = signed.state
        self.signed[signed.state.turn] = signed

    def adopt(self, chain):
        """Takes a newer chain that somebody showed; answers whether it did."""
        if (self.chain and chain.turn() <= self.chain.turn()) or support_fault(chain) is not None:
            return False
        self.chain, self.window = chain, []
        return True

    def counts(self):
        """Whether the channel counts for its participant: a chain is held, and a state was signed."""
        return self.chain is not None and self.last_signed is not None
