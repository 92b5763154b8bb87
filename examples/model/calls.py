"""The calls that anybody may enter, and the replies."""
from dataclasses import dataclass

from values import Chain, Channel, Signature, Signed, State


@dataclass(frozen=True)
class Deposit:
    channel: str
    asset: int
    expected: int
    amount: int

    def words(self):
        return f"deposit {self.channel} {self.asset} {self.expected} {self.amount}"


@dataclass(frozen=True)
class Time:
    to: int

    def words(self):
        return f"time {self.to}"


def _chain_words(word, chain):
    return f"{word} {chain.channel.name} {chain.turn() if chain.states else '-'}"


@dataclass(frozen=True)
class Challenge:
    chain: Chain
    challenger: int
    signature: Signature

    def words(self):
        return _chain_words("challenge", self.chain)


@dataclass(frozen=True)
class Respond:
    channel: Channel
    before: State
    after: Signed

    def words(self):
        return f"respond {self.channel.name} {self.after.state.turn}"


@dataclass(frozen=True)
class Refute:
    channel: Channel
    after: Signed

    def words(self):
        return f"refute {self.channel.name} {self.after.state.turn}"


@dataclass(frozen=True)
class Checkpoint:
    chain: Chain

    def words(self):
        return _chain_words("checkpoint", self.chain)


@dataclass(frozen=True)
class Conclude:
    chain: Chain

    def words(self):
        return _chain_words("conclude", self.chain)


@dataclass(frozen=True)
class Transfer:
    channel: str
    outcome: tuple
    asset: int
    index: int

    def words(self):
        return f"transfer {self.channel} {self.asset} {self.index}"


@dataclass(frozen=True)
class Claim:
    guarantor: str
    outcome: tuple
    target: str
    target_outcome: tuple
    asset: int
    position: int

    def words(self):
        return f"claim {self.guarantor} {self.target} {self.asset} {self.position}"


@dataclass(frozen=True)
class Reply:
    """What an accepted call answers: a word and a number."""
    word: str
    value: int
    accepted = True

    def words(self):
        return f"ok {self.word} {self.value}"


REFUSALS = (
    "IsFinal", "NotSupported", "Stale", "BadChallenger", "NoChallenge", "WrongState", "WrongTurn", "BadSignature",
    "BadStep", "NotNewer", "NotChallengers", "NotFinalState", "Zero", "Underheld", "AssetFull", "NotFinal",
    "WrongOutcome", "NoAsset", "WrongKind", "WrongTarget", "NotListed", "NoItem", "NothingDue", "Backwards", "TooLate")


@dataclass(frozen=True)
class Refused:
    """Why a call was refused, with what is told besides."""
    name: str
    values: tuple = ()
    accepted = False

    def words(self):
        return " ".join(map(str, ("no", REFUSALS.index(self.name) + 1, self.name) + self.values))


def refused(name, *values):
    return Refused(name, values)


@dataclass(frozen=True)
class Entry:
    """One line of the history, and the chain that it shows, if any."""
    number: int
    by: int
    call: object
    reply: object
    shows: object = None

    def words(self):
        return f"{self.number} {self.by} {self.call.words()} {self.reply.words()}"
