"""Processes that keep a state file, as a caller sees them that kills them, and the signatures in what they write."""
import contextlib
import hashlib
import json
import signal
import subprocess
import time

QUERIES = ("share", "balance", "report", "plan", "chains", "resend")


class Ended(Exception):
    """A process ended before its response was whole."""

    def __init__(self, status, text):
        super().__init__(status, text)
        self.status, self.text = status, text

    def __str__(self):
        return "status %d after %r" % (self.status, self.text[-300:])


class Killer:
    """Kills one of some services with SIGKILL now and then, by seeded choices."""

    def __init__(self, chance, rate):
        self.chance, self.rate, self.services, self.kills = chance, rate, [], 0

    def strikes(self, speaking):
        """Whether the service that is spoken to is to be killed now. If the choice is another one, it is killed at once."""
        if self.chance.random() >= self.rate:
            return False
        victim = self.chance.choice(self.services)
        if victim is not speaking:
            victim.kill()
        return victim is speaking


class Service:
    """A process with a state file. It is started when it is asked something, and may be killed at any time.

    `ask` returns the response to each event once, as if nothing had been killed.
    """

    def __init__(self, words, path, killer, first=None):
        self.words, self.path, self.killer, self.first = words, path, killer, first
        self.child, self.ready, self.done, self.written, self.cut = None, None, 0, [], []
        killer.services.append(self)

    # ---- one process

    def start(self):
        """Starts the process. Returns the responses to the records after the last that was answered in full."""
        self.child = subprocess.Popen(
            [*self.words, "--state", self.path, "--after", str(self.done)],
            stdin=subprocess.PIPE, stdout=subprocess.PIPE, stderr=subprocess.DEVNULL)
        text = self.read(self.first, ("ready",))
        again, ready = split_last(text)
        self.ready = json.loads(ready)
        return again

    def kill(self):
        """Kills the process, if there is one. What it wrote is still in the pipe."""
        if self.child is not None and self.child.poll() is None:
            self.child.send_signal(signal.SIGKILL)
            self.killer.kills += 1

    def read(self, event, ends):
        """Writes an event, and reads its response up to one of these effects."""
        kill_at = self.killer.chance.randrange(4) if self.killer.strikes(self) else None
        if event is not None:
            with contextlib.suppress(BrokenPipeError):
                self.child.stdin.write(line_of(event))
                self.child.stdin.flush()
        lines = []
        while True:
            if len(lines) == kill_at:
                time.sleep(self.killer.chance.random() * 0.002)
                self.kill()
            line = self.child.stdout.readline()
            lines.append(line)
            if not line.endswith(b"\n"):
                raise Ended(self.end(), b"".join(lines))
            if json.loads(line)["effect"] in ends:
                return b"".join(lines)

    def end(self):
        """Waits for the end of the process, and returns its status."""
        with contextlib.suppress(BrokenPipeError):
            self.child.stdin.close()
        self.child.stdout.close()
        status, self.child = self.child.wait(), None
        return status

    def close(self):
        """Ends the input, or finds the process killed. It has nothing more to write."""
        if self.child is not None:
            self.child.stdin.close()
            rest = self.child.stdout.read()
            status = self.end()
            assert rest == b"" and status in (0, -signal.SIGKILL), (rest, status)

    # ---- whatever is killed

    def ask(self, event):
        """The effects that answer an event, or a query."""
        while True:
            try:
                again = b"" if self.child else self.start()
                if again:
                    return self.answered(event, again, again)
                return self.answered(event, again, self.read(event, ends_of(event)))
            except Ended as ended:
                if ended.status != -signal.SIGKILL:
                    raise
                self.cut.append(ended.text)

    def answered(self, event, again, text):
        """The effects in a response. What was written before crashes is a prefix of what is written again. If nothing is, the
        event wasn't kept; then it was nothing, or a part of a message that isn't kept either."""
        asides = asides_of(event)
        for part in self.cut:
            is_aside = any(part.startswith(word) or word.startswith(part) for word in asides)
            assert again.startswith(part) if again else is_aside, (part, again)
        self.cut = []
        effects = [json.loads(line) for line in text.splitlines()]
        if effects[-1]["effect"] == "done":
            self.done += 1
            self.written.append(text)
            assert effects[-1]["n"] == self.done, "record %d after %d" % (effects[-1]["n"], self.done - 1)
        return effects

    def replay(self):
        """Starts the process on its file once more: all responses are written again, byte for byte."""
        self.close()
        self.killer.rate, done, self.done = 0, self.done, 0
        again = self.start()
        self.done = done
        assert again == b"".join(self.written), "what is written again differs"


def line_of(event):
    return json.dumps(event, separators=(",", ":")).encode() + b"\n"


def split_last(text):
    """The lines before the last one, and this one."""
    at = text.rfind(b"\n", 0, -1) + 1
    return text[:at], text[at:]


def ends_of(event):
    """The effects that end the response to an event, or to a query."""
    if event["do"] in QUERIES:
        return ("error", "resent" if event["do"] == "resend" else event["do"])
    return ("done", "error", "refused") if event["do"] == "message" else ("done", "error")


def asides_of(event):
    """How a response begins that has no record."""
    words = ends_of(event) + (("send",) if event["do"] == "resend" else ())
    return [b'{"effect":"%s"' % word.encode() for word in words if word != "done"]


# ---- signatures


class Bytes:
    """The canonical bytes of values, read from the left (docs/definitions/channels.md)."""

    def __init__(self, data):
        self.data, self.at = data, 0

    def take(self, count):
        self.at += count
        assert self.at <= len(self.data), "bytes are missing"
        return self.data[self.at - count:self.at]

    def number(self, count):
        return int.from_bytes(self.take(count), "big")

    def sized(self):
        return self.take(self.number(2))

    def state(self):
        """The turn, and all bytes, of a state."""
        start, turn = self.at, self.number(8)
        self.take(1)
        for _ in range(self.number(1)):
            self.take(4)
            if self.number(1) == 1:
                self.take(41 * self.number(1))
            else:
                self.take(32)
                self.take(33 * self.number(1))
        self.sized()
        return turn, self.data[start:self.at]

    def fixed(self):
        """The name of a channel, and its people's keys."""
        start = self.at
        keys = [self.take(56) for _ in range(self.number(1))]
        self.take(13)
        return hashlib.sha256(b"\1" + self.data[start:self.at]).digest(), keys


def string_of(channel, state, challenger=None):
    """What is signed for a state, or for a challenge with it."""
    digest = hashlib.sha256(b"\3" + channel + state).digest()
    return b"\5" + digest if challenger is None else b"\6" + digest + bytes([challenger])


def signed_state(channel, keys, data):
    """The key, the string and the signature of a signed state."""
    turn, state = data.state()
    return keys[turn % len(keys)], string_of(channel, state), data.sized()


def signed_in_call(data):
    """The key, the string and the signature of each signature in a call."""
    data = Bytes(data)
    kind = data.number(1)
    if kind in (1, 7, 8):
        return []
    channel, keys = data.fixed()
    if kind in (3, 4):
        if kind == 3:
            data.state()
        return [signed_state(channel, keys, data)]
    states = [data.state()[1] for _ in range(data.number(1))]
    marks = [(data.number(1), data.sized()) for _ in range(data.number(1))]
    found = [(key, string_of(channel, states[place]), signature)
             for key, (place, signature) in zip(keys, marks) if place < len(states)]
    if kind == 2:
        challenger = data.number(1)
        found.append((keys[challenger], string_of(channel, states[-1], challenger), data.sized()))
    return found


class Indices:
    """What each index of each key has signed. The first four bytes of a signature are its index (RFC 8554)."""

    def __init__(self):
        self.people, self.signed, self.twice = {}, {}, set()

    def note(self, effect):
        """Notes the signatures in an effect. The people of a channel have to be known before."""
        found = []
        if effect["effect"] == "send":
            data = Bytes(bytes.fromhex(effect["bytes"]))
            channel = data.take(32)
            found = [signed_state(channel, self.people[channel], data)]
        elif effect["effect"] == "call":
            found = signed_in_call(bytes.fromhex(effect["call"]))
        elif effect["effect"] == "entry" and effect["op"].startswith("01"):
            found = signed_in_call(bytes.fromhex(effect["op"])[1:])
        for key, string, signature in found:
            if self.signed.setdefault((key, signature[:4]), (string, signature)) != (string, signature):
                self.twice.add(key)

    def count(self, key):
        """How many indices of the key were seen."""
        return sum(1 for other, _ in self.signed if other == key)
