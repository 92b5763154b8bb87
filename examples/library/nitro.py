"""The C library from Python: a node and a ledger in this process."""
import ctypes
import json

OK, ROOM = 0, 13


class Start(ctypes.Structure):
    """Which responses are given again, and whether the file may be a copy."""

    _fields_ = [("after", ctypes.c_uint64), ("again", ctypes.c_int32), ("moved", ctypes.c_int32)]


class Failed(Exception):
    """A call returned another status than 0."""


class Library:
    """libnitro.so, at a path."""

    def __init__(self, path):
        self.calls = ctypes.CDLL(path)
        self.calls.nitro_words.restype = ctypes.c_char_p
        self.calls.nitro_version.restype = ctypes.c_char_p
        handle, text, size = ctypes.c_uint64, ctypes.c_char_p, ctypes.c_size_t
        start, out = ctypes.POINTER(Start), ctypes.POINTER(ctypes.c_uint64)
        self.calls.nitro_ledger_open_from.argtypes = [text, start, out]
        self.calls.nitro_node_open_from.argtypes = [text, text, ctypes.c_uint8, start, out]
        for kind in ("ledger", "node"):
            step = getattr(self.calls, "nitro_%s_step" % kind)
            step.argtypes = [handle, text, size, text, size, ctypes.POINTER(size)]
            getattr(self.calls, "nitro_%s_close" % kind).argtypes = [handle]

    def check(self, status):
        if status != OK:
            raise Failed(status, self.calls.nitro_words(status).decode())

    def ledger(self, path, after=None, moved=False):
        """Opens a ledger. With `after` the responses to the records after that one are given again."""
        handle = ctypes.c_uint64()
        self.check(self.calls.nitro_ledger_open_from(path.encode(), start_of(after, moved), ctypes.byref(handle)))
        return Service(self, "ledger", handle)

    def node(self, path, seed, height, after=None, moved=False):
        """Opens a node with a key, whose seed is 32 bytes."""
        handle = ctypes.c_uint64()
        start = start_of(after, moved)
        self.check(self.calls.nitro_node_open_from(path.encode(), seed, height, start, ctypes.byref(handle)))
        return Service(self, "node", handle)


def start_of(after, moved):
    return ctypes.byref(Start(after or 0, after is not None, moved))


class Service:
    """An open handle, whose first answer has the responses that are given again and the line `ready`."""

    def __init__(self, library, kind, handle):
        self.library, self.handle = library, handle
        self.take = getattr(library.calls, "nitro_%s_step" % kind)
        self.let_go = getattr(library.calls, "nitro_%s_close" % kind)
        self.text = ctypes.create_string_buffer(4096)
        self.first = self.step(b"")

    def step(self, line):
        """The bytes of the answer to a line. Where they find no room, they are taken with more."""
        count = ctypes.c_size_t()
        status = self.take(self.handle, line, len(line), self.text, len(self.text), ctypes.byref(count))
        if status == ROOM:
            self.text = ctypes.create_string_buffer(2 * count.value)
            status = self.take(self.handle, b"", 0, self.text, len(self.text), ctypes.byref(count))
        self.library.check(status)
        return self.text.raw[:count.value]

    def ask(self, do, **keys):
        """The effects of an event."""
        return effects_of(self.step(json.dumps({"do": do, **keys}).encode()))

    def close(self):
        self.library.check(self.let_go(self.handle))


def effects_of(answer):
    return [json.loads(line) for line in answer.splitlines()]
