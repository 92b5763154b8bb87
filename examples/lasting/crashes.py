#!/usr/bin/env python3
"""Crashes of a service that keeps a state file: after each, what it wrote is what its file explains.

    crashes.py [--kills N] [--seed N] SERVICE ..

SERVICE is a program with its first arguments, as `nitro ledger`; `--state FILE` and `--after N` are added. It reads one JSON
event a line. The lines that it holds already share a record; it answers each of them, and then writes a line `done`.
"""
import argparse
import contextlib
import hashlib
import os
import random
import shutil
import subprocess
import sys
import tempfile
import time

DONE, ENTRY, READY = b'"effect":"done"', b'"effect":"entry"', b'"effect":"ready"'
SEPARATOR = b"\x1e"
ENDED, FAILED, IN_USE, DAMAGED, FOREIGN, FEWER = 0, 5, 8, 9, 10, 11


def deposit(channel, amount):
    """A deposit of asset 0: kind, channel, asset, what is expected to be held, amount."""
    call = bytes([1]) + bytes([channel]) * 32 + bytes(4) + bytes(8) + amount.to_bytes(8, "big")
    return b'{"do":"enter","by":%d,"call":"%s"}\n' % (channel, call.hex().encode())


def events(count, chance):
    """Events that are all taken, as lines."""
    lines, now = [], 0
    for _ in range(count):
        if chance.random() < 0.2:
            now += chance.randint(1, 9)
            lines.append(b'{"do":"time","to":%d}\n' % now)
        else:
            lines.append(deposit(chance.randint(1, 9), chance.randint(1, 1000)))
    return lines


def rows_of(path):
    """The records of a state file as rows, which end with a line feed, and the bytes after them. A record has no zeros."""
    with open(path, "rb") as file:
        lines = file.read().splitlines(keepends=True)
    whole = [line for line in lines[1:] if line.endswith(b"\n") and b"\0" not in line]
    return whole, b"".join(lines[1 + len(whole):])


class Trials:
    def __init__(self, service, folder, chance, count):
        self.service, self.folder, self.chance = service, folder, chance
        self.lines = events(count, chance)
        status, text = self.serve(self.path("whole"), self.lines)
        self.answers = [line for line in text.splitlines(keepends=True) if ENTRY in line]
        assert status == ENDED and len(self.answers) == count, "an event wasn't taken"
        assert self.explained(text, self.path("whole")) == len(self.ends(self.path("whole"))) - 1

    def path(self, name):
        return os.path.join(self.folder, name)

    def words(self, path, after):
        return [*self.service, "--state", path] + ([] if after is None else ["--after", str(after)])

    def serve(self, path, lines, after=None, **more):
        """The status and the text of a run on these lines, which it gets all at once."""
        with tempfile.TemporaryFile(dir=self.folder) as file:
            file.write(b"".join(lines))
            file.seek(0)
            run = subprocess.run(
                self.words(path, after), stdin=file, stdout=subprocess.PIPE, stderr=subprocess.DEVNULL,
                timeout=120, **more)
        return run.returncode, run.stdout

    def serve_slowly(self, path, lines, **more):
        """The same, but each line is sent after the response to the one before it."""
        child = subprocess.Popen(
            self.words(path, None), stdin=subprocess.PIPE, stdout=subprocess.PIPE, stderr=subprocess.DEVNULL, **more)
        text, is_open = b"", True
        for number, line in enumerate(lines, 1):
            if is_open:
                with contextlib.suppress(BrokenPipeError):
                    os.write(child.stdin.fileno(), line)
            while is_open and text.count(DONE) < number:
                piece = os.read(child.stdout.fileno(), 1 << 16)
                is_open = piece != b""
                text += piece
        child.stdin.close()
        text += child.stdout.read()
        child.stdout.close()
        return child.wait(), text

    # ---- what files and texts have to be

    def next_mark(self, mark, line, answers):
        return hashlib.sha256(mark + line + b"\n" + b"".join(answers)).digest()

    def ends(self, path):
        """For each record of a file, and for none, how many events there are up to it, and its mark, worked out here."""
        ends = [(0, bytes(32))]
        for row in rows_of(path)[0] if os.path.exists(path) else []:
            number, digits, line = row[:-1].split(b" ", 2)
            at, mark = ends[-1]
            lines = line.split(SEPARATOR)
            next_at = at + len(lines)
            assert [line + b"\n" for line in lines] == self.lines[at:next_at], "a record has other lines"
            mark = self.next_mark(mark, line, self.answers[at:next_at])
            assert (int(number), digits) == (len(ends), mark.hex().encode()), "a record has another number or mark"
            ends.append((next_at, mark))
        return ends

    def done_line(self, number, mark):
        return b'{"effect":"done","n":%d,"mark":"%s"}\n' % (number, mark.hex().encode())

    def explained(self, text, path, after=0):
        """The file that a crash left explains what was written: its records have all answers, and the numbers and marks of
        all lines `done`. Returns the number of the last of these."""
        ends = self.ends(path)
        lines = [line for line in text.splitlines(keepends=True) if READY not in line]
        at, number = ends[after][0], after
        for line in lines:
            assert number + 1 < len(ends), "a response was written before its record was kept"
            end, mark = ends[number + 1]
            wanted = self.answers[at] if at < end else self.done_line(number + 1, mark)
            if not line.endswith(b"\n"):
                assert wanted.startswith(line), "a part of a response differs"
                break
            assert line == wanted, "a response differs"
            if DONE in line:
                number += 1
            else:
                at += 1
        return number

    def finish(self, path, count=None):
        """A last run without crashes: the text has the answers of the run that had none, and the file explains it."""
        lines = self.lines[:count]
        status, text = self.serve(path, lines[self.kept(path):], after=0)
        assert status == ENDED, status
        answers = [line for line in text.splitlines(keepends=True) if ENTRY in line]
        assert answers == self.answers[:len(lines)], "the text differs"
        assert self.explained(text, path) == len(self.ends(path)) - 1, "a line done is missing"
        assert rows_of(path)[1] == b"", "a torn record is left"

    def kept(self, path):
        """How many events a file has."""
        return self.ends(path)[-1][0]

    def tear(self, path):
        """What a loss of power may leave of the next record: a prefix, or all of it with a hole."""
        ends = self.ends(path)
        at, mark = ends[-1]
        lines = self.lines[at:at + self.chance.randint(1, 4)]
        line = SEPARATOR.join(line[:-1] for line in lines)
        mark = self.next_mark(mark, line, self.answers[at:at + len(lines)])
        row = b"%d %s %s\n" % (len(ends), mark.hex().encode(), line)
        if self.chance.random() < 0.5:
            row = row[:self.chance.randrange(1, len(row))]
        else:
            start = self.chance.randrange(len(row))
            stop = self.chance.randrange(start, len(row)) + 1
            row = row[:start] + bytes(stop - start) + row[stop:]
        with open(path, "ab") as file:
            file.write(row)

    # ---- crashes

    def kill(self, kills):
        """Killed at random places under load."""
        path, torn = self.path("killed"), 0
        done = 0
        for _ in range(kills):
            after = self.chance.choice([done, max(0, done - 5)])
            ends = self.ends(path)
            start, again = ends[-1][0], ends[-1][0] - ends[after][0]
            child = subprocess.Popen(
                self.words(path, after), stdin=subprocess.PIPE, stdout=subprocess.PIPE, stderr=subprocess.DEVNULL)
            burst = self.lines[start:start + self.chance.randint(1, 20)]
            os.write(child.stdin.fileno(), b"".join(burst))
            wanted, text = self.chance.randint(0, 6), b""
            while text.count(ENTRY) < again + min(wanted, len(burst)):
                piece = os.read(child.stdout.fileno(), 1 << 16)
                assert piece, "it ended early, with status %d" % child.wait()
                text += piece
            time.sleep(self.chance.random() * 0.002)
            child.kill()
            text += child.stdout.read()
            child.stdout.close()
            child.stdin.close()
            child.wait()
            done = max(done, self.explained(text, path, after))
            if self.chance.random() < 0.2 and os.path.exists(path) and not rows_of(path)[1]:
                self.tear(path)
                torn += 1
        self.finish(path)
        return "%d kills, %d torn records, %d records before the last run" % (kills, torn, done)

    def share_records(self):
        """Lines that come all at once share records, and so syncs."""
        path = self.path("whole")
        count = len(self.ends(path)) - 1
        assert 10 * count <= len(self.lines), (count, len(self.lines))
        return "%d events in %d records" % (len(self.lines), count)

    def fill(self):
        """A file system fills up."""
        mount = self.path("small")
        os.mkdir(mount)
        made = subprocess.run(["mount", "-t", "tmpfs", "-o", "size=16k", "tmpfs", mount], stderr=subprocess.DEVNULL)
        if made.returncode != 0:
            return "skipped: only root may mount a small file system"
        try:
            path = os.path.join(mount, "state")
            status, text = self.serve(path, self.lines)
            assert status == FAILED, status
            written = self.explained(text, path)
            subprocess.run(["mount", "-o", "remount,size=64m", mount], check=True)
            self.finish(path)
        finally:
            subprocess.run(["umount", mount], check=True)
        return "full after %d records" % written

    def fail(self):
        """Each of the first writes, syncs and outputs fails."""
        library = self.path("failing.so")
        source = os.path.join(os.path.dirname(os.path.abspath(__file__)), "failing.c")
        compiler = shutil.which("cc") or shutil.which("clang")
        if compiler is None:
            return "skipped: there is no C compiler"
        subprocess.run([compiler, "-shared", "-fPIC", "-O1", "-o", library, source], check=True)
        count, failed = 6, 0
        for name in ["FAIL_WRITE", "FAIL_SYNC", "FAIL_OUTPUT"]:
            for at in range(1, count + 5):
                path = self.path("%s-%d" % (name, at))
                more = dict(os.environ, LD_PRELOAD=library, **{name: str(at)})
                status, text = self.serve_slowly(path, self.lines[:count], env=more)
                assert status in (ENDED, FAILED), (name, at, status)
                written = self.explained(text, path)
                assert status == FAILED or written == count, (name, at)
                failed += status == FAILED
                self.finish(path, count)
        assert failed >= 3 * count, "only %d calls failed" % failed
        return "%d calls failed" % failed

    # ---- refusals

    def share(self):
        """Two processes on one file."""
        path = self.path("shared")
        first = subprocess.Popen(self.words(path, None), stdin=subprocess.PIPE, stdout=subprocess.PIPE)
        first.stdin.write(self.lines[0])
        first.stdin.flush()
        text = b""
        while DONE not in text:
            text += os.read(first.stdout.fileno(), 1 << 16)
        status, second = self.serve(path, [self.lines[1]])
        assert (status, second) == (IN_USE, b""), (status, second)
        first.stdin.close()
        text += first.stdout.read()
        first.stdout.close()
        assert first.wait() == ENDED
        assert self.explained(text, path) == 1
        self.finish(path, 3)
        return "status %d" % IN_USE

    def change(self):
        """A byte of each record is another."""
        count = 8
        path = self.path("changed")
        self.serve_slowly(path, self.lines[:count])
        with open(path, "rb") as file:
            whole = file.read()
        rows = whole.splitlines(keepends=True)
        for number in range(1, count + 1):
            for _ in range(5):
                row = bytearray(rows[number])
                row[self.chance.randrange(len(row) - 1)] ^= 1
                changed = b"".join([*rows[:number], bytes(row), *rows[number + 1:]])
                with open(path, "wb") as file:
                    file.write(changed)
                status, text = self.serve(path, [], after=0)
                with open(path, "rb") as file:
                    left = file.read()
                if number < count:
                    assert (status, text, left) == (DAMAGED, b"", changed), (number, status)
                else:
                    assert status == ENDED and self.explained(text, path) == count - 1, (number, status)
                    assert left == b"".join(rows[:count]), "the last record is cut"
        self.finish(path, count)
        return "%d records" % count

    def fall_behind(self):
        """A file with fewer records than a caller has seen, and a copy of a file."""
        path = self.path("behind")
        self.serve_slowly(path, self.lines[:3])
        status, text = self.serve(path, [], after=3)
        assert status == ENDED and READY in text and text.count(b"\n") == 1, status
        status, text = self.serve(path, [], after=4)
        assert (status, text) == (FEWER, b""), status
        shutil.copy(path, self.path("copy"))
        status, text = self.serve(self.path("copy"), [], after=0)
        assert (status, text) == (FOREIGN, b""), status
        assert os.stat(path).st_mode & 0o777 == 0o600, "others may read the file"
        self.finish(path, 5)
        return "status %d, and %d for a copy" % (FEWER, FOREIGN)


def main():
    words = argparse.ArgumentParser(description=__doc__.split("\n")[0])
    words.add_argument("--kills", type=int, default=200)
    words.add_argument("--seed", type=int, default=1)
    words.add_argument("service", nargs=argparse.REMAINDER)
    given = words.parse_args()
    if not given.service:
        words.error("no service")
    given.service[0] = shutil.which(given.service[0]) or given.service[0]
    with tempfile.TemporaryDirectory() as folder:
        trials = Trials(given.service, folder, random.Random(given.seed), 12 * given.kills + 100)
        for name, trial in [
                ("shared records", trials.share_records), ("killed", lambda: trials.kill(given.kills)),
                ("full file system", trials.fill),
                ("failing calls", trials.fail), ("two processes", trials.share), ("changed bytes", trials.change),
                ("fewer records", trials.fall_behind)]:
            print("%s: %s" % (name, trial()), flush=True)


if __name__ == "__main__":
    sys.exit(main())
