"""The program as a process: lines of many planners go in, and answers come out."""
import os
import re
import select
import subprocess

from service import limits

# Bytes that are written at once, and read.
PORTION, READ = 64 << 10, 256 << 10
# The end of an answer of rows, including the line feed before its last line.
LAST_ROW = re.compile(rb"\n(end|error) [^\n]*\n\Z")
LONGEST_LAST = 256
# The number under which the service asks, what stands before its answers, and the numbers of the batches of a group.
ASKS, LABEL, SLOTS = 1, b"@1\n", range(2, limits.GROUP + 3)
# The longest line that the program takes.
LONGEST = 1_048_576


class Ended(Exception):
    """The program ended before it had answered all lines. `text` is what came, and `is_sent` tells whether it may have
    read all of them."""

    def __init__(self, text=b"", is_sent=True):
        super().__init__("the program ended")
        self.text, self.is_sent = text, is_sent


class Program:
    """A process of `altctl serve --planners FILE`. It inherits the lock, so the lock lasts until both it and the
    service have ended."""

    def __init__(self, words, lock):
        how = {"stdin": subprocess.PIPE, "stdout": subprocess.PIPE, "pass_fds": [lock], "bufsize": 0}
        # SIGXFSZ stays ignored in it, so that exceeding a limit on file sizes fails like any other write. Signals to
        # the group of the service do not reach it, so it ends only after the batch at work.
        self.process = subprocess.Popen(words, restore_signals=False, start_new_session=True, **how)
        self.into, self.out = self.process.stdin.fileno(), self.process.stdout.fileno()
        os.set_blocking(self.into, False)
        # What came of the answers at work, how many lines are missing, and whether all that is asked was written. The
        # program is gone if nothing more can be.
        self.came, self.missing, self.is_sent, self.is_gone = bytearray(), 0, False, False
        self.ready = select.poll()
        self.ready.register(self.into, select.POLLOUT)
        self.ready.register(self.out, select.POLLIN)

    def join(self):
        """Has all numbers join. The comment before them has the program hold memory for the longest line: if there were
        none for a line later, the rest of its batch would be committed without it. Returns whether there is memory."""
        lines = b"".join([b"join %d\n" % it for it in (ASKS, *SLOTS)])
        text = self.exchange([b"#".ljust(LONGEST, b"x") + b"\n", lines], 2 * (1 + len(SLOTS)))
        return b"error" not in text

    def end(self, kills=False):
        """Ends it, and returns its status. Uncommitted changes are lost."""
        if kills:
            self.process.kill()
        self.process.stdin.close()
        self.process.stdout.close()
        return self.process.wait()

    def exchange(self, parts, due):
        """Writes texts, and reads so many lines of answers, of which some may come before all is written."""
        self.came, self.missing, self.is_sent, text = bytearray(), due, False, bytearray()
        for part in parts:
            text += part
            if len(text) >= PORTION:
                self._write(text)
                text = bytearray()
        self._write(text)
        self.is_sent = not self.is_gone
        while self.missing > 0:
            self._read()
        return bytes(self.came)

    def ask(self, lines):
        """The answers to lines that are answered with one line each. A change is committed before it is answered."""
        return self.exchange(said(ASKS, lines), 2 * len(lines)).split(b"\n")[1::2]

    def ask_rows(self, line, take):
        """Passes an answer of rows on as it comes. Its last line begins with `end` or `error`."""
        self.came, self.missing, skipped = bytearray(), 1, len(LABEL)
        self._write(b"".join(said(ASKS, [line])))
        tail = b""
        while not LAST_ROW.search(tail):
            came = os.read(self.out, READ)
            if not came:
                raise Ended
            tail = (tail + came)[-LONGEST_LAST:]
            came, skipped = came[skipped:], max(0, skipped - len(came))
            take(came)

    def _write(self, text):
        text = memoryview(text)
        while text:
            try:
                text = text[os.write(self.into, text) :]
            except BlockingIOError:
                if any(it == self.out for it, _ in self.ready.poll()):
                    self._read()
            except BrokenPipeError:
                self.is_gone = True  # The answers will be missing.
                return

    def _read(self):
        came = os.read(self.out, READ)
        if not came:
            raise Ended(bytes(self.came), self.is_sent)
        self.missing -= came.count(b"\n")
        self.came += came


def said(number, lines, portion=1024):
    """The lines of the stream that say these lines of a planner, in parts. Both take a CR at their end away."""
    begin = b"line %d " % number
    for at in range(0, len(lines), portion):
        text = (b"\n" + begin).join(lines[at : at + portion])
        if b"\r" in text:
            text = (b"\n" + begin).join([it + b"\r" * it.endswith(b"\r") for it in lines[at : at + portion]])
        yield begin + text + b"\n"
