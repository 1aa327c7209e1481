"""A connected planner: the lines that arrive, the batch that is held, and the requests that come of them."""
import selectors
import socket
import time
from collections import Counter
from typing import Callable, List, Optional, Union

from service import limits
from service.batch import Batch
from service.limits import BAD_LINE, LONG_LINE, NO_SUCH_LINE, refusal
from service.lines import BY_ALTERNATIVE, OWN_WORDS, PERSON, RIGHTS, ROWS, SINGLE
from service.lines import alternative_of, line_of, printable, seen_of, why_bad, words_of
from service.rules import acted_for
from service.unread import Unread

# With that much text or less nothing of it counts among what waits.
MUCH = limits.RECEIVED_BYTES // 2
# How many decisions on rights are remembered for a planner.
MOST_ALLOWED = 1000
# For how many batches a planner of whom one was refused is doubtful.
DOUBT = 16
# How much of a line is told.
TOLD = 100
# The lines that end a batch.
ENDS = {b"commit", b"abort", b"rollback"}
# How many lines are looked at for a request at once: each costs time that others wait for.
LOOK, LOOK_LONG = 16, 256
# The turns in which requests are carried out: those whose answer is known already, or one line that the program gives
# at once; batches that may share a commit; and what takes longer.
SHORT, SMALL, LONG = range(3)


class Query:
    def __init__(self, line: bytes, has_rows: bool):
        self.line, self.has_rows = line, has_rows


class Word:
    """A line that the service itself answers, to the person whose line it was."""

    def __init__(self, words: List[bytes], person):
        self.words, self.person = words, person


class Forgotten:
    """The lines of a batch that was forgotten, and the line that ended it, if there was one."""

    def __init__(self, count: int, answer: bytes, last: bytes):
        self.count, self.answer, self.last = count, answer, last

    def text(self) -> bytes:
        return (self.answer + b"\n") * self.count + self.last


# A planner waits for one of these, or for an answer that is known already, with its line feed.
Request = Union[bytes, Batch, Forgotten, Query, Word]
# Whether a request may be carried out now.
Admits = Callable[[Request], bool]


def turn_of(request: Request) -> int:
    """The turn in which a request is carried out."""
    if isinstance(request, Batch):
        return SHORT if not request.lines else SMALL if request.is_small() else LONG
    if isinstance(request, Query):
        return LONG if request.has_rows else SHORT
    return LONG if isinstance(request, Word) and request.words != [b"batches"] else SHORT


def bytes_of(request: Optional[Request]) -> int:
    """How many bytes the lines of a request are that count only while it waits."""
    if isinstance(request, Batch):
        return 0 if request.is_explicit else request.bytes
    if isinstance(request, Word):
        return sum(map(len, request.words))
    return len(request if isinstance(request, bytes) else getattr(request, "line", b""))


class Planner:
    """Its lines stay as they came until they are needed: only the lines of a batch that is held are taken at once."""

    def __init__(self, server, connection: socket.socket, person):
        # Who is at the other end, and for whom.
        self.server, self.connection, self.user, self.person = server, connection, person, person
        # What has arrived, where the first line in it begins, and how far it was searched for the end of a line.
        self.text, self.at, self.sought = bytearray(), 0, 0
        # The refusal that a line gets whose bytes are not kept.
        self.skips: Optional[bytes] = None
        # No more lines come; all lines are taken; nobody reads the answers; all is over.
        self.has_ended, self.has_finished, self.is_deaf, self.is_closed = False, False, False, False
        # The request that waits, and its turn.
        self.first: Optional[Request] = None
        self.turn: Optional[int] = None
        self.batch: Optional[Batch] = None
        self.allowed, self.allowed_by = {}, None
        self.unread, self.read_last = Unread(server.users, person.uid), 0.0
        self.job, self.watched, self.counted, self.doubt = None, 0, 0, 0
        # How much work it had, by those who give turns.
        self.had = Counter()

    def handle(self, events: int) -> None:
        if not events & selectors.EVENT_READ:
            self.send()
        elif self.first is None and self.is_exhausted():
            self.receive()
            # What is watched is set at the end of the round: most have their answer by then.
            self.server.touched[self] = None
        else:
            # More lines have come, or the end. They wait there.
            self.server.watch(self, self.watched & ~selectors.EVENT_READ)

    # --- lines that arrive ------------------------------------------------------------------------

    def receive(self) -> None:
        try:
            came = self.connection.recv(limits.RECEIVED_BYTES)
        except BlockingIOError:
            return
        except OSError:
            came = b""  # The other end was closed with answers unread. The lines before that count.
        self.has_ended = not came
        del self.text[: self.at]
        self.sought, self.at = self.sought - self.at, 0
        if self.skips is not None:
            end = came.find(b"\n")
            came = came[end:] if end >= 0 else b""
        self.text += came
        is_much = len(self.text) > MUCH
        self.look()
        if self.first is None and self.skips is None and self.is_exhausted():
            self._limit_line()
        if is_much or self.counted:
            self._count_text()

    def _limit_line(self) -> None:
        """Keeps nothing of an unfinished line that is too long, or too much beside all that its user has waiting."""
        size = len(self.text) - self.at
        is_long, users = size > limits.LINE_BYTES, self.server.users
        if is_long or size > limits.RECEIVED_BYTES and not users.may_hold(self.person.uid, size - self.counted):
            self.skips = LONG_LINE if is_long else refusal(94)
            self.text, self.at, self.sought = bytearray(), 0, 0

    def _count_text(self) -> None:
        """What waits here counts if it is more than was received at once."""
        size = len(self.text) - self.at + bytes_of(self.first)
        size = size if size > limits.RECEIVED_BYTES else 0
        self.server.users.count_held(self.person.uid, size - self.counted)
        self.counted = size

    def is_exhausted(self) -> bool:
        """Whether no whole line is left to look at."""
        return self.sought == len(self.text) and self.has_finished == self.has_ended

    def look(self, count: int = LOOK) -> None:
        """Looks at the next lines, up to one that makes a request. If there are many, the server has the rest looked at
        later."""
        while self.first is None and not self.is_closed:
            end = self.text.find(b"\n", self.sought)
            if end < 0:
                self.sought = len(self.text)
                if self.has_ended and not self.has_finished:
                    self._finish()
                return
            if not count:
                self.server.unseen[self] = None
                return
            held = self._hold_plain_lines(count) if self.batch is not None and self.skips is None else 0
            if held:
                count -= held
                continue
            count -= 1
            line = bytes(self.text[self.at : end])
            self.at = self.sought = end + 1
            if self.skips is not None:
                skips, self.skips = self.skips, None
                self._refuse(skips)
            elif len(line) > limits.LINE_BYTES:
                self._refuse(LONG_LINE)
            else:
                self._take(line)

    def _finish(self) -> None:
        """The input has ended. An unfinished line is not carried out, as it may be the beginning of a longer one."""
        self.has_finished = True
        if len(self.text) > self.at or self.skips is not None:
            self._refuse(refusal(96))
        self.text, self.at, self.sought, self.skips = bytearray(), 0, 0, None
        if self.batch is not None:
            self._forget(refusal(92))

    def _take(self, line: bytes) -> None:
        words = words_of(line)
        if not words:
            return
        verb = words[0]
        if self.batch is not None:
            self._hold(verb, words)
        elif self.is_deaf and verb not in RIGHTS and verb != b"begin":
            return  # It would only be answered.
        elif verb in RIGHTS:
            refused = self._refusal_of(words)
            if refused is None:
                self._add(Batch(self.person, [line_of(words)], False, self.server.rules, self))
            else:
                self._tell(refused, line)
                self._add(refused + b"\n")
        elif verb in SINGLE or verb in ROWS:
            self._add(Query(line_of(words), verb in ROWS))
        elif verb == b"begin":
            self._begin(words[1:])
        elif verb in ENDS and len(words) == 1:
            # Each earlier line was a batch of its own, so it is committed, and nothing can be taken back.
            self._add(b"ok\n")
        elif verb == b"for" and len(words) == 2 and PERSON.fullmatch(words[1]):
            answer = self._act_for(words[1].decode())
            self._tell(answer, line)
            self._add(answer + b"\n")
        elif verb in OWN_WORDS:
            self._add(Word(words, self.person))
        else:
            self._add(NO_SUCH_LINE + b"\n")

    def _act_for(self, name: str) -> bytes:
        """Takes the lines from now on as another person's, if the user at the other end may act for others. Gives the
        answer."""
        denial = self.server.rules.denial(self.user, "act")
        if denial is not None:
            return refusal(90, *denial)
        self.person, self.allowed = acted_for(self.user, name), {}
        return b"ok"

    def _begin(self, words: List[bytes]) -> None:
        """Begins a batch. What its planner saw is held like its lines."""
        seen = seen_of(words)
        if seen is None:
            self._add(BAD_LINE + b"\n")
            return
        size = sum(len(it) + limits.LINE_COST for it in words)
        self.batch = Batch(self.person, [], True, self.server.rules, self, seen)
        if size and not self._keep(self.batch, size):
            self.batch.refuse(0, refusal(94))
        self._add(b"ok\n")

    def _hold(self, verb: bytes, words: List[bytes]) -> None:
        """A line within a batch."""
        batch, line = self.batch, line_of(words)
        size = len(line) + limits.LINE_COST
        if verb in ENDS and len(words) == 1:
            self._end(verb)
        elif batch.refused is not None:
            self._refuse(batch.refused[1])
        elif verb not in RIGHTS:
            self._refuse(refusal(93) if verb in SINGLE or verb in ROWS or verb in OWN_WORDS else NO_SUCH_LINE)
        elif batch.count >= limits.BATCH_LINES or batch.bytes + len(line) > limits.BATCH_BYTES:
            self._refuse(refusal(94))
        elif not self._keep(batch, size):
            self._refuse(refusal(94))
        else:
            refused = self._refusal_of(words, batch)
            if refused is None:
                batch.hold(line)
            else:
                self._refuse(refused)

    def _hold_plain_lines(self, count: int) -> int:
        """Holds the next lines of a batch, as long as they are as most are: one space between words, and a right that
        is remembered. Returns how many those are: none if all of them together would be too much."""
        batch, held, size = self.batch, [], 0
        if batch.refused is not None or self.allowed_by is not self.server.rules:
            return 0
        # What follows the last line feed is not a whole line.
        for line in bytes(self.text[self.at : self.at + limits.RECEIVED_BYTES]).split(b"\n", count)[:-1]:
            words = line.split(b" ")
            if b"" in words or line.endswith(b"\r") or self.allowed.get(tuple(words[:2]), b"") is not None:
                break
            held.append(line)
            size += len(line)
        fits = batch.count + len(held) <= limits.BATCH_LINES and batch.bytes + size <= limits.BATCH_BYTES
        if not held or not fits or not self._keep(batch, size + limits.LINE_COST * len(held)):
            return 0
        batch.hold_all(held, size)
        self.at = self.sought = self.at + size + len(held)
        return len(held)

    def _end(self, verb: bytes) -> None:
        """Ends the batch that is held."""
        if verb == b"commit":
            request, self.batch = self.batch, None
            self._add(request)
        else:
            self._forget(refusal(92), b"ok\n")

    def _refuse(self, answer: bytes) -> None:
        """Refuses a line, and the batch that it belongs to."""
        batch = self.batch
        if batch is None:
            self._add(answer + b"\n")
            return
        batch.refuse(batch.count, answer)
        self._release(batch)
        batch.count += 1
        if batch.count > 2 * limits.BATCH_LINES:
            self.close()

    def _keep(self, batch: Batch, size: int) -> bool:
        """What is added to it counts among what is held, unless that is too much."""
        fits = self.server.users.hold(self.person.uid, size)
        batch.held += size if fits else 0
        return fits

    def _release(self, batch: Batch) -> None:
        """Its lines no longer count among those that are held."""
        self.server.users.count_held(self.person.uid, -batch.held)
        batch.held = 0

    def _forget(self, answer: bytes, last: bytes = b"") -> None:
        """Forgets the batch, and answers each of its lines."""
        batch, self.batch = self.batch, None
        self._release(batch)
        self._add(Forgotten(batch.count, answer, last))

    def forget_if_late(self, now: float) -> None:
        """Refuses a batch that has been held too long."""
        if self.batch is not None and now - self.batch.begun > limits.HELD_SECONDS:
            self.batch.refuse(self.batch.count, refusal(95))
            self._release(self.batch)

    def _refusal_of(self, words: List[bytes], batch: Optional[Batch] = None) -> Optional[bytes]:
        """Why the service refuses a change: its form, or a rule. None if the program is to decide."""
        if self.allowed_by is not self.server.rules:
            self.allowed, self.allowed_by = {}, self.server.rules
        key = tuple(words[:2])
        if key in self.allowed:
            return self.allowed[key]
        if alternative_of(words) == b"":
            return BAD_LINE + b" " + why_bad(words)
        parents = self.server.batches.store.entries.parents if batch is None else {}
        refused = self.server.rules.refusal_of(self.person, words, parents)
        # Of other lines it depends on parents, which change, or on more words.
        if words[0] in BY_ALTERNATIVE:
            if len(self.allowed) >= MOST_ALLOWED:
                self.allowed.clear()
            self.allowed[key] = refused
        return refused

    def _add(self, request: Request) -> None:
        self.first, self.turn = request, turn_of(request)
        self.server.waiting[self] = None

    # --- requests that are carried out ------------------------------------------------------------

    def is_ready(self, admits: Optional[Admits] = None) -> bool:
        """Whether the next line can be carried out, and is admitted. A planner who has many answers to read has to read
        them first."""
        if self.first is None or self.job is not None or self.unread.file is not None:
            return False
        return admits is None or admits(self.first)

    def next_request(self) -> Request:
        """Takes the first request, and looks for the next one."""
        request, self.first, self.turn = self.first, None, None
        if isinstance(request, Batch):
            request.is_doubtful = self.doubt > 0
            if request.held:
                self._release(request)
        if not self.is_exhausted():
            self.look()
        if self.counted:
            self._count_text()
        return request

    def settled(self, batch: Batch) -> None:
        """A batch of this planner was carried out or refused."""
        self.doubt = DOUBT if batch.has_disturbed else max(0, self.doubt - 1)
        if batch.refused is not None:
            self._tell(batch.refused[1], b"line %d of a batch" % (batch.refused[0] + 1))
        self.answer(batch.text())

    def _tell(self, refused: Optional[bytes], line: bytes) -> None:
        """Tells the operator of a line that a right was missing for."""
        if refused is not None and refused.startswith(b"error 90 "):
            who, what = f"{self.person.name}, uid {self.person.uid}", printable(line[:TOLD])
            self.server.batches.teller.tell("denied", f"{who}: {what}: {refused[9:].decode()}")

    # --- answers ----------------------------------------------------------------------------------

    def answer(self, text: bytes) -> None:
        self.server.touched[self] = None
        if self.is_closed or self.is_deaf:
            return
        if not self.unread:
            self.read_last = time.monotonic()
        try:
            self.unread.add(text)
        except OSError:
            # Part of an answer would be worse than none.
            self.close()

    def send(self) -> None:
        """Sends waiting answers, as far as the other end takes them."""
        if self.unread and not self.is_closed:
            try:
                if self.unread.send(self.connection):
                    self.read_last = time.monotonic()
            except OSError:
                # Nobody reads any more. What was sent before is carried out all the same.
                self.is_deaf = True
                self.unread.clear()
        self.watch()

    def watch(self) -> None:
        """Tells the server which events matter now: lines, if none waits or no more have come, and answers, if some
        wait."""
        if self.is_closed or self.watched == selectors.EVENT_READ and not self.unread and not self.has_ended:
            return
        has_line = self.first is not None or not self.is_exhausted()
        if self.has_finished and not has_line and self.job is None and not self.unread:
            self.close()
            return
        reads = self.watched & selectors.EVENT_READ if has_line else selectors.EVENT_READ
        if self.has_ended or self.unread.file is not None:
            reads = 0
        events = reads | (selectors.EVENT_WRITE if self.unread else 0)
        if events != self.watched:
            self.server.watch(self, events)

    def close_if_late(self, now: float) -> None:
        """Closes the connection if the planner does not read."""
        if self.unread and now - self.read_last > limits.UNREAD_SECONDS:
            self.close()

    def close(self) -> None:
        if self.is_closed:
            return
        self.is_closed = True
        self.server.watch(self, 0)
        self.connection.close()
        for it in (self.first, self.batch):
            if isinstance(it, Batch):
                self._release(it)
        self.server.users.count_held(self.person.uid, -self.counted)
        self.first = self.turn = self.batch = None
        self.unread.clear()
        self.server.forget(self)
