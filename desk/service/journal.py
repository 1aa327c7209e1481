"""The journal of a store: who changed what, and when, in lines of JSON.

The line of a batch is written when its commit is known, and synced a while later: until then the store has it, too, as
a record. If its record finds no room there, its line is synced before the commit. `done` follows the commit. `opened`
is written whenever the program has been started. It names the last batch in the store: of the batches above it, those
with higher numbers are not in the store. So journal and store agree wherever a crash came."""
import errno
import os
import re
import resource
import time
from json.encoder import encode_basestring_ascii as quoted
from typing import Callable, Dict, Iterable, Iterator, NamedTuple, Optional, Tuple

from service import pacing
from service.batch import Batch
from service.disk_room import UNABLE, held
from service.durable import sync_folder
from service.lines import printable
from service.locking import lock_on_volume
from service.renewals import author

# Who did it in which alternatives, in the line of a batch, and that line up to its own lines.
WHO = rb'"uid":(?P<uid>\d+),"who":(?P<who>"[^"\\]*(?:\\.[^"\\]*)*"),"alternatives":\[(?P<alternatives>[^\]]*)\],'
HEAD = re.compile(
    rb'\{"batch":(?P<number>\d+),"time":"(?P<time>[^"]*)",' + WHO + rb'"records":(?P<records>\d+),"lines":\['
)
BEGIN = re.compile(rb'\{"batch":(\d+),"time":"')
DONE = re.compile(rb'\{"done":(\d+)\}')
OPENED = re.compile(rb'\{"opened":"[^"]*","last":(\d+),"next":(\d+)\}')
# The end of the line of a batch.
TAIL = "]}\n"
BEFORE_LINES = ',"lines":['
PART = 128 << 10
# How many lines of a batch are spelled at once: one may have a megabyte.
PORTION = 16
# How much room the file holds ahead of need.
AHEAD = 1 << 20
# The beginnings of lines that tell a batch or a start.
MARKS = re.compile(rb'^\{"(?:batch":(\d+),"time|opened)":"', re.M)
LINE_FEED = re.compile(rb"\n")


class Broken(Exception):
    """The journal could not be synced, so it is unknown which part of it is durable."""


def now() -> str:
    at = time.time()
    return time.strftime("%Y-%m-%dT%H:%M:%S", time.gmtime(at)) + f".{int(at * 1000) % 1000:03d}Z"


def settle(file: int) -> None:
    """Has the next reader of a file see what the device has. After a sync that failed, Linux takes the pages for
    written, and shows them until they are dropped from its cache."""
    try:
        os.fsync(file)
    finally:
        os.posix_fadvise(file, 0, 0, os.POSIX_FADV_DONTNEED)


class Journal:
    """The file, open for writing. A text that could be written only in part is removed again."""

    def __init__(self, path: str, say: Callable[[object], None]):
        self.path, self.say = path, say
        self.file = os.open(path, os.O_RDWR | os.O_CREAT | os.O_APPEND | os.O_CLOEXEC, 0o600)
        lock_on_volume(self.file)
        sync_folder(path)
        settle(self.file)
        self.end = os.fstat(self.file).st_size
        # What comes before the next text, since there was no space for it. Up to where the file holds room, and how
        # large it may be.
        self.unwritten, self.held = b"", 0
        self.most = resource.getrlimit(resource.RLIMIT_FSIZE)[0]
        self._cut(whole_end(self.file, self.end))
        # The number of the next batch.
        self.next = 1 + last_number(self.file, self.end)
        # How long the last sync took.
        self.sync_seconds = 0.0

    def _cut(self, whole: int) -> None:
        """Cuts off what is behind the last whole line. It goes into a file of its own."""
        if whole == self.end:
            return
        count, cut = self.end - whole, f"{self.path}.cut"
        with open(cut, "ab") as file:
            for at in range(whole, self.end, PART):
                file.write(os.pread(self.file, min(PART, self.end - at), at))
            file.flush()
            os.fsync(file.fileno())
        sync_folder(cut)
        self.say(f"{self.path}: its last {count} bytes are not whole lines, and are cut off. They are in {cut}")
        os.ftruncate(self.file, whole)
        self.end = whole

    def mend(self, number: int, recent: Iterable[Tuple[int, bytes]]) -> None:
        """Has the file tell of the last batches in the store, by their lines. It surely has that of this number, and
        what is behind that may be torn anywhere."""
        missing, whole = dict(recent), tail_begin(self.file, self.end, number)
        last = max(missing, default=0)
        for end in line_ends(self.file, whole, self.end):
            if not is_line(self.file, whole, end) or not self._is_of(missing, whole, end):
                break
            whole = end
        self._cut(whole)
        self.next = 1 + last_number(self.file, self.end)
        lines = [line for at, line in sorted(missing.items()) if at >= self.next]
        if lines:
            self.next = last + 1
            self.say(f"{self.path}: its last {len(lines)} batches come from the store")
            self.note(b"\n".join([*lines, b'{"done":%d}\n' % last]))
            self.sync()

    def _is_of(self, missing: Dict[int, bytes], begin: int, end: int) -> bool:
        """Whether a line of the file is none of a batch that is missing, or that batch's, which is missing no more."""
        text = os.pread(self.file, min(end - begin, PART), begin)
        number = BEGIN.match(text)
        line = missing.get(int(number[1])) if number else None
        if line is None:
            return True
        own, other = HEAD.match(text), HEAD.match(line)
        # How many records a merge has changed is not known in the store.
        is_same = own is not None and (
            text[: own.start("records")] == line[: other.start("records")]
            and text[own.end("records") :] == line[other.end("records") :] + b"\n"
        )
        if is_same:
            del missing[int(number[1])]
        return is_same

    def opened(self, kept: int) -> None:
        """Notes that of the batches so far the store holds those up to this number."""
        self.next = max(self.next, kept + 1)
        fault = self.note(b'{"opened":"%s","last":%d,"next":%d}\n' % (now().encode(), kept, self.next))
        if fault is not None:
            self.say(f"{self.path}: {fault}: until there is space, it does not tell that altctl was started")
        self.sync()

    def write(self, parts: Iterable[bytes], last: int) -> None:
        """Makes the lines of batches durable; `last` is their highest number. Raises OSError if there is no space for
        them, and nothing of them stays then."""
        self._append(parts)
        self.sync()
        self.next = last + 1

    def note(self, text: bytes) -> Optional[OSError]:
        """Writes what the store has already. If there is no space for it, it comes before the next text, and this is
        why."""
        self.unwritten += text
        try:
            self._append(())
        except OSError as fault:
            return fault
        return None

    def make_room(self, count: int) -> None:
        """Writes what could not be written, and has the file hold room for so many bytes, where the file system can: so
        that what the store has is written. Raises OSError if there is none."""
        if self.unwritten:
            self._append(())
        fault = errno.EFBIG if 0 <= self.most < self.end + count else 0
        for size in (count + AHEAD, count) if not fault else ():
            if self.end + count > self.held:
                fault = held(self.file, self.end, size)
                self.held = self.held if fault else self.end + size
        if fault not in UNABLE | {0, errno.EINTR}:
            raise OSError(fault, os.strerror(fault))

    def _append(self, parts: Iterable[bytes]) -> None:
        """Writes a text behind all that could not be written, or nothing of it."""
        begun, text = self.end, bytearray(self.unwritten)
        try:
            for part in parts:
                text += part
                if len(text) >= PART:
                    self._write(text)
            self._write(text)
        except OSError:
            self.end, self.held = begun, 0
            os.ftruncate(self.file, begun)
            raise
        self.unwritten = b""

    def _write(self, text: bytearray) -> None:
        while text:
            written = os.write(self.file, text)
            del text[:written]
            self.end += written

    def sync(self) -> None:
        """Makes durable what was written. Raises Broken if that fails."""
        begun = time.monotonic()
        try:
            os.fdatasync(self.file)
        except OSError as fault:
            raise Broken(f"the journal could not be synced: {fault}") from None
        self.sync_seconds = time.monotonic() - begun

    def is_in_place(self) -> bool:
        """Whether the file still has its name."""
        try:
            return os.path.samestat(os.stat(self.path), os.fstat(self.file))
        except OSError:
            return False

    def go_on_in(self, file: int) -> None:
        """Goes on in another file, which has taken the journal's name."""
        lock_on_volume(file)
        pacing.let_go(self.file)
        self.file, self.end, self.held = file, os.fstat(file).st_size, 0

    def close(self) -> None:
        os.close(self.file)


class Entry(NamedTuple):
    """The line of a batch, but for its number and how many records it changed."""

    head: str
    tail: str

    def line(self, number: int, records: int) -> bytes:
        return f'{{"batch":{number}{self.head}{records}{self.tail}'.encode("ascii")


def entry_of(at: str, batch: Batch, touched: Iterable[str]) -> Entry:
    """The entry of a batch, with its alternatives."""
    lines = ",".join([quoted(printable(it)) for it in batch.lines])
    return Entry(head_of(at, batch, touched), f'{BEFORE_LINES}{lines}{TAIL}')


def head_of(at: str, batch: Batch, touched: Iterable[str]) -> str:
    who, names = quoted(author(batch)), ",".join(map(quoted, sorted(touched)))
    return f',"time":"{at}","uid":{batch.person.uid},"who":{who},"alternatives":[{names}],"records":'


def parts_of(number: int, head: str, records: int, batch: Batch) -> Iterator[bytes]:
    """The line of a batch of any size, in parts."""
    text = f'{{"batch":{number}{head}{records}{BEFORE_LINES}'
    for place in range(0, len(batch.lines), PORTION):
        lines = [quoted(printable(it)) for it in batch.lines[place : place + PORTION]]
        yield (text + ("," if place else "") + ",".join(lines)).encode("ascii")
        text = ""
    yield TAIL.encode("ascii")


# --- its end --------------------------------------------------------------------------------------


def line_feed_before(file: int, end: int) -> int:
    """The position of the last line feed before a position, or -1."""
    while end > 0:
        start = max(0, end - PART)
        found = os.pread(file, end - start, start).rfind(b"\n")
        if found >= 0:
            return start + found
        end = start
    return -1


def whole_end(file: int, end: int) -> int:
    """The position behind the last line that a journal can have."""
    end = line_feed_before(file, end) + 1
    while end:
        begin = line_feed_before(file, end - 1) + 1
        if is_line(file, begin, end):
            return end
        end = begin
    return 0


def tail_begin(file: int, end: int, number: int) -> int:
    """Where the last whole line begins that tells a batch up to this number, or a start: all before it is durable."""
    for at in range((max(end, 1) - 1) // PART * PART, -1, -PART):
        text = os.pread(file, min(PART + len('{"batch":,"time":"') + 20, end - at), at)
        for it in reversed([*MARKS.finditer(text)]):
            begin = at + it.start()
            if it.start() < PART and int(it[1] or 0) <= number:
                if is_line(file, begin, next(line_ends(file, begin, end), begin)):
                    return begin
    return 0


def line_ends(file: int, begin: int, end: int) -> Iterator[int]:
    """The positions behind the line feeds in a part of a file."""
    for at in range(begin, end, PART):
        text = os.pread(file, min(PART, end - at), at)
        yield from (at + it.end() for it in LINE_FEED.finditer(text))


def is_line(file: int, begin: int, end: int) -> bool:
    """Whether these bytes are a line of a journal."""
    text = os.pread(file, min(end - begin, PART), begin)
    if DONE.match(text) or OPENED.match(text) or text.startswith(b'{"dropped":'):
        return text.endswith(b"}\n")
    if BEGIN.match(text) is None or os.pread(file, len(TAIL), end - len(TAIL)) != TAIL.encode("ascii"):
        return False
    # A crash may leave other bytes where a line was not synced.
    return all(b"\0" not in os.pread(file, min(PART, end - at), at) for at in range(begin, end, PART))


def last_number(file: int, end: int) -> int:
    """The highest number that a journal has used; its last line tells it."""
    begin = line_feed_before(file, end - 1) + 1
    text = os.pread(file, min(end - begin, PART), begin)
    opened, done, head = OPENED.match(text), DONE.match(text), BEGIN.match(text)
    return int(opened[2]) - 1 if opened else int((done or head)[1]) if done or head else 0
