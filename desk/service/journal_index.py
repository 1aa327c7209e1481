"""An index of a journal: for each part of some 128 KiB the numbers of its batches, and which planners, alternatives and
records are in it, as a Bloom filter. It lies in FILE.journal.index, has a twentieth of the journal's size, and is made
again from the journal if it is missing or does not fit."""
import os
import re
import struct
import zlib
from typing import Callable, Iterator, List, NamedTuple, Optional, Sequence, Set, Tuple

from service.journal import HEAD, OPENED, PART, WHO, line_feed_before

# Where a part begins and ends, the highest batch so far, a checksum of both ends, and whether it has a line `opened`.
FORM = struct.Struct("<QQQII")
# Few parts that have 2,000 records have by chance all bits of another key.
BITS = 1 << 15
RECORD = FORM.size + BITS // 8
# How many records are read at once.
PORTION = 128
ONE = ord("1")
CHECKED = 512
# A key that stands for all lines that may change any record.
WIDE = b"*"

# Groups of keys of which a part has to have one each, told by their places in a filter.
Groups = Sequence[Sequence[Sequence[int]]]
# Patterns that begin with fixed bytes are found much quicker.
RECORDS = [re.compile(rb'"%s [^ "]+ 0*(\d+) 0*(\d+)' % verb) for verb in (b"put", b"remove")]
AUTHORS = re.compile(WHO)
# Verbs of lines that may change any record of an alternative.
WIDE_VERBS = (b"merge", b"post", b"back", b"new", b"drop")
BATCH = re.compile(rb'\{"batch":(\d+),')
HEADS = re.compile(rb"^" + HEAD.pattern, re.M)
OPENINGS = re.compile(rb"^" + OPENED.pattern, re.M)
# No key is cut in two if this many bytes of the text before are looked at again.
OVERLAP = 256


class Part(NamedTuple):
    """A part of a journal, from one line to another."""

    begin: int
    end: int
    last: int = 0
    has_openings: bool = True


def places(key: bytes) -> Tuple[int, int, int, int]:
    hashed = zlib.crc32(key) * 0x9E3779B97F4A7C15 & (1 << 64) - 1
    return hashed >> 49, hashed >> 34 & BITS - 1, hashed >> 19 & BITS - 1, hashed >> 4 & BITS - 1


def with_bit(bit: int) -> bytes:
    """A table that turns each byte into 1 if it has this bit, and into 0 if not."""
    return bytes(it >> 7 - bit & 1 for it in range(256))


WITH_BIT = [with_bit(it) for it in range(8)]


def that_may_have(text: bytes, wanted: Groups) -> Iterator[int]:
    """Which of the records in a text may have one key of each group: all of them at once, a byte each in a long
    number."""
    count = len(text) // RECORD
    found = int.from_bytes(b"\1" * count, "big")
    for group in wanted:
        of_group = 0
        for key in group:
            of_key = found
            for place in key:
                column = text[FORM.size + (place >> 3) :: RECORD]
                of_key &= int.from_bytes(column.translate(WITH_BIT[place & 7]), "big")
            of_group |= of_key
        found &= of_group
    ones = found.to_bytes(count, "big")
    return (it for it in range(count) if ones[it])


def record_key(table: int, number: int) -> bytes:
    return b"r%d:%d" % (table, number)


def pieces(file: int, begin: int, end: int, overlap: int = 0) -> Iterator[bytes]:
    """The text of a part, in pieces of a bounded size. Each begins with the last bytes of the one before."""
    at = begin
    while at < end:
        start = max(begin, at - overlap)
        at = min(end, at + PART)
        yield os.pread(file, at - start, start)


def part_end(file: int, begin: int, end: int) -> int:
    """Where the part that begins here ends: at the end of a line, or at `begin` if there is none yet."""
    if end - begin <= PART:
        return line_feed_before(file, end) + 1 if end > begin else begin
    found = os.pread(file, PART, begin).rfind(b"\n")
    at = begin + PART
    while found < 0 and at < end:
        found = os.pread(file, PART, at).find(b"\n")
        if found >= 0:
            return at + found + 1
        at += PART
    return begin + found + 1 if found >= 0 else begin


def keys_of(text: bytes) -> Set[bytes]:
    """The keys of planners, alternatives and records in a text."""
    keys = {b"r%s:%s" % it for pattern in RECORDS for it in pattern.findall(text)}
    if any(b'"%s ' % verb in text for verb in WIDE_VERBS):
        keys.add(WIDE)
    for uid, who, names in set(AUTHORS.findall(text)):
        keys |= {b"p" + uid, b"p" + who.strip(b'"'), *(b"a" + it.strip(b'"') for it in names.split(b","))}
    return keys


def indexed(file: int, begin: int, end: int, before: int) -> Tuple[Part, bytes]:
    """A part, and the filter of what it has. `before` is the highest number before it."""
    digits = bytearray(b"0" * BITS)
    numbers = [before]
    has_openings = False
    for text in pieces(file, begin, end, OVERLAP):
        batch = BATCH.match(text, text.rfind(b'{"batch":')) if b'{"batch":' in text else None
        numbers += [int(batch[1])] if batch else []
        has_openings = has_openings or b'{"opened":' in text
        for key in keys_of(text):
            one, two, three, four = places(key)
            digits[one] = digits[two] = digits[three] = digits[four] = ONE
    return Part(begin, end, max(numbers), has_openings), int(digits, 2).to_bytes(BITS // 8, "big")


class Index:
    """The parts of a journal that are indexed, and those behind them. Only the service writes to it."""

    def __init__(self, journal: int, path: str, writes: bool):
        self.journal, self.count, self.end = journal, 0, 0
        try:
            self.file = os.open(path, os.O_CLOEXEC | (os.O_RDWR | os.O_CREAT if writes else os.O_RDONLY), 0o600)
        except FileNotFoundError:
            self.file = None
            return
        # A record is durable before the next one is written: a crash of the machine may leave other bytes in the last
        # one, and another journal may have its name now.
        self.count = max(0, os.fstat(self.file).st_size // RECORD - 1)
        while self.count and not self._fits(self.count - 1):
            self.count -= 1
        self.count = self.count if self.count and self._fits(0) else 0
        self.end = self._part(self.count - 1).end if self.count else 0
        if writes:
            os.ftruncate(self.file, self.count * RECORD)

    def close(self) -> None:
        if self.file is not None:
            os.close(self.file)

    def _fits(self, number: int) -> bool:
        text = os.pread(self.file, FORM.size, number * RECORD)
        begin, end, _, check, _ = FORM.unpack(text)
        before = number and FORM.unpack(os.pread(self.file, FORM.size, (number - 1) * RECORD))[1]
        return begin == before and end > begin and self._checksum(begin, end) == check

    def _checksum(self, begin: int, end: int) -> int:
        first = os.pread(self.journal, CHECKED, begin)
        return zlib.crc32(first + os.pread(self.journal, CHECKED, max(begin, end - CHECKED)))

    def _part(self, number: int) -> Part:
        return part_of(os.pread(self.file, FORM.size, number * RECORD))

    def add(self, size: int) -> bool:
        """Indexes the next part of a journal of this size. Returns False if there is none yet."""
        end = part_end(self.journal, self.end, size) if size - self.end >= PART else self.end
        if end == self.end:
            return False
        part, bits = indexed(self.journal, self.end, end, self._part(self.count - 1).last if self.count else 0)
        head = FORM.pack(part.begin, end, part.last, self._checksum(part.begin, end), part.has_openings)
        try:
            os.pwrite(self.file, head + bits, self.count * RECORD)
            os.fdatasync(self.file)
        except OSError:
            return False
        self.count, self.end = self.count + 1, end
        return True

    def parts(
        self, size: int, begin: int = 0, is_backwards: bool = False, wanted: Groups = ()
    ) -> Iterator[Optional[Part]]:
        """The parts of a journal of this size that end behind `begin` and may have what is wanted, in their order or
        the other one; and None now and then, as there may be none for long."""
        # Whoever takes them may have others indexed in between.
        count, indexed_end = self.count, self.end
        numbers = range(self._before(lambda it: it.end <= begin), count, PORTION)
        if is_backwards:
            yield from reversed(list(self._rest(indexed_end, size, begin)))
            for at in reversed(numbers):
                yield from reversed(self._portion(at, count, wanted))
                yield None
        else:
            for at in numbers:
                yield from self._portion(at, count, wanted)
                yield None
            yield from self._rest(indexed_end, size, begin)

    def _portion(self, at: int, count: int, wanted: Groups) -> List[Part]:
        text = os.pread(self.file, min(PORTION, count - at) * RECORD, at * RECORD)
        return [part_of(text[it * RECORD : it * RECORD + FORM.size]) for it in that_may_have(text, wanted)]

    def _rest(self, at: int, size: int, begin: int) -> Iterator[Part]:
        """The parts from a position on, that of the first one that is not indexed yet."""
        while (end := part_end(self.journal, at, size)) > at:
            if end > begin:
                yield Part(at, end)
            at = end

    def after(self, number: int) -> int:
        """A position in the journal before which all batches have numbers up to this one."""
        count = self._before(lambda it: it.last <= number)
        return self._part(count - 1).end if count else 0

    def _before(self, is_before: Callable[[Part], bool]) -> int:
        """How many parts come before the first one that is not before something."""
        low, high = 0, self.count
        while low < high:
            middle = (low + high) // 2
            if is_before(self._part(middle)):
                low = middle + 1
            else:
                high = middle
        return low


def part_of(head: bytes) -> Part:
    begin, end, last, _, has_openings = FORM.unpack(head)
    return Part(begin, end, last, bool(has_openings))
