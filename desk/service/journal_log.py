"""Reads a journal: which of its batches the store holds, and who changed what. It reads the parts of a journal that the
index names, and a part at a time, so it takes little memory and can stop after each."""
import json
import os
import re
from bisect import bisect_right
from typing import Iterator, List, NamedTuple, Optional, Tuple

from service.journal import DONE, OPENED, PART, line_feed_before
from service.journal_index import HEADS, OPENINGS, OVERLAP, WIDE, WIDE_VERBS, Index, Part
from service.journal_index import part_end, pieces, places, record_key
from service.lines import word
from service.renewals import is_told_in_one_line, summary

STRING = re.compile(rb'"([^"\\]*(?:\\.[^"\\]*)*)"(,|\]\}\n)')
# No head of a batch is longer.
LONGEST_HEAD = 64 << 10
# More than any number of a batch.
MOST = float("inf")
# What stands behind the last part.
LAST = Part(0, 0)


class Filter(NamedTuple):
    """Which lines are wanted: those of a planner, about an alternative, that may change a record, of batches above a
    number; and only the last ones, as many as this. A renewal of the index of places is told in one line, unless all
    are wanted in full, and changes no record."""

    planner: Optional[str] = None
    alternative: Optional[str] = None
    record: Optional[Tuple[int, int]] = None
    last: Optional[int] = None
    after: int = 0
    is_in_full: bool = False

    def keys(self) -> List[List[Tuple[int, ...]]]:
        """The groups of keys of which a part needs one each, by their places in the filter of a part."""
        groups = []
        if self.planner is not None:
            groups.append([b"p" + json.dumps(self.planner)[1:-1].encode("ascii")])
        if self.alternative is not None:
            groups.append([b"a" + self.alternative.encode("utf-8", "surrogateescape")])
        if self.record is not None:
            groups.append([record_key(*self.record), WIDE])
        return [[places(key) for key in group] for group in groups]

    def patterns(self) -> List["re.Pattern[bytes]"]:
        """What a text has, one of each, that has a wanted line."""
        found = []
        if self.planner is not None:
            who = re.escape(json.dumps(self.planner)[1:-1].encode("ascii"))
            found.append(rb'"who":"%s"' % who + (rb'|"uid":%s,' % who if self.planner.isdigit() else b""))
        if self.alternative is not None:
            found.append(rb'"%s"[],]' % re.escape(self.alternative.encode("utf-8", "surrogateescape")))
        return [re.compile(it) for it in found] + ([self.of_line()] if self.record is not None else [])

    def of_line(self) -> "re.Pattern[bytes]":
        """What a line about the record begins with."""
        words = (*self.record, b"|".join(WIDE_VERBS))
        return re.compile(rb'"(?<!\\")(?:(?:put|remove) [^ "]+ 0*%d 0*%d[ "]|(?:%s) )' % words)


def filter_of(words: List[str]) -> Filter:
    """The filter that words like `record=7:1` make. Raises ValueError if they make none."""
    values = {}
    for name, _, value in (it.partition("=") for it in words):
        if name in ("planner", "alternative") and value:
            values[name] = value
        elif name == "record":
            table, number = value.split(":")
            values[name] = whole(table), whole(number)
        elif name in ("last", "after"):
            values[name] = whole(value)
        else:
            raise ValueError(name)
    return Filter(**values)


def whole(text: str) -> int:
    """A number of decimal digits."""
    if not re.fullmatch("[0-9]{1,40}", text):
        raise ValueError(text)
    return int(text)


class Head(NamedTuple):
    """What the line of a batch says before its lines, and where these begin."""

    number: int
    time: bytes
    who: bytes
    uid: bytes
    alternatives: List[bytes]
    records: int
    at: int


class Log:
    """A journal that is read. `kept` is the last batch in the store, if the caller knows it better than the journal."""

    def __init__(self, path: str, writes: bool = False):
        self.file = os.open(path, os.O_RDONLY | os.O_CLOEXEC)
        self.index = Index(self.file, f"{path}.index", writes)
        # The lines `opened` in the parts that are indexed, as far as they have been looked at.
        self.openings: List[Tuple[int, int]] = []
        self.looked = 0
        # The index could not be written, or the end of the journal is no whole line.
        self.is_stuck = False

    def close(self) -> None:
        self.index.close()
        os.close(self.file)

    def size(self) -> int:
        return os.fstat(self.file).st_size

    def has_more(self) -> bool:
        """Whether another part can be indexed."""
        return not self.is_stuck and self.size() - self.index.end >= PART

    def add(self) -> None:
        """Indexes another part, if there is one."""
        if self.has_more():
            self.is_stuck = not self.index.add(self.size())

    # --- which batches the store holds ------------------------------------------------------------

    def kept(self, size: int) -> int:
        """The last batch in the store, as the end of the journal tells it."""
        end = line_feed_before(self.file, size) + 1
        while end:
            begin = line_feed_before(self.file, end - 1) + 1
            text = os.pread(self.file, min(end - begin, OVERLAP), begin)
            found = DONE.match(text) or OPENED.match(text)
            if found:
                return int(found[1])
            end = begin
        return 0

    def ranges(self, size: int, kept: int) -> List[Tuple[int, int]]:
        """The ranges of numbers of the batches that the store holds. Each opening begins a range of numbers, and tells
        which batch came before the first of them: so it goes back from the last one, from range to range."""
        openings = [*self._indexed_openings(), *self._openings_in(self.index.end, size)]
        found = []
        for last, first in reversed([(0, 0), *openings]):
            if first > kept:
                continue
            if found and found[-1][0] == kept + 1:
                found[-1] = first, found[-1][1]
            else:
                found.append((first, kept))
            kept = last
        return found[::-1]

    def _indexed_openings(self) -> List[Tuple[int, int]]:
        for part in self.index.parts(self.index.end, self.looked) if self.looked < self.index.end else ():
            if part is not None:
                self.looked = part.end
                self.openings += self._openings_in(part.begin, part.end) if part.has_openings else ()
        return self.openings

    def _openings_in(self, begin: int, end: int) -> Iterator[Tuple[int, int]]:
        while (last := part_end(self.file, begin, end)) > begin:
            for text in pieces(self.file, begin, last):
                yield from ((int(it[1]), int(it[2])) for it in OPENINGS.finditer(text))
            begin = last

    # --- its lines --------------------------------------------------------------------------------

    def entries(self, wanted: Filter, kept: Optional[int] = None) -> Iterator[bytes]:
        """The answer to `log`, in parts. Some of them are empty: the caller may do other work after each."""
        size = self.size()
        ranges = self.ranges(size, self.kept(size) if kept is None else kept)
        start, skipped, total = self.index.after(wanted.after), 0, 0
        keys = wanted.keys()
        if wanted.last is not None:
            parts = self.index.parts(size, start, is_backwards=True, wanted=keys)
            start = size
            while total < wanted.last and (part := next(parts, LAST)) is not LAST:
                yield b""
                count = sum(it for _, it in self._portions(part, wanted, ranges)) if part is not None else 0
                if count:
                    total, start = total + count, part.begin
            skipped, total = max(0, total - wanted.last), 0
        for part in self.index.parts(size, start, wanted=keys):
            if part is None:
                yield b""
                continue
            for text, count in self._portions(part, wanted, ranges):
                left_out = min(skipped, count)
                skipped, total = skipped - left_out, total + count - left_out
                yield b"".join(text.splitlines(True)[left_out:]) if left_out else text
        yield b"end %d\n" % total

    def _portions(self, part: Part, wanted: Filter, ranges) -> Iterator[Tuple[bytes, int]]:
        """The wanted lines of a part: texts, and how many lines each has."""
        missing = wanted.patterns()
        for text in pieces(self.file, part.begin, part.end, OVERLAP) if missing else ():
            missing = [it for it in missing if not it.search(text)]
        if missing:
            yield b"", 0
            return
        head, rest = None, b""
        for text in pieces(self.file, part.begin, part.end):
            text = rest + text
            found: List[bytes] = []
            at = 0
            while True:
                if head is None:
                    head = next_head(text, at, wanted, ranges)
                    if head is None:
                        at = max(at, text.rfind(b"\n") + 1)
                        # In the middle of a long line that is not wanted.
                        at = len(text) if len(text) - at > LONGEST_HEAD else at
                        break
                    at = head.at
                at, is_over = take_lines(text, at, head, wanted, found)
                if not is_over:
                    break
                head = None
            rest = text[at:]
            if head is not None:
                head = head._replace(at=0)
            yield b"".join(found), len(found)


def next_head(text: bytes, at: int, wanted: Filter, ranges) -> Optional[Head]:
    """The next batch in a text that the store holds and whose lines may be wanted."""
    planner = None if wanted.planner is None else wanted.planner.encode("utf-8", "surrogateescape")
    alternative = None if wanted.alternative is None else wanted.alternative.encode("utf-8", "surrogateescape")
    for found in HEADS.finditer(text, at):
        number = int(found["number"])
        place = bisect_right(ranges, (number, MOST)) - 1
        if number <= wanted.after or place < 0 or number > ranges[place][1]:
            continue
        who = json.loads(found["who"]).encode("utf-8")
        if planner not in (None, who, found["uid"]):
            continue
        names = [it.strip(b'"') for it in found["alternatives"].split(b",")]
        if alternative is None or alternative in names:
            name = word(who.decode("utf-8")).encode("ascii")
            return Head(number, found["time"], name, found["uid"], names, int(found["records"]), found.end())
    return None


def take_lines(text: bytes, at: int, head: Head, wanted: Filter, found: List[bytes]) -> Tuple[int, bool]:
    """Adds the wanted lines of a batch, from a position on. Returns where it stopped, and whether that is the batch's
    end."""
    if not wanted.is_in_full and is_told_in_one_line(head.who, head.alternatives):
        return take_renewal(text, at, head, wanted, found)
    of_line = wanted.of_line() if wanted.record is not None else None
    end = text.find(b"\n", at) + 1
    while True:
        if of_line and end:
            line = of_line.search(text, at, end)
            if line is None:
                return end, True
            at = line.start()
        string = STRING.match(text, at)
        if string is None:
            return (at + len(b"]}\n"), True) if text.startswith(b"]}\n", at) else (at, False)
        line = string[1] if b"\\" not in string[1] else json.loads(b'"%s"' % string[1]).encode("ascii")
        if is_wanted(line, head, wanted):
            found.append(entry(head, line))
        at = string.end()
        if string[2] != b",":
            return at, True


def take_renewal(text: bytes, at: int, head: Head, wanted: Filter, found: List[bytes]) -> Tuple[int, bool]:
    """The same of a renewal, which has one line in place of all of its own."""
    end = text.find(b"\n", at) + 1
    if end and wanted.record is None:
        found.append(entry(head, summary(head.records)))
    return end or len(text), end > 0


def entry(head: Head, line: bytes) -> bytes:
    return b"entry %d %s %s %s\n" % (head.number, head.time, head.who, line)


def is_wanted(line: bytes, head: Head, wanted: Filter) -> bool:
    """Whether a line is about the alternative and may have changed the record."""
    words = line.split(b" ")
    if wanted.alternative is not None:
        name = wanted.alternative.encode("utf-8", "surrogateescape")
        if name not in words[1:2] and not (words[0] == b"post" and name in head.alternatives):
            return False
    if wanted.record is None or words[0] in WIDE_VERBS:
        return True
    return words[0] in (b"put", b"remove") and (int(words[2]), int(words[3])) == wanted.record
