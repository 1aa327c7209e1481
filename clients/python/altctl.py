"""A store of Zonegrater from Python: `Store` starts `altctl run FILE`, writes lines to it and reads its answers.
`Store("unix:PATH")` asks the service at that socket (`desk/altserve`) instead, together with other planners.

    with Store("map.alt") as store:
        store.new("north", "top")
        store.put("north", 7, 1, b"duct")
        store.commit()

Values are bytes, 4,000 at most, names are texts, and a key is a table and a number. What was not committed is gone at
the end of the `with`. Several threads may use one store: each call has its own answer. docs/FORMATS.md has the lines
and their answers, docs/OPERATING.md what helps where one is refused.
"""
from __future__ import annotations

import contextlib
import errno
import os
import re
import socket
import stat
import subprocess
import tempfile
import threading
from collections import deque
from operator import index
from types import TracebackType
from typing import Callable, Dict, Generic, Iterable, Iterator, List, NamedTuple, Optional, Sequence, Tuple, Type
from typing import TypeVar, Union


# How many lines are written ahead of their answers at most, and how many bytes a pipe holds at least.
AHEAD, PIPE = 60, 4096
# How many records a scan asks for at once. A number has 64 bits, and a table 16.
PAGE, NUMBER_BITS, LAST_NUMBER, LAST_TABLE = 1000, 64, 2**64 - 1, 2**16 - 1
# How many blocks a store has at least and at most.
LEAST_BLOCKS, MOST_BLOCKS = 64, 2**26

Row = TypeVar("Row")
Key = Tuple[int, int]
Value = Union[bytes, bytearray, memoryview]
Path = Union[str, bytes, "os.PathLike[str]", "os.PathLike[bytes]"]


class Refusal(Exception):
    """A line that was refused: `error NUMBER NAME`, and behind it a count, a block or a key, where it has one. Of
    several lines that were given at once `at` tells which one it is, 0 for the first. `line` is the line itself, where
    it is known, and `reason` which word of a bad line is wrong, as the program tells it, or else as the line shows."""

    def __init__(
        self, number: int, name: str, detail: str = "", at: Optional[int] = None, line: Optional[str] = None
    ) -> None:
        place = "" if at is None else f" (line {at} of those given)"
        super().__init__(f"{number} {name} {detail}".rstrip() + place)
        self.number, self.name, self.detail, self.at, self.line = number, name, detail, at, line

    @property
    def reason(self) -> Optional[str]:
        if self.number != 22:
            return None
        return self.detail or (what_is_bad(self.line) if self.line is not None else None)


def refusal_of(words: Sequence[str], at: Optional[int] = None, line: Optional[str] = None) -> Refusal:
    return Refusal(int(words[1]), words[2], " ".join(words[3:]), at, line)


class Ended(Exception):
    """The program ended before its input did, or with a status other than 0. What was committed is in the file.
    `reason` is what the system says of a file that could not be opened."""

    def __init__(self, status: int, said: str, reason: Optional[str] = None) -> None:
        super().__init__(f"altctl ended with status {status}: {said.strip()}" + (f": {reason}" if reason else ""))
        self.status, self.said, self.reason = status, said, reason


CHANGES = {"new", "drop", "put", "remove", "checkpoint", "uncheck", "back", "merge", "post", "reclaim", "grow"}


class Record(NamedTuple):
    table: int
    number: int
    value: bytes


class Change(NamedTuple):
    """A record that differs between two versions, with its value before and after. None stands for no value."""

    table: int
    number: int
    before: Optional[bytes]
    after: Optional[bytes]


class Tally(NamedTuple):
    """How many records an alternative has changed since its base, how many its parent has since then, how many of them
    are in conflict, and whether a post would be accepted."""

    changed: int
    unmerged: int
    conflicts: int
    can_post: bool


class Conflict(NamedTuple):
    """A record that an alternative and its parent changed to different values."""

    table: int
    number: int
    base: Optional[bytes]
    parent: Optional[bytes]
    mine: Optional[bytes]


class Alternative(NamedTuple):
    name: str
    parent: Optional[str]


class Copied(NamedTuple):
    """How many blocks a copy has, and how many of them are in use."""

    blocks: int
    used: int


class Entry(NamedTuple):
    """A line of a service's journal: which batch it is of, when it was made (UTC) and by whom."""

    batch: int
    time: str
    planner: str
    line: str


SPELLED = [chr(it) if 0x21 <= it <= 0x7D and it != 0x25 else f"%{it:02X}" for it in range(256)]


def encode(value: Value) -> str:
    """A value as a word of a line."""
    if not isinstance(value, (bytes, bytearray, memoryview)):
        raise TypeError(f"a value is bytes, and not {type(value).__name__}")
    if value in (b"", b"-"):
        return "%2D" if value else "-"
    return "".join(map(SPELLED.__getitem__, value))


def decode(word: str) -> Optional[bytes]:
    """The value that a word of an answer spells, or None for `~`."""
    return None if word == "~" else value_of(word)


def value_of(word: str) -> bytes:
    if word == "-":
        return b""
    # Python's own escapes have \x in the place of %, and are read ten times as quickly as by a loop here.
    spelled = word.replace("\\", "\\\\").replace("%", "\\x")
    return spelled.encode("ascii").decode("unicode_escape").encode("latin-1")


def portions(lines, most, ahead=AHEAD):
    """Lines in portions of `ahead` at most, which have no more than `most` bytes together, or are one line."""
    portion, size = [], 0
    for line in lines:
        if portion and (len(portion) == ahead or size + len(line) >= most):
            yield portion
            portion, size = [], 0
        portion.append(line)
        size += len(line) + 1
    if portion:
        yield portion


def part_words(table: Optional[int], first: Optional[int], last: Optional[int]) -> List[int]:
    """The words of a line for a table, or for its numbers from a first to a last one. None stands for no limit."""
    if table is None:
        if first is not None or last is not None:
            raise ValueError("numbers without a table")
        return []
    if first is None and last is None:
        return [whole(table)]
    return [whole(table), whole(0 if first is None else first), whole(LAST_NUMBER if last is None else last)]


def whole(number: int) -> int:
    """A number that is one: neither a text nor a float."""
    try:
        return index(number)
    except TypeError:
        raise TypeError(f"a table, a number and a count are int, and not {type(number).__name__}") from None


# --- why a line is a bad one, and a file is not opened --------------------------------------------------------

# The words of each line behind its first one, as docs/FORMATS.md has them.
FORMS = {
    "new": ["NAME PARENT", "NAME PARENT CHECKPOINT"],
    **dict.fromkeys(["drop", "post", "tally", "checks", "changes", "conflicts"], ["ALT"]),
    **dict.fromkeys(["commit", "rollback", "reclaim", "alts", "free", "blocks"], [""]),
    **dict.fromkeys(["checkpoint", "uncheck", "back"], ["ALT NAME"]),
    "put": ["ALT TABLE NUMBER VALUE"],
    "remove": ["ALT TABLE NUMBER"],
    "merge": ["ALT SETTLEMENT .."],
    "grow": ["BLOCKS"],
    "get": ["AT TABLE NUMBER"],
    "list": ["AT", "AT TABLE", "AT TABLE FIRST LAST"],
    "next": ["AT TABLE NUMBER COUNT"],
    "diff": ["AT AT", "AT AT TABLE", "AT AT TABLE FIRST LAST"],
}
# The same for people, where there are several.
SHOWN = {"new": "NAME PARENT [CHECKPOINT]", "merge": "ALT [SETTLEMENT ..]"}
SHOWN.update({"list": "AT [TABLE [FIRST LAST]]", "diff": "AT AT [TABLE [FIRST LAST]]"})
# The highest number that a word may be.
HIGHEST = {"TABLE": LAST_TABLE, "COUNT": 2**32 - 1, "BLOCKS": 2**32 - 1}
HIGHEST.update(dict.fromkeys(["NUMBER", "FIRST", "LAST"], LAST_NUMBER))
# The form of other words, and the same for people.
NAME, NAMED = "[A-Za-z0-9_.-]{1,32}", "1 to 32 of A-Za-z0-9_.-"
WORDS = {
    **dict.fromkeys(["NAME", "PARENT", "CHECKPOINT", "ALT"], (NAME, NAMED)),
    "AT": (f"{NAME}(@({NAME})?)?", "ALT, ALT@ or ALT@CHECKPOINT"),
    "VALUE": ("(%[0-9A-Fa-f]{2}|[^%]){1,4000}", "at most 4,000 bytes, % as %25"),
    "SETTLEMENT": ("([0-9]+):([0-9]+)=(mine|theirs)", "TABLE:NUMBER=mine|theirs"),
}
MOST_TOLD = 40


def fits(kind: str, word: str) -> bool:
    """Whether a word of a line is one of a kind, as FORMS names it."""
    if kind in HIGHEST:
        return bool(re.fullmatch("[0-9]{1,20}", word)) and int(word) <= HIGHEST[kind]
    found = re.fullmatch(WORDS[kind][0], word)
    if found and kind == "SETTLEMENT":
        return fits("TABLE", found[1]) and fits("NUMBER", found[2])
    return bool(found)


def what_is_bad(line: str) -> Optional[str]:
    """Which word makes a line a bad one (22 BadLine), and what was expected; the program says the same, with the word's
    place for the word. None if it is one of the lines."""
    verb, *words = line.split()
    if verb not in FORMS:
        return f"{verb}: there is no such line"
    kinds = [it.split() for it in FORMS[verb]]
    if verb == "merge":
        if words[1:2] in (["all=mine"], ["all=theirs"]):
            del words[1]
        kinds = [["ALT", *["SETTLEMENT"] * (len(words) - 1)]]
    found = next((it for it in kinds if len(it) == len(words)), None)
    if found is None:
        return f"{verb} takes {SHOWN.get(verb) or FORMS[verb][0] or 'no other word'}"
    for kind, word in zip(found, words):
        if not fits(kind, word):
            due = WORDS[kind][1] if kind in WORDS else f"0 to {HIGHEST[kind]}"
            return f"{word if len(word) <= MOST_TOLD else word[:MOST_TOLD] + '..'}: {kind} is {due}"
    return None


def why_unopened(file: Path, read_only: bool) -> Optional[str]:
    """Why a store's file cannot be opened, as far as this process meets the same. None if it does not."""
    try:
        mode = os.stat(file).st_mode
        if not (stat.S_ISREG(mode) or stat.S_ISBLK(mode)):
            return "it is neither a file nor a block device"
        with open(file, "rb" if read_only else "r+b", buffering=0) as opened:
            opened.read(1)
    except OSError as fault:
        return fault.strerror
    return None


def record_of(words: Sequence[str]) -> Record:
    return Record(int(words[0]), int(words[1]), value_of(words[2]))


def change_of(words: Sequence[str]) -> Change:
    return Change(int(words[0]), int(words[1]), decode(words[2]), decode(words[3]))


def conflict_of(words: Sequence[str]) -> Conflict:
    return Conflict(int(words[0]), int(words[1]), decode(words[2]), decode(words[3]), decode(words[4]))


class Rows(Generic[Row]):
    """The rows of one answer. They are read as they are asked for; before the next line is written, the rest is."""

    def __init__(
        self,
        read: Callable[[], List[str]],
        first: List[str],
        make: Callable[[Sequence[str]], Row],
        turn: threading.RLock,
    ) -> None:
        self._read, self._make, self._turn, self._is_whole = read, make, turn, False
        self._waiting: deque[Row] = deque()
        self._take(first)

    def _take(self, words: List[str]) -> None:
        if words[0] == "end":
            self._is_whole = True
        else:
            self._waiting.append(self._make(words[1:]))

    def read_rest(self) -> None:
        while not self._is_whole:
            self._take(self._read())

    def __iter__(self) -> Iterator[Row]:
        return self

    def __next__(self) -> Row:
        with self._turn:
            if not self._waiting and not self._is_whole:
                self._take(self._read())
            if not self._waiting:
                raise StopIteration
            return self._waiting.popleft()


class Process:
    """A process of `altctl run`, which locks the file as long as it runs. It is in a session of its own: a Ctrl-C that
    ends a call here does not end it, and what was not committed is there still."""

    ahead, pipe = AHEAD, PIPE

    def __init__(self, file, program, cache, wait, read_only, grow):
        os.stat(file)
        self._words = program, os.path.abspath(os.fsdecode(file))
        options = [*([] if cache is None else ["--cache", str(cache)]), *(["--wait"] if wait else [])]
        options += ["--read-only"] if read_only else []
        options += [] if grow is False else ["--grow"] if grow is True else ["--grow", "--grow-to", str(grow)]
        self._faults = tempfile.TemporaryFile("w+", errors="replace")
        how = {"stderr": self._faults, "encoding": "ascii", "start_new_session": True}
        words = [program, "run", *options, "--", os.fsdecode(file)]
        self._program = subprocess.Popen(words, stdin=subprocess.PIPE, stdout=subprocess.PIPE, **how)
        self.lines, self.answers = self._program.stdin, self._program.stdout

    def copy(self, to, blocks):
        """Has a second process copy the file, whose lock this one holds."""
        program, file = self._words
        words = [program, "copy", "--no-lock", "--", file, os.fsdecode(to), *([] if blocks is None else [str(blocks)])]
        how = {
            "stdin": subprocess.DEVNULL,
            "stdout": subprocess.PIPE,
            "stderr": subprocess.PIPE,
            "start_new_session": True,
        }
        ran = subprocess.run(words, encoding="utf-8", errors="replace", **how)
        if ran.returncode == 0:
            return Copied(*map(int, re.findall("[0-9]+", ran.stdout)))
        refused = re.fullmatch("altctl: ([0-9]+ [A-Za-z]+.*)\n", ran.stderr)
        if ran.returncode == 1 and refused:
            raise refusal_of(["error", *refused[1].split()])
        raise Ended(ran.returncode, ran.stderr)

    def end(self):
        """Ends it, and gives its status and what it said."""
        try:
            self._program.communicate()
        finally:
            self._faults.seek(0)
            said = self._faults.read()
            self._faults.close()
        return self._program.returncode, said


class Service:
    """A connection to the service at a Unix socket."""

    # A socket and a pipe of ssh hold this much at least, and the service keeps answers that nobody reads yet.
    ahead, pipe = 1000, 32 << 10

    def __init__(self, path):
        self._socket = socket.socket(socket.AF_UNIX)
        try:
            self._socket.connect(path)
        except BaseException:
            self._socket.close()
            raise
        self.lines, self.answers = (self._socket.makefile(mode, encoding="ascii", newline="\n") for mode in "wr")

    def abort(self) -> None:
        """Has each call that waits for an answer raise Ended."""
        with contextlib.suppress(OSError):
            self._socket.shutdown(socket.SHUT_RDWR)

    def end(self):
        """Ends the connection. A batch that was not committed is forgotten."""
        with contextlib.suppress(BrokenPipeError):
            self.lines.close()
        self.answers.close()
        self._socket.close()
        return 0, ""


class Tunnel(Service):
    """A connection to a service's socket elsewhere by the standard streams of a command: `ssh HOST nc -N -U PATH`."""

    def __init__(self, words: Sequence[str]) -> None:
        pipe = subprocess.PIPE
        self._command = subprocess.Popen(words, stdin=pipe, stdout=pipe, encoding="ascii", start_new_session=True)
        self.lines, self.answers = self._command.stdin, self._command.stdout

    def abort(self) -> None:
        self._command.terminate()

    def end(self):
        with contextlib.suppress(BrokenPipeError):
            self.lines.close()
        # All answers have been read, so there is nothing to wait for; over a slow link the end would take its time.
        self._command.terminate()
        self._command.wait()
        self.answers.close()
        return 0, ""


class Store:
    """An open store. The program locks its file (`flock`) as long as it runs: a second one raises BlockingIOError, or
    with `wait` it waits. With `read_only` the file is only read, beside other readers, and each command is refused (24
    ReadOnly). With `grow` the store grows where a command would be refused for want of blocks (13 Full): as far as it
    can, or up to that many blocks.

    "unix:PATH" stands for a store that a service works on, for many planners at once. There each change is committed
    before its method returns, except in a `with store.batch()`. A Tunnel leads to a service elsewhere."""

    def __init__(self, file, program="altctl", cache=None, wait=False, read_only=False, grow=False):
        self._rows, self._batch, self._is_open, self._turn = None, None, False, threading.RLock()
        is_service = isinstance(file, str) and file.startswith("unix:")
        if isinstance(file, Service):
            self._other = file
        else:
            self._other = Service(file[5:]) if is_service else Process(file, program, cache, wait, read_only, grow)
        self._is_open = True
        try:
            self.free()
        except Ended as ended:
            if ended.status == 1 and ended.said.endswith(" is in use\n"):
                raise BlockingIOError(errno.EAGAIN, "another process has locked the file", file) from None
            if ended.said.startswith("altctl: cannot open "):
                raise Ended(ended.status, ended.said, why_unopened(file, read_only)) from None
            raise
        except BaseException:
            self.close(quietly=True)
            raise

    def __enter__(self) -> Store:
        return self

    def __exit__(self, kind: Optional[Type[BaseException]], *_: Union[BaseException, TracebackType, None]) -> None:
        self.close(quietly=kind is not None)

    def close(self, quietly: bool = False) -> None:
        """Ends the program. Raises Ended where its status is not 0, unless that is to be ignored."""
        if not self._is_open:
            return
        self._is_open = False
        status, said = self._other.end()
        if status and not quietly:
            raise Ended(status, said)

    def abort(self) -> None:
        """Ends the connection to a service, even while another thread waits for an answer: its call raises Ended."""
        if not isinstance(self._other, Service):
            raise ValueError("only a connection to a service can be aborted")
        self._other.abort()

    @contextlib.contextmanager
    def batch(self, seen: Optional[Dict[str, int]] = None) -> Iterator[None]:
        """Changes that a service applies together at the end of the `with`: all of them, or none. If an exception
        leaves the `with`, or one of them is refused at its end, everything stays as it was. Queries are not possible in
        it. `seen` is a dict from alternatives to batches: if one has changed since that batch, all of it is refused
        (103 Changed)."""
        if not isinstance(self._other, Service) or self._batch is not None:
            raise ValueError("a batch is one of a service's store, and not in another one")
        self._batch = [self._line("begin", *(f"{alt}={number:d}" for alt, number in (seen or {}).items()))]
        try:
            yield
            lines = [*self._batch, "commit"]
        finally:
            self._batch = None
        if len(lines) > 2:
            with self._turn:
                self._write(lines)
                answers = [self._read() for _ in lines]
            # Where one is refused, each of the others is answered `91 NotDone`.
            for line, answer in zip(lines, answers):
                if answer[0] == "error" and answer[1] != "91":
                    raise refusal_of(answer, line=line)

    def _line(self, *words):
        words = [str(it) for it in words]
        if not self._is_open or not all(re.fullmatch("[!-~]+", it) for it in words):
            raise ValueError(f"not the words of a line: {words}" if self._is_open else "the store is closed")
        return " ".join(words)

    def _write(self, lines):
        """Writes lines, once all answers to those before have been read."""
        if self._rows:
            self._rows.read_rest()
            self._rows = None
        try:
            self._other.lines.write("".join(f"{it}\n" for it in lines))
            self._other.lines.flush()
        except BrokenPipeError:
            pass  # It has ended, which the read of the answer tells.

    def _read(self):
        line = self._other.answers.readline()
        if line.endswith("\n"):
            return line.split()
        self.close()
        raise Ended(0, "its output ended")

    def _hold(self, line):
        """Holds a change up to the end of its batch: there is no answer yet."""
        if line.split(" ", 1)[0] not in CHANGES:
            raise ValueError("a query in a batch, which is answered at its end")
        self._batch.append(line)

    def _ask(self, *words):
        """Writes a line, and gives the words of the first line of its answer. In a batch it is held."""
        line = self._line(*words)
        if self._batch is not None:
            return self._hold(line)
        with self._turn:
            self._write([line])
            answer = self._read()
        if answer[0] == "error":
            raise refusal_of(answer, line=line)
        return answer

    def _ask_many(self, lines, most):
        """Gives for each line the words of its answer, of one line. A portion of lines is written, and then its answers
        are read, the one that tells a refusal among them. No side waits for the other for good: both pipes are empty
        before a portion, and into one of them goes all of it. Either the lines have no more than `most` = PIPE bytes
        together, or the answers, of 64 bytes each at most. In a batch they are held."""
        if self._batch is not None:
            for line in lines:
                self._hold(line)
            return
        asked = 0
        for portion in portions(lines, most, self._other.ahead):
            with self._turn:
                self._write(portion)
                answers = [self._read() for _ in portion]
            for at, answer in enumerate(answers, asked):
                if answer[0] == "error":
                    raise refusal_of(answer, at, portion[at - asked])
            yield from answers
            asked += len(portion)

    def _list(self, make, *words):
        with self._turn:
            rows = Rows(self._read, self._ask(*words), make, self._turn)
            self._rows = rows
        return rows

    def put(self, alt: str, table: int, number: int, value: Value) -> None:
        self._ask("put", alt, table, number, encode(value))

    def get(self, alt: str, table: int, number: int) -> Optional[bytes]:
        """The value of a record, or None. In place of an alternative stands a version of it, too: "north@" for its
        base, "north@before" for a checkpoint."""
        answer = self._ask("get", alt, table, number)
        return decode(answer[1]) if answer[0] == "value" else None

    def remove(self, alt: str, table: int, number: int) -> None:
        self._ask("remove", alt, table, number)

    def put_many(self, alt: str, records: Iterable[Tuple[int, int, Value]]) -> None:
        """Puts each (table, number, value), in their order. Lines are written ahead of their answers. Where one is
        refused, those before it are put, and some of those behind it may be: the Refusal tells in `at` which one it
        was."""
        words = self._line("put", alt)
        lines = (f"{words} {table:d} {number:d} {encode(value)}" for table, number, value in records)
        for _ in self._ask_many(lines, float("inf")):
            pass

    def get_many(self, alt: str, keys: Iterable[Key]) -> Iterator[Optional[bytes]]:
        """The values of the records (table, number), None for none, one after another as they are asked for. Lines are
        written ahead of their answers."""
        words = self._line("get", alt)
        lines = (f"{words} {table:d} {number:d}" for table, number in keys)
        for answer in self._ask_many(lines, self._other.pipe):
            yield decode(answer[1]) if answer[0] == "value" else None

    def answers_of(self, queries: Iterable[Sequence[object]]) -> List[Union[List[List[str]], Refusal]]:
        """The answers to queries, each the words of a line such as ("diff", "top", "north"), as lists of rows: each row
        the words behind its first one. In the place of a query that was refused stands its Refusal. Lines are written
        ahead of their answers: to a service, a few hundred queries take one round trip."""
        found = []
        for portion in portions([self._line(*words) for words in queries], self._other.pipe, self._other.ahead):
            with self._turn:
                self._write(portion)
                found += [self._whole_answer() for _ in portion]
        return found

    def answer_lines(self, *words: object) -> List[str]:
        """The rows of the answer to one query as lines, for those who pass many on as they are."""
        found, asked = [], self._line(*words)
        with self._turn:
            self._write([asked])
            for line in self._other.answers:
                if line.startswith(("end ", "error ")):
                    break
                found.append(line)
            else:
                line = ""
        if not line.endswith("\n"):
            self.close()
            raise Ended(0, "its output ended")
        if line.startswith("error "):
            raise refusal_of(line.split(), line=asked)
        return found

    def _whole_answer(self) -> Union[List[List[str]], Refusal]:
        words, rows = self._read(), []
        while words[0] not in ("end", "error"):
            rows.append(words[1:])
            words = self._read()
        return rows if words[0] == "end" else refusal_of(words)

    def remove_many(self, alt: str, keys: Iterable[Key]) -> None:
        """Removes each record (table, number), as `put_many` puts them."""
        words = self._line("remove", alt)
        for _ in self._ask_many((f"{words} {table:d} {number:d}" for table, number in keys), float("inf")):
            pass

    def list(
        self, at: str, table: Optional[int] = None, first: Optional[int] = None, last: Optional[int] = None
    ) -> Rows[Record]:
        """All records of an alternative or of a version of it, by table and then by number; or those of a table, or of
        its numbers from `first` to `last`, both included, where None is no limit."""
        return self._list(record_of, "list", at, *part_words(table, first, last))

    def next(self, at: str, table: int, number: int, count: int) -> Rows[Record]:
        """The first `count` records at or after a key, over tables. If they are fewer, there are no more."""
        return self._list(record_of, "next", at, whole(table), whole(number), whole(count))

    def scan(self, at: str, table: Optional[int] = None) -> Iterator[Record]:
        """All records, or those of a table, as `list` gives them, but a thousand at a time: other lines may come in
        between, and at no time are more than these in memory. A page shows the version as it is when the page is asked
        for."""
        first, last = (0, LAST_TABLE) if table is None else (whole(table), whole(table))
        place, end = first << NUMBER_BITS, (last + 1) << NUMBER_BITS
        return self._pages(at, place, end, self._page(at, place))

    def _page(self, at, place):
        return self.next(at, place >> NUMBER_BITS, place & LAST_NUMBER, PAGE)

    def _pages(self, at, place, end, rows):
        """The records before the place `end`, of which `rows` are the first ones. A place is a key as one number."""
        while True:
            count = 0
            for count, record in enumerate(rows, 1):
                place = (record.table << NUMBER_BITS | record.number) + 1
                if place > end:
                    return
                yield record
            if count < PAGE or place == end:
                return
            rows = self._page(at, place)

    def new(self, name: str, parent: str, checkpoint: Optional[str] = None) -> None:
        """A new alternative, which shows what its parent shows, or what a checkpoint of the parent does."""
        self._ask("new", name, parent, *([] if checkpoint is None else [checkpoint]))

    def drop(self, alt: str) -> None:
        self._ask("drop", alt)

    def checkpoint(self, alt: str, name: str) -> None:
        self._ask("checkpoint", alt, name)

    def uncheck(self, alt: str, name: str) -> None:
        self._ask("uncheck", alt, name)

    def back(self, alt: str, name: str) -> None:
        self._ask("back", alt, name)

    def changes(self, alt: str) -> Rows[Change]:
        """What the alternative has changed since its base, as Change rows."""
        return self._list(change_of, "changes", alt)

    def diff(
        self,
        first: str,
        second: str,
        table: Optional[int] = None,
        first_number: Optional[int] = None,
        last_number: Optional[int] = None,
    ) -> Rows[Change]:
        """What differs from one version to another, as Change rows: everywhere, in a table, or at its numbers from
        `first_number` to `last_number`, both included."""
        return self._list(change_of, "diff", first, second, *part_words(table, first_number, last_number))

    def tally(self, alt: str) -> Tally:
        """How far the alternative has gone from its base and from its parent, as a Tally."""
        answer = self._ask("tally", alt)
        return Tally(int(answer[1]), int(answer[2]), int(answer[3]), answer[4] == "yes")

    def conflicts(self, alt: str) -> Rows[Conflict]:
        """What a merge of the alternative has to settle, as Conflict rows."""
        return self._list(conflict_of, "conflicts", alt)

    def merge(
        self, alt: str, settlements: Optional[Dict[Key, str]] = None, all: Optional[str] = None
    ) -> Optional[int]:
        """Brings in what changed in the parent, and gives how many records that changed, but in a batch. Settlements
        are a dict from (table, number) to "mine" or "theirs", one for each conflict; `all`, "mine" or "theirs", settles
        each other one."""
        words = [] if all is None else [f"all={all}"]
        words += [f"{table}:{number}={side}" for (table, number), side in (settlements or {}).items()]
        answer = self._ask("merge", alt, *words)
        return answer and int(answer[1])

    def post(self, alt: str) -> None:
        self._ask("post", alt)

    def commit(self) -> None:
        self._ask("commit")

    def rollback(self) -> None:
        """Undoes everything since the last commit, also a growth. A service commits each change, so there it undoes
        nothing."""
        self._ask("rollback")

    def reclaim(self) -> None:
        self._ask("reclaim")

    def grow(self, blocks: int) -> None:
        """Gives the store so many blocks in all. It stays so large from the next commit on."""
        self._ask("grow", blocks)

    def free(self) -> int:
        """The number of free blocks."""
        return int(self._ask("free")[1])

    def blocks(self) -> int:
        """The number of blocks, free ones and others."""
        return int(self._ask("blocks")[1])

    def copy(self, to: Path, blocks: Optional[int] = None) -> Copied:
        """Copies what was committed to a new file of `blocks` blocks, or of as many as the store has, and gives that
        number and how many are in use, as Copied. Raises the Refusal 13 Full if more than `blocks` are in use; no file
        is made then. If it fails otherwise, for instance as the file exists, it raises Ended; nothing has the name `to`
        then that had it not before. The file gets it once it is whole; until then `.part` stands behind it.

        A second process reads the file meanwhile. Here that is safe: between two lines the program writes nothing, and
        other calls of this store wait. An `altctl copy --no-lock` of your own is not safe while a commit, a reclaim or
        any other line runs."""
        if isinstance(self._other, Service) or self._batch is not None:
            raise ValueError("a service copies its store itself, by the line backup")
        if blocks is not None and not LEAST_BLOCKS <= whole(blocks) <= MOST_BLOCKS:
            raise Refusal(21, "BadSize")
        with self._turn:
            # Each reads all answers, and fails if the program, which holds the lock, has ended.
            self.free()
            copied = self._other.copy(to, blocks)
            self.free()
        return copied

    def alternatives(self) -> Rows[Alternative]:
        return self._list(lambda words: Alternative(words[0], None if words[1] == "~" else words[1]), "alts")

    def checkpoints(self, alt: str) -> Rows[str]:
        """The names of an alternative's checkpoints."""
        return self._list(lambda words: words[0], "checks", alt)

    def batches(self) -> int:
        """The number of the last batch that a service has committed."""
        return int(self._ask("batches")[1])

    def whoami(self) -> str:
        """The name of the planner whom a service sees here."""
        return self._ask("whoami")[1]

    def act_for(self, name: str) -> None:
        """Has a service take what follows as another person's, whom its rules name. It needs the right `act`."""
        self._ask("for", name)

    def log(self, **filters: object) -> Rows[Entry]:
        """Who changed what, and when, as a service's journal tells it: Entry rows, the latest one last. The filters are
        those of its line `log`, for instance record="7:1" or last=10."""
        words = [f"{name}={value}" for name, value in filters.items()]
        return self._list(lambda it: Entry(int(it[0]), it[1], it[2], " ".join(it[3:])), "log", *words)
