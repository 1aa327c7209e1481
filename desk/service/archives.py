"""Old entries of a journal, moved into a file of their own by `altserve archive`.

An archive is the beginning of the journal as it was, up to a commit. It is durable under its name before the rest takes
the journal's name, so whenever a crash comes, each entry is in the archive or in the journal, or in both. The rest
begins with a line `dropped`, which names the archive, and a line `opened`, which stands for all starts before it."""
import contextlib
import errno
import json
import os
import re
from typing import Callable, Iterator, NamedTuple, Optional

from service.backups import NAME
from service.durable import NameUnsure, give_name
from service.entries import remembered
from service.journal import PART, Broken, Journal, now
from service.journal_log import Log
from service.limits import refusal

# The beginning of each line that tells something, which is longer than no OVERLAP.
MARK = re.compile(
    rb'^\{"(?:batch":(?P<batch>\d+),"time":"(?P<time>[^"]*)"|done":(?P<done>\d+)\}$|'
    rb'opened":"[^"]*","last":(?P<last>\d+),"next":(?P<next>\d+)\}$)',
    re.M,
)
OVERLAP = 256
DROPPED = re.compile(rb'\{"dropped":(\d+),"archive":"([^"]*)"\}\n')
NUMBER = re.compile(r"[0-9]{1,19}")
TIME = re.compile(r"\d{4}-\d{2}-\d{2}(T\d{2}(:\d{2}(:\d{2}(\.\d+)?)?)?)?Z?")
# So much is copied between two syncs: each stops the others.
SYNCED = 1 << 20


class Cut(NamedTuple):
    """Where the rest of a journal begins, the highest number before that, and the last batch that the store held
    then."""

    at: int
    highest: int
    kept: int


class Dropped(NamedTuple):
    """The highest number that was dropped from a journal, and the archive that has it."""

    highest: int
    archive: str


def is_moment(until: str) -> bool:
    """Whether a text is the number of a batch, or a time."""
    return NUMBER.fullmatch(until) is not None or TIME.fullmatch(until) is not None


def is_after(number: int, at: str, until: str) -> bool:
    return number > int(until) if until.isdigit() else at.rstrip("Z") > until.rstrip("Z")


def dropped_from(file: int) -> Dropped:
    """What a journal or an archive lacks."""
    found = DROPPED.match(os.pread(file, OVERLAP, 0))
    return Dropped(int(found[1]), found[2].decode("ascii")) if found else Dropped(0, "")


def cuts(file: int, end: int, until: str) -> Iterator[Optional[Cut]]:
    """The places behind the commits up to a moment, the last one at the end; None in between."""
    highest = dropped_from(file).highest
    has_batches = False
    for at in range(0, end, PART):
        text = os.pread(file, min(PART + OVERLAP, end - at), at)
        for it in MARK.finditer(text):
            if it.start() >= PART:
                break
            if it["batch"]:
                if is_after(int(it["batch"]), it["time"].decode("ascii"), until):
                    return
                highest, has_batches = max(highest, int(it["batch"])), True
                continue
            highest = max(highest, int(it["next"]) - 1) if it["next"] else highest
            if has_batches:
                yield Cut(at + it.end() + 1, highest, int(it["done"] or it["last"]))
        yield None


class Target:
    """A file that is written in parts, and gets its name once it is durable."""

    def __init__(self, part: str, name: str):
        self.part, self.name = part, name
        self.file = os.open(part, os.O_RDWR | os.O_CREAT | os.O_TRUNC | os.O_APPEND | os.O_CLOEXEC, 0o600)

    def write(self, text: bytes) -> None:
        while text:
            text = text[os.write(self.file, text) :]

    def copy(self, source: int, begin: int, end: int) -> Iterator[bytes]:
        """Copies a part of another file, and stops now and then."""
        for at in range(begin, end, PART):
            self.write(os.pread(source, min(PART, end - at), at))
            if (at - begin) % SYNCED == 0:
                os.fdatasync(self.file)
            yield b""

    def place(self) -> None:
        """Gives it its name. Raises Broken if that may not be durable."""
        try:
            give_name(self.part, self.name, self.file)
        except NameUnsure as fault:
            raise Broken(fault.strerror) from None

    def close(self) -> None:
        """Closes it, and removes it unless it has its name."""
        os.close(self.file)
        with contextlib.suppress(FileNotFoundError):
            os.unlink(self.part)


def folder_of(file: str) -> str:
    return f"{file}.archives"


def remove_parts(file: str) -> None:
    """Removes what was left by one who was killed."""
    parts = [f"{file}.journal.new"]
    with contextlib.suppress(OSError):
        form = re.compile(rf"\.{NAME.pattern.decode()}\.part")
        parts += [it.path for it in os.scandir(folder_of(file)) if form.fullmatch(it.name)]
    for it in parts:
        with contextlib.suppress(OSError):
            os.unlink(it)


def archived(journal: Journal, file: str, name: str, until: str) -> Iterator[bytes]:
    """Moves the entries up to a moment into an archive. It stops after each part, so that others can be served; its
    last part is the answer, and comes when all is done. Raises OSError if it cannot be done, and Broken if the journal
    can no longer be used."""
    cut = None
    for found in cuts(journal.file, journal.end, until):
        cut = found or cut
        yield b""
    if cut is None:
        raise OSError(errno.ENODATA, "there are no batches up to then")
    folder = folder_of(file)
    os.makedirs(folder, mode=0o700, exist_ok=True)
    if os.path.lexists(f"{folder}/{name}"):
        raise OSError(errno.EEXIST, f"{folder}/{name} is there already")
    archive, rest = Target(f"{folder}/.{name}.part", f"{folder}/{name}"), None
    try:
        yield from archive.copy(journal.file, 0, cut.at)
        rest = Target(f"{journal.path}.new", journal.path)
        rest.write(b'{"dropped":%d,"archive":%s}\n' % (cut.highest, json.dumps(name).encode("ascii")))
        rest.write(b'{"opened":"%s","last":%d,"next":%d}\n' % (now().encode(), cut.kept, cut.highest + 1))
        end = cut.at
        while journal.end - end > SYNCED:
            begin, end = end, journal.end
            yield from rest.copy(journal.file, begin, end)
        # From here on nothing comes in between.
        for _ in rest.copy(journal.file, end, journal.end):
            pass
        archive.place()
        try:
            rest.place()
        except OSError:
            os.unlink(archive.name)  # The journal still has it all.
            raise
        journal.go_on_in(rest.file)
        rest = None
        yield b"ok %d %d\n" % (cut.highest, cut.at)
    finally:
        archive.close()
        if rest is not None:
            rest.close()


def refused(fault: OSError) -> bytes:
    return refusal(104, errno.errorcode.get(fault.errno, "EIO")) + b"\n"


def archived_alone(file: str, name: str, until: str, say: Callable[[object], None]) -> bytes:
    """Does the same while no service runs. The caller has the lock of the store."""
    path, owners = f"{file}.journal", f"{file}.owners"
    os.stat(path)  # A journal that is not there is not made.
    journal = Journal(path, say)
    try:
        log = Log(path)
        kept = log.kept(log.size())
        remembered(owners, log, kept).save(owners, kept)
        log.close()
        answer = b"".join(archived(journal, file, name, until))
        with contextlib.suppress(FileNotFoundError):
            os.unlink(f"{path}.index")
        return answer
    finally:
        journal.close()
