#!/usr/bin/env python3
"""Makes a store of one of format 1 or 2, or of format 3 without checksums: `tools/upgrade.py OLD NEW [ALTCTL]`.

NEW has the alternatives, bases and checkpoints of OLD with the same records, and as many blocks, or more if it needs
them. OLD is only read, and locked meanwhile. One of format 1 or 2 is read by this script; NEW is made by lines that
`altctl run` gets, and in the end compared with OLD as a whole. Of one of format 3 NEW gets the same blocks with their
sums, and `altctl check` has to accept it. Until then its name is NEW.part. If anything fails, neither is left, and the
status is 1; a damaged OLD is refused with the number of the block, as `18 Damaged 34`.

How formats 1 and 2 lie in a file, if it is not said otherwise in docs/FORMATS.md of format 3, which has the same
selector, slots and inner blocks, apart from the sums:

    header        ALTSTORE, u32 1, u32 4096, then zero
    slot          u32 format 1 or 2 in its first cell
    leaf          LEAF or LEF2, u32 0, u32 count (1 to 16), u32 0; from byte 16 `count` rows of 252 bytes; then zero
    row           u16 table, u64 number, u16 length, and 240 bytes: up to 240 the value, then zero; of a value of 241 to
                  4,000 bytes u32 the block that has it, then zero
    long value    LONG, u32 0, u32 length, u32 0, u16 table, u64 number, from byte 26 the value; then zero

A leaf is LEF2 if it has such a long value, which only format 2 has, and LEAF otherwise. A long value lies in a data
block. Versions share it, under the same key alone."""
import argparse
import contextlib
import fcntl
import functools
import itertools
import os
import shutil
import signal
import stat
import struct
import subprocess
import sys
import tempfile
from typing import BinaryIO, Dict, Iterable, Iterator, List, NamedTuple, Optional, Tuple, Union

sys.dont_write_bytecode = True
from sums import exchanged, place_of, sum_of

BLOCK, FIRST, LEAST, MOST = 4096, 34, 64, 1 << 26
HEAD, ROW, ROWS, SHORT, LONGEST, LONG_HEAD = 16, 252, 16, 240, 4000, 26
CHILD, CHILDREN, LEVELS = 14, 256, 8
CELL, ENTRIES = 128, 511
ZEROS = bytes(BLOCK)
LETTERS = {*b"ABCDEFGHIJKLMNOPQRSTUVWXYZabcdefghijklmnopqrstuvwxyz0123456789_-."}

Key = Tuple[int, int]
Record = Tuple[Key, bytes]
Change = Tuple[Key, Optional[bytes], Optional[bytes]]


class Fault(Exception):
    """What ends the script, in words."""


def damaged(block: int) -> Fault:
    return Fault(f"18 Damaged {block}")


# --- the old file


class Version(NamedTuple):
    """An entry of a slot: an alternative with its parent, or a checkpoint with its alternative. Maps are roots."""

    is_alternative: bool
    name: str
    owner: str
    current: int
    base: int


def header(version: int) -> bytes:
    return (b"ALTSTORE" + struct.pack("<II", version, BLOCK)).ljust(BLOCK, b"\0")


def name_in(field: bytes, least: int) -> Optional[str]:
    """The name in a field of 33 bytes: its length, the name, then zero."""
    size, text = field[0], field[1:]
    if not least <= size <= 32 or any(text[size:]) or not {*text[:size]} <= LETTERS:
        return None
    return text[:size].decode()


def version_in(cell: bytes, earlier: List[Version]) -> Optional[Version]:
    """The entry of a cell, if it is one that may stand behind the earlier ones."""
    is_alternative, is_top = cell[:1] == b"A", not earlier
    name, owner = name_in(cell[1:34], 1), name_in(cell[34:67], 0 if is_top else 1)
    current, base = struct.unpack_from("<II", cell, 67)
    if cell[:1] not in (b"A", b"C") or name is None or owner is None or any(cell[75:]):
        return None
    if is_top and (is_alternative, name, owner) != (True, "top", ""):
        return None
    if not is_top and not any(it.is_alternative and it.name == owner for it in earlier):
        return None
    same = [it for it in earlier if (it.is_alternative, it.name) == (is_alternative, name)]
    if any(is_alternative or it.owner == owner for it in same):
        return None
    if base and (is_top or not is_alternative and owner == "top"):
        return None
    return Version(is_alternative, name, owner, current, base)


class Blocks:
    """The blocks of a file that a store may be in."""

    def __init__(self, file: BinaryIO):
        self.file, self.size = file.fileno(), file.seek(0, os.SEEK_END) // BLOCK
        if self.size < LEAST:
            raise Fault("19 NotAStore")

    def block(self, number: int) -> bytes:
        text = os.pread(self.file, BLOCK, number * BLOCK)
        if len(text) != BLOCK:
            raise Fault(f"block {number} cannot be read")
        return text

    def slot_in_use(self) -> int:
        """The first block of the slot that the selector names."""
        return 18 if self.block(1)[0] & 1 else 2


class Old:
    """The store in a file of format 1 or 2. It is verified as a whole before anything is taken from it."""

    # In `met`: that a block was not met yet, or is that of a long value; else it has the level and 1.
    UNMET, LONG = 0, 255

    def __init__(self, found: Blocks):
        self.block = found.block
        if self.block(0) != header(1):
            raise Fault("19 NotAStore")
        self.format, self.blocks, self.versions = self.slot(found.slot_in_use())
        if self.blocks > found.size:
            raise Fault("21 BadSize")
        self.met = bytearray(self.blocks)
        for version in self.versions:
            for root in (version.current, version.base):
                if root:
                    self.verify(root, None)

    def slot(self, first: int) -> Tuple[int, int, List[Version]]:
        """The format, the number of blocks and the entries of the slot that begins with a block."""
        head = self.block(first)[:CELL]
        form, blocks, count = struct.unpack_from("<III", head, 4)
        if head[:4] != b"SLOT" or form not in (1, 2) or any(head[16:]):
            raise damaged(first)
        if not LEAST <= blocks <= MOST or not 1 <= count <= ENTRIES:
            raise damaged(first)
        versions: List[Version] = []
        text = b"".join(map(self.block, range(first, first + (count + 32) // 32)))
        for at in range(CELL, CELL * (count + 1), CELL):
            found = version_in(text[at : at + CELL], versions)
            if found is None:
                raise damaged(first)
            versions.append(found)
        return form, blocks, versions

    # --- whether a block has its form

    def verify(self, block: int, level: Optional[int]) -> None:
        """Verifies all that lies under a block, which has to be of a level, if one is given."""
        if not FIRST <= block < self.blocks:
            raise damaged(block)
        if self.met[block] == self.UNMET:
            text = self.block(block)
            found = self.level_in(block, text)
            if level not in (None, found):
                raise damaged(block)
            self.met[block] = found + 1
            if found == 0:
                self.verify_rows(block, text)
            else:
                self.verify_children(block, text)
        if self.met[block] == self.LONG or level not in (None, self.met[block] - 1):
            raise damaged(block)

    def level_in(self, block: int, text: bytes) -> int:
        """The level in the head of a block of a tree, behind whose rows or children nothing stands."""
        level, count, zero = struct.unpack_from("<III", text, 4)
        letters = (b"LEAF", b"LEF2") if self.format == 2 else (b"LEAF",)
        is_leaf = text[:4] in letters and level == 0 and 1 <= count <= ROWS
        is_node = text[:4] == b"NODE" and 1 <= level < LEVELS and 1 <= count <= CHILDREN
        end = HEAD + count * (ROW if is_leaf else CHILD)
        if not is_leaf and not is_node or zero or text[end:] != ZEROS[end:]:
            raise damaged(block)
        return level

    def verify_rows(self, block: int, text: bytes) -> None:
        last, links = (-1, 0), []
        for at in range(HEAD, HEAD + ROW * struct.unpack_from("<I", text, 8)[0], ROW):
            table, number, size, link = struct.unpack_from("<HQHI", text, at)
            begin = at + 12 + (4 if size > SHORT else size)
            if (table, number) <= last or size > LONGEST or text[begin : at + ROW] != ZEROS[: at + ROW - begin]:
                raise damaged(block)
            last = table, number
            if size > SHORT:
                links.append((link, last, size))
        if bool(links) != (text[:4] == b"LEF2"):
            raise damaged(block)
        for link in links:
            self.verify_long(*link)

    def verify_long(self, block: int, key: Key, size: int) -> None:
        if not FIRST <= block < self.blocks or self.met[block] not in (self.UNMET, self.LONG):
            raise damaged(block)
        text = self.block(block)
        self.met[block] = self.LONG
        if text[:LONG_HEAD] != b"LONG" + struct.pack("<IIIHQ", 0, size, 0, *key) or any(text[LONG_HEAD + size :]):
            raise damaged(block)

    def verify_children(self, block: int, text: bytes) -> None:
        level, children = self.level(block), self.children(block)
        lows = [low for low, _ in children]
        if any(low >= other for low, other in zip(lows, lows[1:])):
            raise damaged(block)
        for at, (low, child) in enumerate(children):
            self.verify(child, level - 1)
            if self.first_key(child) != low or at + 1 < len(lows) and self.last_key(child) >= lows[at + 1]:
                raise damaged(child)

    # --- what stands in blocks that are verified

    def level(self, block: int) -> int:
        return self.met[block] - 1

    def children(self, block: int) -> List[Tuple[Key, int]]:
        text = self.block(block)
        end = HEAD + CHILD * struct.unpack_from("<I", text, 8)[0]
        return [((table, number), child) for table, number, child in struct.iter_unpack("<HQI", text[HEAD:end])]

    def first_key(self, block: int) -> Key:
        table, number = struct.unpack_from("<HQ", self.block(block), HEAD)
        return table, number

    def last_key(self, block: int) -> Key:
        """The highest key under a block."""
        while self.level(block):
            block = self.children(block)[-1][1]
        text = self.block(block)
        table, number = struct.unpack_from("<HQ", text, HEAD + ROW * (struct.unpack_from("<I", text, 8)[0] - 1))
        return table, number

    def records(self, leaves: Iterable[int]) -> Iterator[Record]:
        for leaf in leaves:
            text = self.block(leaf)
            for at in range(HEAD, HEAD + ROW * struct.unpack_from("<I", text, 8)[0], ROW):
                table, number, size, link = struct.unpack_from("<HQHI", text, at)
                if size > SHORT:
                    yield (table, number), self.block(link)[LONG_HEAD : LONG_HEAD + size]
                else:
                    yield (table, number), text[at + 12 : at + 12 + size]

    def leaves_apart(self, one: int, other: int) -> List[List[int]]:
        """The leaves of two maps that are not those of both, in their order."""
        sides = [[root] if root else [] for root in (one, other)]
        while True:
            both = {*sides[0]} & {*sides[1]}
            sides = [[it for it in side if it not in both] for side in sides]
            highest = max((self.level(it) for it in itertools.chain(*sides)), default=0)
            if highest == 0:
                return sides
            sides = [[it for block in side for it in self.opened(block, highest)] for side in sides]

    def opened(self, block: int, level: int) -> List[int]:
        """The children of a block of this level, or the block, if it lies lower."""
        return [child for _, child in self.children(block)] if self.level(block) == level else [block]

    def changes(self, one: int, other: int) -> Iterator[Change]:
        """What differs between two maps, by rising keys: the value in each of them, or None."""
        before, after = map(self.records, self.leaves_apart(one, other))
        mine, theirs = next(before, None), next(after, None)
        while mine or theirs:
            key = min(it[0] for it in (mine, theirs) if it)
            old = mine[1] if mine and mine[0] == key else None
            new = theirs[1] if theirs and theirs[0] == key else None
            if old != new:
                yield key, old, new
            mine = next(before, None) if old is not None else mine
            theirs = next(after, None) if new is not None else theirs


class Unsummed:
    """The store in a file of format 3 whose blocks have no sums. The program verifies it, once they have them."""

    def __init__(self, found: Blocks):
        self.block, first = found.block, found.slot_in_use()
        head, at = self.block(first), place_of(first)
        form, self.blocks = struct.unpack_from("<II", head, 4)
        stored, = struct.unpack_from("<I", head, at)
        if stored and stored == sum_of(first, head):
            raise Fault("its blocks have their checksums already")
        if stored or head[:4] != b"SLOT" or form != 3 or not LEAST <= self.blocks <= MOST:
            raise damaged(first)
        if self.blocks > found.size:
            raise Fault("21 BadSize")

    def copy(self, part: str) -> None:
        """Writes the blocks with their sums into a new file. One of zero bytes becomes a hole: no version has it."""
        with open(os.open(part, os.O_WRONLY | os.O_CREAT | os.O_EXCL, 0o600), "wb") as new:
            for number in range(self.blocks):
                text = self.block(number)
                if text != ZEROS:
                    new.seek(number * BLOCK)
                    new.write(exchanged(number, text))
            new.truncate(self.blocks * BLOCK)
            new.flush()
            os.fsync(new.fileno())


# --- the lines that make the new store


SPELLED = [chr(it) if 0x21 <= it <= 0x7D and it != 0x25 else f"%{it:02X}" for it in range(256)]


def spelled(value: Optional[bytes]) -> str:
    """How a value stands in a line and in an answer."""
    if value is None:
        return "~"
    if value == b"-":
        return "%2D"
    return "".join([SPELLED[it] for it in value]) or "-"


class Maker:
    """Gives the lines that make the versions of an old store, and knows what each alternative shows after them."""

    def __init__(self, old: Old):
        self.old = old
        self.parent: Dict[str, str] = {}
        self.current, self.base = {"top": 0}, {"top": 0}

    def lines(self) -> Iterator[str]:
        versions = self.old.versions
        for at, version in enumerate(versions):
            if not version.is_alternative:
                yield from self.rebase(version.owner, version.base)
                yield from self.show(version.owner, version.current)
                yield f"checkpoint {version.owner} {version.name}"
            elif version.owner:
                yield from self.new(version, self.first_base(version, versions[at + 1 :]))
        for version in versions:
            if version.is_alternative:
                yield from self.rebase(version.name, version.base)
        for version in versions:
            if version.is_alternative:
                yield from self.show(version.name, version.current)
        yield "commit"

    @staticmethod
    def first_base(alternative: Version, later: List[Version]) -> int:
        """The base that an alternative has to have first: that of its first checkpoint, if it has one."""
        own = (it.base for it in later if not it.is_alternative and it.owner == alternative.name)
        return next(own, alternative.base)

    def new(self, version: Version, base: int) -> Iterator[str]:
        yield from self.show(version.owner, base)
        yield f"new {version.name} {version.owner}"
        self.parent[version.name] = version.owner
        self.current[version.name] = self.base[version.name] = base

    def show(self, name: str, root: int) -> Iterator[str]:
        """Gives an alternative the records of a map."""
        for (table, number), _, value in self.old.changes(self.current[name], root):
            words = f"{name} {table} {number}"
            yield f"remove {words}" if value is None else f"put {words} {spelled(value)}"
        self.current[name] = root

    def rebase(self, name: str, base: int) -> Iterator[str]:
        """Gives an alternative a map as its base and records. It posts them into its parent, which shows the old base
        then, as a post demands, and whose own records follow later."""
        if self.base[name] == base:
            return
        yield from self.show(self.parent[name], self.base[name])
        yield from self.show(name, base)
        yield f"post {name}"
        self.base[name] = self.current[self.parent[name]] = base


# --- whether the new store has all of it


class Comparison:
    """Queries of the new store, and the answers that it has to give if it has what the old one has. Each version is
    compared by what differs from one that was compared before."""

    def __init__(self, old: Old):
        self.old = old

    def queries(self) -> Iterator[Tuple[str, Iterator[str]]]:
        versions = self.old.versions
        alternatives = [it for it in versions if it.is_alternative]
        yield "alts", (f"alternative {it.name} {it.owner or '~'}" for it in alternatives)
        for it in alternatives:
            own = (other.name for other in versions if not other.is_alternative and other.owner == it.name)
            yield f"checks {it.name}", (f"checkpoint {name}" for name in own)
        roots = {it.name: it for it in alternatives}
        records = self.old.changes(0, roots["top"].current)
        yield "list top", (f"record {key[0]} {key[1]} {spelled(value)}" for key, _, value in records)
        for it in alternatives[1:]:
            yield self.diff(it.owner, roots[it.owner].current, f"{it.name}@", it.base)
            yield self.diff(f"{it.name}@", it.base, it.name, it.current)
        for it in versions:
            if not it.is_alternative:
                yield self.diff(it.owner, roots[it.owner].current, f"{it.owner}@{it.name}", it.current)
        # The base of a checkpoint is that of its alternative once this goes back. No commit follows.
        for it in versions:
            if not it.is_alternative and it.owner != "top":
                yield f"back {it.owner} {it.name}", iter(())
                yield self.diff(f"{it.owner}@{it.name}", it.current, f"{it.owner}@", it.base)

    def diff(self, one: str, before: int, other: str, after: int) -> Tuple[str, Iterator[str]]:
        rows = self.old.changes(before, after)
        told = (f"change {key[0]} {key[1]} {spelled(old)} {spelled(new)}" for key, old, new in rows)
        return f"diff {one} {other}", told

    def lines(self) -> List[str]:
        return [query for query, _ in self.queries()]

    def answers(self) -> Iterator[str]:
        for query, rows in self.queries():
            count = 0
            for count, row in enumerate(rows, 1):
                yield row
            yield "ok" if query.startswith("back ") else f"end {count}"


# --- the program, and files

ENDING = signal.SIGINT, signal.SIGTERM, signal.SIGHUP


def program(said: Optional[str]) -> str:
    """The program: the one that was said, else that of the sources or the installation that this script belongs to."""
    top = os.path.dirname(os.path.dirname(os.path.realpath(__file__)))
    near = [os.path.join(top, "altctl"), os.path.join(os.path.dirname(os.path.dirname(top)), "bin", "altctl")]
    return said or os.environ.get("ALTCTL") or next(filter(os.path.exists, near), shutil.which("altctl") or "altctl")


@contextlib.contextmanager
def started(words: List[str], **streams: Union[int, BinaryIO]) -> Iterator["subprocess.Popen[bytes]"]:
    """A program, killed if what is done with it fails. A signal that comes while it starts waits until it can be."""
    before = signal.pthread_sigmask(signal.SIG_BLOCK, ENDING)
    restore = functools.partial(signal.pthread_sigmask, signal.SIG_SETMASK, before)
    try:
        ran = subprocess.Popen(words, preexec_fn=restore, **streams)
        try:
            restore()
            yield ran
        except BaseException:
            ran.kill()
            raise
        finally:
            ran.wait()
    finally:
        restore()


def run(words: List[str], lines: Iterable[str], answers: BinaryIO) -> None:
    """Gives the program lines, and its answers to a file. A refusal ends both."""
    with started(words, stdin=subprocess.PIPE, stdout=answers, stderr=subprocess.PIPE) as ran, ran.stderr:
        try:
            for line in lines:
                ran.stdin.write(f"{line}\n".encode())
            ran.stdin.close()
        except BrokenPipeError:
            pass  # The program has ended. Its status and answers tell why.
        finally:
            ran.stdin.raw.close()  # What is not yet written is dropped: nobody may be there to read it.
        said = ran.stderr.read().decode(errors="replace").strip()
    if ran.returncode:
        answers.seek(0)
        last = answers.read().decode().splitlines()[-1:]
        raise Fault(f"{words[0]} ended with status {ran.returncode}: {' '.join([*last, said])}")


def make(altctl: str, old: Old, part: str) -> None:
    """Makes the new store under its first name."""
    words = [altctl, "create", part, str(old.blocks)]
    with started(words, stdout=subprocess.DEVNULL) as ran:
        ran.wait()
    if ran.returncode:
        raise subprocess.CalledProcessError(ran.returncode, words)
    with tempfile.TemporaryFile() as answers:
        run([altctl, "run", "--strict", "--grow", part], Maker(old).lines(), answers)


def compare(altctl: str, old: Old, part: str) -> None:
    comparison = Comparison(old)
    with tempfile.TemporaryFile() as answers:
        run([altctl, "run", "--strict", part], comparison.lines(), answers)
        answers.seek(0)
        came = (line.decode().rstrip("\n") for line in answers)
        for answer, due in itertools.zip_longest(came, comparison.answers()):
            if answer != due:
                raise Fault(f"the new store differs: {str(answer)[:100]} in place of {str(due)[:100]}")


def carry_over(altctl: str, old: Old, part: str) -> Tuple[int, int]:
    """Makes the new store of one of format 1 or 2, and gives how many alternatives and checkpoints it has."""
    make(altctl, old, part)
    compare(altctl, old, part)
    alternatives = sum(it.is_alternative for it in old.versions)
    return alternatives, len(old.versions) - alternatives


def give_sums(altctl: str, old: Unsummed, part: str) -> Tuple[int, int]:
    """The same of one of format 3. A refusal of the new blocks is one of the old ones, which have the same numbers."""
    old.copy(part)
    with tempfile.TemporaryFile() as answers:
        run([altctl, "check", part], [], answers)
        answers.seek(0)
        alternatives, checkpoints, _ = (int(line.split()[1]) for line in answers)
    return alternatives, checkpoints


def name_whole(part: str, new: str) -> None:
    """Gives the new store its name, if nothing has that meanwhile."""
    try:
        os.link(part, new)
        os.remove(part)
    except FileExistsError:
        raise
    except OSError:  # A file system without hard links.
        if os.path.lexists(new):
            raise Fault(f"{new} is there") from None
        os.rename(part, new)
    folder = os.open(os.path.dirname(os.path.abspath(new)), os.O_RDONLY)
    os.fsync(folder)
    os.close(folder)


def upgrade(old_name: str, new_name: str, altctl: str) -> str:
    part = f"{new_name}.part"
    mode = os.stat(old_name).st_mode
    if not stat.S_ISREG(mode) and not stat.S_ISBLK(mode):
        raise Fault(f"{old_name} is no file")
    with open(old_name, "rb") as file, contextlib.ExitStack() as undone:
        try:
            fcntl.flock(file, fcntl.LOCK_SH | fcntl.LOCK_NB)
        except BlockingIOError:
            raise Fault(f"{old_name} is in use") from None
        for name in (new_name, part):
            if os.path.lexists(name):
                raise Fault(f"{name} is there")
        try:
            found = Blocks(file)
            old = Unsummed(found) if found.block(0) == header(3) else Old(found)
        except Fault as fault:
            raise Fault(f"{old_name}: {fault}") from None
        undone.callback(lambda: os.path.lexists(part) and os.remove(part))
        done = give_sums(altctl, old, part) if isinstance(old, Unsummed) else carry_over(altctl, old, part)
        name_whole(part, new_name)
        return "upgraded: {} alternatives, {} checkpoints".format(*done)


def end(number: int, _: object) -> None:
    sys.exit(128 + number)


def main() -> int:
    words = argparse.ArgumentParser(description=__doc__.split("\n")[0].split(":")[0])
    older = "the store of format 1 or 2, or of format 3 without checksums, which is only read"
    words.add_argument("old", metavar="OLD", help=older)
    words.add_argument("new", metavar="NEW", help="the file of the new store, which must not exist")
    words.add_argument("altctl", metavar="ALTCTL", nargs="?", help="the program, which has checksums")
    said = words.parse_args()
    for number in ENDING:
        signal.signal(number, end)
    try:
        print(upgrade(said.old, said.new, program(said.altctl)))
    except (Fault, OSError, subprocess.CalledProcessError) as fault:
        print(f"upgrade: {fault}", file=sys.stderr)
        return 1
    return 0


if __name__ == "__main__":
    sys.exit(main())
