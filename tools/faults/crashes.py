#!/usr/bin/env python3
"""Tries what a crash of the machine may leave of the program's writes: `tools/faults/crashes.py [-n SESSIONS] [-s SEED]
[-i IMAGES]`. Where something is lost, it says so and ends with status 1.

A session is random lines, given one at a time, and each call that changes the file, or makes it last, is recorded. For
each moment, before, in and after each of these calls, files are made as a crash then may leave them: with all that was
synced, any bytes in the blocks that were written since, and as much of a growth as may be. The program opens each of
them, and has to show what the last commit that was acknowledged made, or the one that was under way. The next lines of
the session are run over one of these files. So are the calls of a copy of the store: up to the header's write each of
these files is no store, in it no store or the whole copy. The model is that of `tools/faults/compare.py`.

With `--broken` the files are made wrongly, so that it has to fail: `block` forgets a block that was synced, and `sync`
takes every second sync for none.

It needs a C compiler, and a program that is linked against glibc. It stands beside the gate: the store is proved
against crashes of a modelled disk, this tries the calls that the system gets.
"""
import argparse
import os
import random
import struct
import subprocess
import sys
import tempfile
from collections import Counter
from typing import NamedTuple

sys.dont_write_bytecode = True
from compare import BLOCK, FIRST, LEAST, Editor, Refused, Store, read, started
from kill import Failure, Program, unlike
from preloaded import PROGRAM, build_program, compiled, preloaded

OPTIONS = [["--buffer", "0"], ["--buffer", "1"], ["--buffer", "2"], ["--buffer", "64"], []]
# So often a session is begun anew over what a crash left, and so many lines are run each time.
ROUNDS, LINES = 3, 150
COMMITS = 0.1
# What stands in the blocks that were not synced: in all of them the same, or in each something else.
KINDS = ["old", "written", "torn", "junk"]
# The files stand in memory where they can, since a sync costs nothing there.
MEMORY = "/dev/shm" if os.path.isdir("/dev/shm") else None


# --- what a crash may leave


class Call(NamedTuple):
    """A call that was recorded: its kind, its place and size, the bytes of a write, and where the record of it ends."""

    kind: int
    place: int
    size: int
    text: bytes
    end: int


WRITE, LENGTH, SYNC = range(3)
# The block that names the slot in use.
SELECTOR = 1
ZERO = bytes(BLOCK)


def recorded(file):
    """The calls that were recorded in a file."""
    text, calls, at = read(file), [], 0
    while at < len(text):
        kind, place, size = struct.unpack_from("=QQQ", text, at)
        at += 24
        written = text[at : at + size] if kind == WRITE else b""
        at += len(written)
        calls.append(Call(kind, place, size, written, at))
    return calls


def blocks_of(text):
    """The blocks of a file, the last one filled up by zeros."""
    return [text[at : at + BLOCK].ljust(BLOCK, b"\0") for at in range(0, len(text), BLOCK)]


class Disk:
    """A file as it was synced, with all that each block held since."""

    def __init__(self, text, broken=None):
        self.synced, self.sure = blocks_of(text), len(text)
        self.held, self.length = {}, len(text)
        self.broken, self.syncs, self.before = broken, 0, {}

    def lasting(self, block):
        return self.synced[block] if block < len(self.synced) else ZERO

    def apply(self, call):
        if call.kind == SYNC:
            self.syncs += 1
            if self.broken != "sync" or self.syncs % 2:
                self.sync()
        elif call.kind == LENGTH:
            self.lengthen(call.size)
        else:
            self.write(call)

    def write(self, call):
        if call.place % BLOCK or call.size % BLOCK:
            raise Failure(f"{call.size} bytes are written at {call.place}")
        for at in range(0, call.size, BLOCK):
            block, written = (call.place + at) // BLOCK, call.text[at : at + BLOCK]
            if not self.is_rewritten(block, written):
                self.held.setdefault(block, [self.lasting(block)]).append(written)
        self.length = max(self.length, call.place + call.size)

    def is_rewritten(self, block, written):
        """Whether the selector is written as it was synced, which every opening does: that leaves it as it is, torn or
        not."""
        return block == SELECTOR and block not in self.held and written == self.lasting(block)

    def lengthen(self, length):
        if length < self.length:
            raise Failure(f"the file is cut to {length} bytes")
        for block in range(self.length // BLOCK, -(-length // BLOCK)):
            self.held.setdefault(block, [self.lasting(block)])
        self.length = length

    def sync(self):
        self.before = {block: held[0] for block, held in self.held.items() if held[0] != held[-1]}
        self.synced = [self.newest(block) for block in range(-(-self.length // BLOCK))]
        self.held, self.sure = {}, self.length

    def newest(self, block):
        return self.held[block][-1] if block in self.held else self.lasting(block)

    def text(self):
        """The file without a crash."""
        return b"".join(map(self.newest, range(-(-self.length // BLOCK))))[: self.length]

    def crashed(self, chance):
        """A file that a crash may leave."""
        kind = chance.choice([*KINDS, "any", "any"])
        length = chance.choice([self.sure, self.length, chance.randint(self.sure, self.length)])
        blocks = [self.lasting(block) for block in range(-(-length // BLOCK))]
        for block in sorted(self.held):
            if block < len(blocks):
                its = kind if kind != "any" else chance.choice(KINDS)
                blocks[block] = left_of(chance, its, self.held[block], lambda: chance.choice(self.synced or [ZERO]))
        if self.broken == "block" and self.before:
            forgotten = chance.choice(sorted(self.before))
            blocks[forgotten] = self.before[forgotten]
        return b"".join(blocks)[:length]


def left_of(chance, kind, held, synced):
    """What a crash leaves of a block that held this since the last sync. SYNCED gives any block as it was synced, which
    is junk in the place of this one."""
    if kind == "old":
        return held[0]
    if kind == "written":
        return held[-1] if chance.random() < 0.7 else chance.choice(held)
    if kind == "torn":
        return torn(chance, held[-1], chance.choice(held))
    return chance.choice([ZERO, chance.randbytes(BLOCK), synced()])


def torn(chance, one, other):
    """A block of the bytes of two: cut in two, or each sector of one of them."""
    if chance.random() < 0.5:
        cut = chance.randrange(BLOCK)
        return one[:cut] + other[cut:] if chance.random() < 0.5 else other[:cut] + one[cut:]
    return b"".join(chance.choice((one, other))[at : at + 512] for at in range(0, BLOCK, 512))


# --- a session


def answer(store, words):
    """What the model answers."""
    try:
        return store.apply(words)
    except Refused as refused:
        return refused.text


def opened(disk):
    """The model over the blocks of a file."""
    store = Store(64)
    store.disk = list(disk)
    store.open()
    return store


class Commit:
    """A commit: what was recorded before its line and at its answer, in bytes, and what the file shows from then on."""

    def __init__(self, first, last, disk):
        self.first, self.last = first, last
        self.store, self.answers = opened(disk), {}
        self.names = [it.name for it in self.store.working if it.tag == b"A"]

    def shown(self, queries):
        """What the queries are answered, one line each."""
        for words in queries:
            if words not in self.answers:
                self.answers[words] = answer(self.store, words).split("\n")
        return [line for words in queries for line in self.answers[words]]


def exchange(program, store, line, words):
    """Sends a line, and compares its answer with the model's. Words are what they are in `compare.Editor`."""
    program.send([line[:-1]])
    if words is None:
        return
    is_command = isinstance(words, list)
    expected = (answer(store, words) if is_command else words).split("\n")
    came = program.answer(words[0] if is_command else "")
    if came != expected:
        raise Failure(unlike(line[:-1], expected, came or []))


def session(chance, editor, file, options, variables, count):
    """Has the program run random lines over a file, and gives the commits. The first is the one that the file showed at
    first."""
    store = opened(blocks_of(read(file)))
    commits = [Commit(0, 0, store.disk)]
    program = Program(PROGRAM, file, options, variables)
    try:
        # With the first answer the file has been opened.
        exchange(program, store, "free\n", ["free"])
        for _ in range(chance.randrange(LINES // 2, LINES)):
            line, words = ("commit\n", ["commit"]) if chance.random() < COMMITS else editor.line(store)
            first = os.path.getsize(variables["RECORDED"])
            exchange(program, store, line, words)
            count["lines"] += 1
            if words == ["commit"]:
                commits.append(Commit(first, os.path.getsize(variables["RECORDED"]), store.disk))
        program.end(0)
    finally:
        program.process.kill()
        program.process.wait()
    return commits


class Crashes:
    """The crashes of one session."""

    def __init__(self, chance, commits, image, most, count):
        self.chance, self.commits, self.image, self.most, self.count = chance, commits, image, most, count
        self.seen, self.kept, self.number = set(), None, 0
        # Where the parts begin and end that are asked for, and how many records of a page.
        self.ends = [chance.randrange(40) for _ in range(3)]

    def try_calls(self, disk, calls):
        """Looks at the moments in each call and after it. In a sync a crash may leave what it may leave before it."""
        done = 0
        for number, call in enumerate(calls, 1):
            self.count["calls"] += 1
            if call.kind != SYNC:
                disk.apply(call)
            self.try_moment(disk, done, call.end, f"in call {number}")
            if call.kind == SYNC:
                disk.apply(call)
            done = call.end
            self.try_moment(disk, done, done, f"after call {number}")

    def try_moment(self, disk, done, begun, when):
        """Looks at files that a crash may leave at a moment: so much of the record is done then, and so much is
        begun."""
        last = max(n for n, it in enumerate(self.commits) if it.last <= done)
        under_way = [it for it in self.commits[last + 1 :] if it.first < begun]
        allowed = [self.commits[last], *under_way]
        for _ in range(self.most * (1 + 2 * len(under_way))):
            text = disk.crashed(self.chance)
            mark = hash(text), last, len(allowed)
            if mark in self.seen:
                continue
            self.seen.add(mark)
            self.number += 1
            self.count["images"] += 1
            shown = self.look(text, allowed, f"a crash {when}, image {self.number}")
            self.count["images in a commit"] += len(allowed) > 1
            self.count["images in a commit that show it"] += shown > 0
            if self.chance.random() < 1 / self.number:
                self.kept = text

    def look(self, text, allowed, how):
        """Opens a file, and gives which of these commits it shows."""
        with open(self.image, "wb") as it:
            it.write(text)
        names = sorted({name for it in allowed for name in it.names})
        queries = [("alts",), ("free",), *((verb, name) for name in names for verb in ("list", "checks", "changes"))]
        queries += [it for name in names for it in self.parts(name)]
        lines = "".join(" ".join(map(str, words)) + "\n" for words in queries)
        ran = subprocess.run([PROGRAM, "run", self.image], input=lines, capture_output=True, text=True, timeout=60)
        if ran.returncode or ran.stderr:
            raise Failure(f"{how}: status {ran.returncode}, {ran.stderr!r}")
        came = ran.stdout.splitlines()
        for at, commit in enumerate(allowed):
            if commit.shown(queries) == came:
                return at
        raise Failure("\n".join(unlike(how, commit.shown(queries), came) for commit in allowed))

    def parts(self, name):
        """Queries of parts of an alternative, of its base, and of what differs between them."""
        first, last, count = self.ends
        diffs = ("diff", f"{name}@", name, 7), ("diff", name, "top", 1, 0, last)
        return ("list", f"{name}@", 1, first, last), ("next", name, 1, first, count), *diffs


def make_store(chance, file):
    """Makes a store, some with a tree of two levels, and some with a slot of two blocks."""
    subprocess.run([PROGRAM, "create", file, str(chance.choice([64, 100, 200]))], stdout=subprocess.DEVNULL, check=True)
    lines = [f"put top 1 {number} {'v' * 300}" for number in range(chance.choice([0, 17]))]
    lines += [f"checkpoint top c{number}" for number in range(chance.choice([0, 40]))]
    text = "".join(line + "\n" for line in [*lines, "commit"])
    ran = subprocess.run([PROGRAM, "run", file], input=text, capture_output=True, text=True, timeout=60)
    if (ran.returncode, ran.stdout, ran.stderr) != (0, "ok\n" * (len(lines) + 1), ""):
        raise Failure(f"a new store: {ran}")


def copy_store(chance, file, to, variables):
    """Copies a store, and gives the blocks of the copy that the model makes."""
    store, before = opened(blocks_of(read(file))), read(file)
    used = FIRST + len(store.reached(store.committed))
    blocks = max(LEAST, used + chance.choice([0, 0, 1, 40]))
    ran = subprocess.run(
        [PROGRAM, "copy", file, to, str(blocks)], capture_output=True, text=True, env=variables, timeout=60
    )
    if (ran.returncode, ran.stdout, ran.stderr) != (0, f"copied {blocks}, {used} used\n", ""):
        raise Failure(f"a copy: {ran}")
    if read(file) != before:
        raise Failure("a copy changed the store")
    return store.copied(blocks).disk


class CopyCrashes:
    """The crashes of one copy, of which `whole` are the bytes."""

    def __init__(self, chance, image, whole, most, count):
        self.chance, self.image, self.whole, self.most, self.count = chance, image, whole, most, count
        self.seen = set()

    def try_calls(self, disk, calls):
        """Looks at the moments in each call and after it. The last but one writes the header, and the last one makes it
        last."""
        for number, call in enumerate(calls, 1):
            self.count["calls of copies"] += 1
            if call.kind != SYNC:
                disk.apply(call)
            self.try_moment(disk, number >= len(calls) - 1, False, f"in call {number}")
            if call.kind == SYNC:
                disk.apply(call)
            self.try_moment(disk, number >= len(calls) - 1, number == len(calls), f"after call {number}")

    def try_moment(self, disk, may_be_whole, is_whole, when):
        """Looks at files that a crash may leave at a moment: each is the whole copy or no store."""
        for _ in range(self.most):
            text = disk.crashed(self.chance)
            mark = hash(text), may_be_whole, is_whole
            if mark in self.seen:
                continue
            self.seen.add(mark)
            self.count["images of copies"] += 1
            with open(self.image, "wb") as it:
                it.write(text)
            came = started(PROGRAM, "check", self.image)
            shows = text == self.whole and may_be_whole
            self.count["images of copies that show the store"] += shows
            if is_whole and not shows or not shows and came != (1, "", "altctl: 19 NotAStore\n") or shows and came[0]:
                raise Failure(f"a crash of a copy {when} leaves what is answered {came}")


def try_copy(chance, file, library, said, count):
    """Copies a store, and tries crashes of the copy."""
    to, record, image = (f"{file}.{name}" for name in ("copy", "calls", "image"))
    # It gets its name after the last call.
    whole = b"".join(copy_store(chance, file, to, preloaded(library, store=f"{to}.part", recorded=record)))
    disk, calls = Disk(b"", said.broken), recorded(record)
    if [it.kind for it in calls[-2:]] != [WRITE, SYNC] or calls[-2].place:
        raise Failure("a copy does not end with the write of the header, and a sync")
    CopyCrashes(chance, image, whole, said.i, count).try_calls(disk, calls)
    if not read(to) == disk.text() == whole:
        raise Failure("the copy is not what the recorded calls made, or not what the model makes")
    for name in (to, record, image):
        os.remove(name)


def run_session(seed, folder, library, said, count):
    """Runs one session, and tries crashes of it."""
    chance, options = random.Random(seed), OPTIONS[seed % len(OPTIONS)]
    file, record, image = (os.path.join(folder, name) for name in ("store", "calls", "image"))
    make_store(chance, file)
    editor = Editor(chance)
    editor.growth, editor.width = 0.04, chance.choice([3, 20, 60, 400])
    for number in range(1, ROUNDS + 1):
        try:
            disk = Disk(read(file), said.broken)
            commits = session(chance, editor, file, options, preloaded(library, store=file, recorded=record), count)
            crashes = Crashes(chance, commits, image, said.i, count)
            crashes.try_calls(disk, recorded(record))
            if read(file) != disk.text():
                raise Failure("the file is not what the recorded calls made")
            try_copy(chance, file, library, said, count)
        except Failure as failure:
            raise Failure(f"seed {seed}, {' '.join(options) or 'no options'}, round {number}: {failure}") from None
        os.remove(record)
        with open(file, "wb") as it:
            it.write(crashes.kept)
    os.remove(file)


def main():
    parser = argparse.ArgumentParser(description=__doc__.split(":")[0])
    parser.add_argument("-n", type=int, default=12, help="so many sessions")
    parser.add_argument("-s", type=int, default=1, help="the first seed")
    parser.add_argument(
        "-i", type=int, default=3, help="so many files at most for a moment, three times as many in a commit"
    )
    parser.add_argument("--broken", choices=["block", "sync"], help="make the files wrongly, so that it fails")
    said = parser.parse_args()
    count = Counter()
    build_program()
    try:
        with tempfile.TemporaryDirectory(dir=MEMORY) as folder:
            library = compiled("record_calls", folder)
            for seed in range(said.s, said.s + said.n):
                run_session(seed, folder, library, said, count)
    except Failure as failure:
        print(f"crashes: {failure}", file=sys.stderr)
        return 1
    print(f"crashes: each shows what was acknowledged: {said.n} sessions from seed {said.s}")
    for what, number in count.items():
        print(f"    {number} {what}")
    return 0


if __name__ == "__main__":
    sys.exit(main())
