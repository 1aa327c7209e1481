#!/usr/bin/env python3
"""Copies stores that are in use: `tools/faults/copy_beside.py [ALTCTL]`. If a copy is not what was committed, it says
so and ends with status 1.

A session puts 50,000 records that no commit follows, first so that they wait in memory, then so that they are in the
file. A copy beside it, between two lines, must be what was committed before, byte for byte, and after a commit what was
committed then. Without `--no-lock` the copy is refused; beside sessions that only read it is made, and with `--wait` it
waits. Then a store of 511 alternatives and checkpoints that share blocks is copied to several sizes. The model of
`tools/faults/compare.py` says what a copy must be. It stands beside the gate.
"""
import os
import random
import subprocess
import sys
import tempfile
import threading

sys.dont_write_bytecode = True
from compare import BLOCK, FIRST, Session, Store, checked, read, started

BLOCKS, SMALLER, RECORDS, CHANGED = 8192, 6144, 50000, 10000
ENTRIES = 511


class Failure(Exception):
    """A copy is not as it should be."""


def expect(what, due, came):
    if due != came:
        raise Failure(f"{what}: expected {str(due)[:200]}, and came {str(came)[:200]}")


def opened(text):
    """The model over the bytes of a file."""
    store = Store(64)
    store.disk = [text[at : at + BLOCK] for at in range(0, len(text), BLOCK)]
    store.open()
    return store


def copy(altctl, options, file, to, blocks=None):
    """Copies a store, which stays as it is, and gives the bytes of the copy and how many of its blocks are in use."""
    before, words = read(file), [] if blocks is None else [str(blocks)]
    status, said, faults = started(altctl, "copy", *options, file, to, *words)
    expect(f"a copy of {file}: status and standard error", (0, ""), (status, faults))
    expect(f"{file} after a copy", True, read(file) == before)
    text, used = read(to), int(said.split()[2])
    expect(f"a copy of {file}: what is said", f"copied {len(text) // BLOCK}, {used} used\n", said)
    expect(f"a check of a copy of {file}", None, checked(altctl, to, opened(text)))
    os.remove(to)
    return text, used


def records_in(text):
    """The records of top that a file of these bytes shows."""
    store = opened(text)
    return store.records(store.working[0].current)


class Puts:
    """Records that a session puts into top, in random order."""

    def __init__(self, rng, session):
        self.rng, self.session, self.records, self.size = rng, session, {}, 0

    def say(self, lines):
        """Sends lines that are answered `ok` each."""
        self.size += 3 * len(lines)
        self.session.say("".join(f"{it}\n" for it in lines).encode(), self.size)

    def put(self, count, text):
        """Puts this many records. The value of each is this text and its number."""
        numbers = self.rng.sample(range(RECORDS), count)
        self.say([f"put top 1 {number} {text}{number}" for number in numbers])
        self.records.update({(1, number): f"{text}{number}".encode() for number in numbers})


def try_session(altctl, folder, options):
    """Copies beside a session that changes the store."""
    file, to = os.path.join(folder, "store"), os.path.join(folder, "copy")
    expect("create", (0, f"created {BLOCKS}\n", ""), started(altctl, "create", file, str(BLOCKS)))
    puts = Puts(random.Random(1), Session(altctl, options, file))
    puts.put(CHANGED, "old")
    puts.say(["checkpoint top before", "new north top", "commit"])
    committed = dict(puts.records)
    first, used = copy(altctl, ["--no-lock"], file, to)
    expect("a copy of what was committed", committed, records_in(first))
    expect("its blocks in use", FIRST + len(opened(first).held), used)
    puts.put(RECORDS, "new")
    puts.say(["drop north"])
    text, _ = copy(altctl, ["--no-lock"], file, to)
    expect("a copy beside changes that no commit followed", True, text == first)
    expect("a copy without --no-lock", (1, "", f"altctl: {file} is in use\n"), started(altctl, "copy", file, to))
    expect("a copy that was refused", False, os.path.exists(to))
    puts.say(["commit"])
    text, used = copy(altctl, ["--no-lock"], file, to, SMALLER)
    expect("a copy of what was committed at last", puts.records, records_in(text))
    expect("its alternatives and checkpoints", ["top", "before"], [it.name for it in opened(text).working])
    expect(
        "the end",
        (0, puts.size, b""),
        [(status, len(said), faults) for status, said, faults in [puts.session.end()]][0],
    )
    os.remove(file)


def try_readers(altctl, folder):
    """Copies beside sessions that only read, and waits for one that may change the store."""
    file, to = os.path.join(folder, "read"), os.path.join(folder, "copy")
    started(altctl, "create", file, "64")
    expect("a record", (0, "ok\nok\n", ""), started(altctl, "do", file, "put top 1 1 a", "commit"))
    readers = [Session(altctl, ["--read-only"], file) for _ in range(2)]
    for it in readers:
        it.say(b"get top 1 1\n", len("value a\n"))
    text, used = copy(altctl, [], file, to)
    expect("a copy beside readers", ({(1, 1): b"a"}, FIRST + 1), (records_in(text), used))
    for it in readers:
        expect("a reader", (0, "value a\n", b""), it.end())
    writer = Session(altctl, [], file)
    writer.say(b"put top 1 1 b\ncommit\n", len("ok\nok\n"))
    waiting = threading.Timer(0.3, writer.end)
    waiting.start()
    text, _ = copy(altctl, ["--wait"], file, to)
    expect("a copy that waited", {(1, 1): b"b"}, records_in(text))
    waiting.join()
    os.remove(file)


def try_entries(altctl, folder):
    """Copies a store with as many alternatives and checkpoints as there may be, and values of all lengths."""
    file, to = os.path.join(folder, "entries"), os.path.join(folder, "copy")
    started(altctl, "create", file, "8192")
    rng, lines = random.Random(2), []
    for number in range(1, ENTRIES):
        kind = f"new a{number} top" if number % 3 else f"checkpoint top c{number}"
        lines += [
            f"put top {rng.randrange(3)} {rng.randrange(40)} "
            f"{chr(97 + number % 26) * rng.choice([1, 240, 2100, 4000])}",
            kind,
        ]
        if number % 3 and rng.random() < 0.3:
            lines.append(f"put a{number} 7 1 {'%00' * rng.choice([1, 300, 4000])}")
    session, size = Session(altctl, [], file), 3 * len(lines) + 3
    session.say("".join(f"{it}\n" for it in [*lines, "commit"]).encode(), size)
    expect("lines of a store with 511 entries", (0, "ok\n" * (size // 3), b""), session.end())
    store = opened(read(file))
    used = FIRST + len(store.reached(store.committed))
    expect("entries", ENTRIES, len(store.committed))
    for blocks in (None, used, used + 1, 20000):
        text, came = copy(altctl, [], file, to, blocks)
        expect(f"blocks in use, of {blocks}", used, came)
        expect(f"a copy of 511 entries to {blocks} blocks", True, text == b"".join(store.copied(blocks or 8192).disk))
    full = started(altctl, "copy", file, to, str(used - 1))
    expect("a copy to too few blocks", (1, "", "altctl: 13 Full\n", False), (*full, os.path.exists(to)))
    os.remove(file)


def main():
    beside = os.path.join(os.path.dirname(os.path.abspath(__file__)), "..", "..", "altctl")
    altctl = os.path.abspath((sys.argv[1:] or [beside])[0])
    try:
        with tempfile.TemporaryDirectory() as folder:
            for options in ([], ["--buffer", "0"]):
                try_session(altctl, folder, options)
            try_readers(altctl, folder)
            try_entries(altctl, folder)
    except (Failure, subprocess.TimeoutExpired) as failure:
        print(f"copy_beside: {failure}", file=sys.stderr)
        return 1
    print("copy_beside: each copy is what was committed before it")
    return 0


if __name__ == "__main__":
    sys.exit(main())
