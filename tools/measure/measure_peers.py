#!/usr/bin/env python3
"""Measures loads, gets, lists and designs beside plain C, LMDB and SQLite in one run, and prints tables in Markdown:
`tools/measure/measure_peers.py [-n RECORDS ..] [-r ROUNDS] [--cache BLOCKS] [--only NAME ..] [ALTCTL]`.

Maps of 100,000 and of 1,000,000 records (-n has other numbers), with values of 200 bytes and with the mixture of a
network (`measure_sizes.py`): puts in random order in one commit, then in the same session 100,000 gets and a list of
all; puts by rising keys; puts in random order with a commit after each 100; and 1,000 designs that are made, changed at
one record, posted and dropped, which LMDB and SQLite don't have. LMDB is measured as it comes, and by a map that it
writes through (MDB_WRITEMAP). Plain C is `plain.c`, the same format by hand. All get the same lines, and all their
answers have to be the same.

A time is the middle one of ROUNDS, with the wait for the disk; behind it stands that of the processor. Programs whose
library is not installed are left out. Times are looked at, never tested: the status tells only whether all was
answered alike."""
import argparse
import os
import random
import subprocess
import sys
import tempfile

sys.dont_write_bytecode = True
from compiled import Compiler
from measure_sizes import TOP, VALUES

GETS, DESIGNS, EACH = 100000, 1000, 100
INPUT = 3


def fail(why):
    sys.exit(f"measure_peers: {why}")


class Step:
    """Lines, with what comes of them. `rows` is how many rows a list has: programs ask for it by different words."""

    def __init__(self, name, lines, answers, rows=0):
        self.name, self.lines, self.answers, self.rows = name, lines, answers, rows

    def lines_for(self, peer):
        if not self.rows:
            return self.lines
        return b"list top\n" if peer.has_designs else b"next top 1 0 %d\n" % self.rows


class Peer:
    """A program that answers lines, run with these options."""

    def __init__(self, name, program, has_designs, options=()):
        self.name, self.program, self.has_designs, self.options = name, program, has_designs, options

    def create(self, file, blocks):
        if self.has_designs:
            subprocess.run([self.program, "create", file, str(blocks)], stdout=subprocess.DEVNULL, check=True)


def values_of(records, size_of):
    """What each record holds."""
    rng = random.Random(1)
    return [b"v" * size_of(rng) for _ in range(records + 1)]


def puts(numbers, values, each=0):
    """A load, with a commit after each so many puts, or one at its end."""
    lines = []
    for count, number in enumerate(numbers, 1):
        lines.append(b"put top 1 %d %s\n" % (number, values[number]))
        if each and count % each == 0:
            lines.append(b"commit\n")
    if not each:
        lines.append(b"commit\n")
    return b"".join(lines), b"ok\n" * len(lines)


def sessions(records, size_of):
    """What is done to one new store after another: steps of one session."""
    values, numbers = values_of(records, size_of), list(range(1, records + 1))
    rng = random.Random(2)
    shuffled = rng.sample(numbers, records)
    asked = [rng.choice(numbers) for _ in range(GETS)]
    gets = b"".join(b"get top 1 %d\n" % it for it in asked)
    found = b"".join(b"value %s\n" % values[it] for it in asked)
    listed = b"".join(b"record 1 %d %s\n" % (it, values[it]) for it in numbers) + b"end %d\n" % records
    changed = [rng.choice(numbers) for _ in range(DESIGNS)]
    cycles = b"".join(b"new d top\nput d 1 %d %s\npost d\ndrop d\n" % (it, values[it][::-1]) for it in changed)
    yield [
        Step("puts in random order, one commit", *puts(shuffled, values)),
        Step(f"{GETS:,} gets", gets, found),
        Step("a list", b"", listed, rows=records),
        Step(f"{DESIGNS:,} designs made, changed, posted, dropped", cycles, b"ok\n" * 4 * DESIGNS),
    ]
    yield [Step("puts by rising keys, one commit", *puts(numbers, values))]
    yield [Step(f"puts in random order, a commit after each {EACH}", *puts(shuffled, values, EACH))]


class Bench(Compiler):
    """Where files and compiled programs lie."""

    def __init__(self, folder, altctl, options, only):
        super().__init__(folder)
        self.nothing = os.open(os.devnull, os.O_RDONLY)
        self.timed = self.compiled("timed", "timed.c") or fail("no C compiler")
        named = [
            Peer("altctl", altctl, True, options),
            Peer("plain", self.compiled("plain", "plain.c"), True),
            Peer("LMDB", self.compiled("lmdb", "peers.c", "-DLMDB", "-llmdb"), False),
            Peer("LMDB by a map", self.compiled("lmdb_map", "peers.c", "-DLMDB", "-DBY_MAP", "-llmdb"), False),
            Peer("SQLite", self.compiled("sqlite", "peers.c", "-lsqlite3"), False),
        ]
        self.peers = [it for it in named if it.program and (not only or it.name in only)]
        for it in named:
            if not it.program:
                print(f"measure_peers: {it.name} is left out: it is not installed", file=sys.stderr)

    def write(self, name, text):
        with open(self.path(name), "wb") as file:
            file.write(text)

    def ask(self, peer, process, step):
        """Has the lines of a step answered. Gives the nanoseconds of it, and those of a processor."""
        self.write("lines", step.lines_for(peer))
        open(self.path("answers"), "wb").close()
        words = [self.timed, "ask", str(process.pid), self.path("lines"), self.path("answers"), str(len(step.answers))]
        ran = subprocess.run(words, pass_fds=[INPUT], stdout=subprocess.PIPE)
        with open(self.path("answers"), "rb") as file:
            if ran.returncode or file.read() != step.answers:
                fail(f"{peer.name}: other answers to {step.name}")
        return tuple(int(it) for it in ran.stdout.split())

    def session(self, peer, steps, blocks):
        """Does the steps over a new store, and gives the times of each that the program has."""
        with tempfile.TemporaryDirectory(dir=self.folder) as room:
            file = os.path.join(room, "store")
            peer.create(file, blocks)
            its, ours = os.pipe()
            with open(self.path("answers"), "ab") as answers:
                process = subprocess.Popen([peer.program, "run", *peer.options, file], stdin=its, stdout=answers)
            os.close(its)
            os.dup2(ours, INPUT)
            os.close(ours)
            done = [step for step in steps if peer.has_designs or "designs" not in step.name]
            took = [self.ask(peer, process, step) for step in done]
            os.dup2(self.nothing, INPUT)
            if process.wait():
                fail(f"{peer.name} ended with status {process.returncode}")
            return {step.name: it for step, it in zip(done, took)}


def middle(times):
    return sorted(times)[len(times) // 2]


def told(took, ours):
    """A time, that of the processor, and the ratio of ours to it."""
    if took is None:
        return "-"
    elapsed, worked = took
    unit = (lambda it: f"{it / 1e9:.2f} s") if elapsed >= 1e9 else (lambda it: f"{it / 1e6:.0f} ms")
    ratio = "" if took is ours else f", {ours[0] / elapsed:.2f}"
    return f"{unit(elapsed)} ({unit(worked)}){ratio}"


def main():
    words = argparse.ArgumentParser(description=__doc__.split(":")[0])
    words.add_argument("-n", type=int, action="append", help="how many records, in place of 100,000 and a million")
    words.add_argument("-r", type=int, default=3, help="how many rounds")
    words.add_argument("--cache", help="how many blocks altctl keeps in memory, in place of 256")
    words.add_argument("--only", action="append", help="these programs alone, besides altctl")
    words.add_argument("altctl", nargs="?", default=os.path.join(TOP, "crates/altctl/out/altctl"))
    said = words.parse_args()
    # So no file that is opened below gets this number.
    os.dup2(os.open(os.devnull, os.O_RDONLY), INPUT)
    with tempfile.TemporaryDirectory() as folder:
        options = ["--cache", said.cache] if said.cache else []
        bench = Bench(folder, os.path.abspath(said.altctl), options, said.only and ["altctl", *said.only])
        names = [it.name for it in bench.peers]
        for records in said.n or [100000, 1000000]:
            for what in ("200 bytes", "a network's mixture"):
                print(f"\n| {records:,} records of {what} | {' | '.join(names)} |")
                print("|---|" + "---|" * len(names), flush=True)
                for steps in sessions(records, VALUES[what]):
                    rounds = []
                    for _ in range(said.r):
                        rounds.append({it.name: bench.session(it, steps, 4096 + records // 3) for it in bench.peers})
                    for step in steps:
                        times = {
                            name: middle([it[name][step.name] for it in rounds])
                            for name in names if step.name in rounds[0][name]
                        }
                        row = " | ".join(told(times.get(name), times["altctl"]) for name in names)
                        print(f"| {step.name} | {row} |", flush=True)
        print(f"\nLoad of the machine at the end: {os.getloadavg()[0]:.1f}, on {os.cpu_count()} processors.")
    return 0


if __name__ == "__main__":
    sys.exit(main())
