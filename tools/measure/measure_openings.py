#!/usr/bin/env python3
"""Measures openings and large stores, and prints tables in Markdown: `tools/measure/measure_openings.py [-n RECORDS,..]
[-r ROUNDS] [--parts openings,large,largest,before] [--before OLD] [--large RECORDS] [--folder FOLDER] [PROGRAM]`.

openings  maps of 100,000, 1,000,000 and 8,000,000 records (-n has other numbers), put in random order in one commit,
          beside LMDB and SQLite: from the start of the program to its first answer, with the file in the system's
          memory and without, the first change after it, a program that answers one `get` and ends, and the greatest
          memory
large     one map of 40,000,000 records of 200 bytes, by rising keys: load, opening, a merge of 100, a marking, a copy,
          a check. It needs 25 GB in FOLDER
largest   what costs more in a store of 67,108,864 blocks, nearly all of them a hole, than in one of 65,536
before    a marking with 400 designs of 100 changes each, and 2,000 changes of a store that is full, by this program and
          by an earlier one

A cold file is one of which the system has no page, for which it drops all that it can (so this needs root, and slows
down whatever else runs here); the program itself is in memory. PROGRAM is the program as it is built, and no script,
which takes longer to start than the opening takes. All get large pages. LMDB and SQLite are left out where Debian's
liblmdb-dev and libsqlite3-dev are not installed. Each time is the middle one of ROUNDS. The load of the machine stands
below the tables. Times are looked at, never tested: the status tells only whether all was answered."""
import argparse
import os
import random
import shutil
import subprocess
import sys
import tempfile
import time
from typing import NamedTuple

sys.dont_write_bytecode = True
from compiled import Compiler
from measure_sizes import VALUES, load

TOP = os.path.join(os.path.dirname(os.path.abspath(__file__)), "..", "..")
PROGRAM = os.path.join(TOP, "crates/altctl/out/altctl")
BLOCK, MOST = 4096, 1 << 26
KINDS = {"16 bytes": "16 bytes", "200 bytes": "200 bytes", "mixture": "a network's mixture"}
ENVIRONMENT = {**os.environ, "GLIBC_TUNABLES": "glibc.malloc.hugetlb=1"}


class Store(NamedTuple):
    """A program that answers lines over a file of its own."""

    name: str
    program: str

    @property
    def words(self):
        return [self.program, "run"]


class Took(NamedTuple):
    """Lines that were answered: the seconds of each, the answers, the seconds of the end, those of a processor, and the
    greatest memory."""

    seconds: list
    answers: list
    end: float
    worked: float
    memory: int


def fail(why):
    sys.exit(f"measure_openings: {why}")


class Bench(Compiler):
    """Where files and compiled programs lie."""

    def __init__(self, folder, rounds):
        super().__init__(folder)
        self.rounds = rounds
        self.timed = self.compiled("timed", "timed.c")

    def lines(self, lines, *words):
        """Has a program answer lines, each once the one before it is answered."""
        with open(self.path("lines"), "w") as it:
            it.writelines(f"{line}\n" for line in lines)
        words = [self.timed, "lines", self.path("lines"), *words]
        ran = subprocess.run(words, env=ENVIRONMENT, stdout=subprocess.PIPE, text=True)
        rows = [row.split(" ", 1) for row in ran.stdout.splitlines()]
        if ran.returncode or len(rows) != len(lines) + 1:
            fail(f"{words} ended with {ran.returncode}")
        *seconds, end = [int(row[0]) / 1e9 for row in rows]
        worked, memory = map(int, rows[-1][1].split())
        return Took(seconds, [row[1] for row in rows[:-1]], end, worked / 1e9, memory * 1024)

    def run(self, *words):
        """Runs a program without input, and gives its seconds and its greatest memory."""
        ran = subprocess.run([self.timed, "run", *words], env=ENVIRONMENT, stdout=subprocess.PIPE, text=True)
        if ran.returncode:
            fail(f"{words} ended with {ran.returncode}")
        nanoseconds, _, memory = map(int, ran.stdout.split())
        return nanoseconds / 1e9, memory * 1024

    def middle(self, measure):
        """The middle one of what was measured so many times."""
        return middle(measure() for _ in range(self.rounds))

    def remove(self, *names):
        for name in os.listdir(self.folder):
            if name.split("-")[0].split(".")[0] in names:
                os.remove(self.path(name))


def middle(numbers):
    numbers = sorted(numbers)
    return numbers[len(numbers) // 2]


def expect(due, came):
    if due != came:
        fail(f"expected {due}, and came {came}")


def say(*words):
    """What was measured so far, since all of it takes long."""
    print("measured:", *words, file=sys.stderr, flush=True)


def create(altctl, file, blocks):
    subprocess.run([altctl, "create", file, str(blocks)], stdout=subprocess.DEVNULL, check=True)


def told(seconds):
    """A time in words of four letters at most."""
    if seconds < 1e-3:
        return f"{seconds * 1e6:.1f} µs" if seconds < 1e-4 else f"{seconds * 1e6:.0f} µs"
    if seconds < 10:
        return f"{seconds * 1e3:.1f} ms" if seconds < 0.1 else f"{seconds * 1e3:,.0f} ms"
    return f"{seconds:,.1f} s"


def told_bytes(count):
    return f"{count / 1e6:,.1f} MB"


def table(head, rows):
    print("\n| " + " | ".join(head) + " |")
    print("|" + "---|" * len(head))
    for row in rows:
        print("| " + " | ".join(row) + " |", flush=True)


# --- openings


def drop_caches(bench, store):
    """Has the system forget all files, and then read those of the program again, over a store of its own."""
    subprocess.run(["sync"], check=True)
    with open("/proc/sys/vm/drop_caches", "w") as it:
        it.write("3\n")
    bench.lines(["get top 1 1"], *store.words, bench.path(f"tiny-{store.name}"))


class Opened(NamedTuple):
    """Seconds of openings and of what comes after them, and the greatest memory."""

    warm: float
    cold: float
    put: float
    one_get: float
    one_get_worked: float
    memory: int


def opened(bench, store, file, records):
    """Opens a map, with its file in memory and without."""
    rng = random.Random(3)

    def once(is_cold):
        if is_cold:
            drop_caches(bench, store)
        key = rng.randint(1, records)
        came = bench.lines([f"get top 1 {key}", f"put top 1 {key} new"], *store.words, file)
        expect(True, came.answers[0].startswith("value v") and came.answers[1] == "ok")
        return came

    once(False)
    warm = [once(False) for _ in range(bench.rounds)]
    cold = bench.middle(lambda: once(True).seconds[0])
    gets = [bench.lines([f"get top 1 {rng.randint(1, records)}"], *store.words, file) for _ in range(bench.rounds)]
    return Opened(
        warm=middle(it.seconds[0] for it in warm),
        cold=cold,
        put=middle(it.seconds[1] for it in warm),
        one_get=middle(it.seconds[0] + it.end for it in gets),
        one_get_worked=middle(it.worked for it in gets),
        memory=max(it.memory for it in warm),
    )


def stores(bench, altctl):
    found = [Store("altctl", altctl)]
    for name, options in ("LMDB", ["-DLMDB", "-llmdb"]), ("SQLite", ["-lsqlite3"]):
        program = bench.compiled(name, "peers.c", *options)
        if program:
            found.append(Store(name, program))
    for store in found:
        file = bench.path(f"tiny-{store.name}")
        if store.name == "altctl":
            create(store.program, file, 64)
        bench.lines(["put top 1 1 v", "commit"], *store.words, file)
    return found


def measure_openings(bench, altctl, counts):
    """Tables of openings, of which each row is printed as it comes."""
    found = stores(bench, altctl)
    heads = [f"{what}, {it.name}" for what in ("warm", "cold") for it in found]
    rows, more, gets = [], [], []
    for records in counts:
        for kind, values in KINDS.items():
            size_of, came = VALUES[values], []
            for store in found:
                file = bench.path("map")
                if store.name == "altctl":
                    rng = random.Random(2)
                    size = sum(size_of(rng) for _ in range(1000)) // 1000
                    create(altctl, file, 1024 + records * (20 + size) * 2 // BLOCK)
                load(store.words, file, records, "random", size_of)
                came.append(opened(bench, store, file, records))
                bench.remove("map")
            what = f"{records:,} records, {kind}"
            rows.append([what, *(told(it.warm) for it in came), *(told(it.cold) for it in came)])
            more.append([what, *(told(it.put) for it in came), *(told_bytes(it.memory) for it in came)])
            gets.append([what, *(told(it.one_get) for it in came), *(told(it.one_get_worked) for it in came)])
            say(what, came)
    table(["Start to first answer", *heads], rows)
    heads = [f"{what}, {it.name}" for what in ("put", "memory") for it in found]
    table(["The first put after it, and the greatest memory", *heads], more)
    heads = [f"{what}, {it.name}" for what in ("time", "processor") for it in found]
    table(["A program for one get, from start to end", *heads], gets)


# --- one large map


def measure_large(bench, altctl, records):
    """A map of many records by rising keys: a time and the greatest memory for each job."""
    file, rows = bench.path("large"), []
    create(altctl, file, 1024 + records * 240 // BLOCK)

    def row(what, seconds, memory):
        rows.append([what, told(seconds), told_bytes(memory)])
        say(*rows[-1])

    begun = time.monotonic()
    used = load_rising(altctl, file, records)
    row("load, and its commit", time.monotonic() - begun, used)
    rng = random.Random(4)
    keys = [rng.randint(1, records) for _ in range(200)]
    lines = ["new north top", *(f"put north 1 {key} mine" for key in keys[:100])]
    lines += [*(f"put top 1 {key} theirs" for key in keys[100:]), "commit"]
    bench.lines(lines, altctl, "run", file)
    get, put = f"get top 1 {keys[0]}", f"put top 1 {keys[100]} new"
    for what in "open", "open again":
        came = bench.lines([get, get, put, "merge north", "reclaim"], altctl, "run", file)
        row(f"{what}, and answer a get", came.seconds[0], came.memory)
    expect(["ok", "ok 100", "ok"], came.answers[2:])
    names = ["a get after it", "the first put", "a merge of 100 changes", "a marking"]
    for what, seconds in zip(names, came.seconds[1:]):
        row(what, seconds, came.memory)
    row("check", *bench.run(altctl, "check", file))
    row("copy", *bench.run(altctl, "copy", file, bench.path("large-copy")))
    row("check of the copy", *bench.run(altctl, "check", bench.path("large-copy")))
    bench.remove("large")
    table([f"{records:,} records of 200 bytes, by rising keys", "Time", "Greatest memory"], rows)


def load_rising(altctl, file, records):
    """Puts records by rising keys, in one commit. Gives the greatest memory."""
    value = b"v" * 200
    with tempfile.TemporaryFile() as answers:
        program = subprocess.Popen([altctl, "run", file], stdin=subprocess.PIPE, stdout=answers, env=ENVIRONMENT)
        for first in range(1, records + 1, 10000):
            numbers = range(first, min(first + 10000, records + 1))
            program.stdin.write(b"".join(b"put top 1 %d %s\n" % (number, value) for number in numbers))
        program.stdin.write(b"commit\n")
        program.stdin.close()
        _, status, used = os.wait4(program.pid, 0)
        expect((0, 3 * (records + 1)), (status, answers.seek(0, os.SEEK_END)))
    return used.ru_maxrss * 1024


# --- the largest store


def measure_largest(bench, altctl):
    """The same lines over a small and over the largest store, which grow to their size in them. Nothing of it is
    committed, so each round finds the same."""
    designs = ["new north top", *(f"put north 1 {key} mine" for key in range(1, 101))]
    designs += [f"put top 1 {key} theirs" for key in range(501, 601)]
    named = {"open, and answer a get": "get top 1 1", "grow to twice the blocks": "grow {blocks}"}
    named.update({"the first put of a series": "put top 1 7 a", "the second put": "put top 1 8 a"})
    named.update({"a merge of 100 changes": "merge north", "a marking": "reclaim", "a rollback": "rollback"})
    sizes, columns, memory = (65536, MOST), [], []
    for blocks in sizes:
        file = bench.path("largest")
        create(altctl, file, blocks // 2)
        load([altctl, "run"], file, 100_000, "rising", VALUES["200 bytes"])
        lines = [it.format(blocks=blocks) for it in named.values()]
        lines[4:4] = designs
        came = [bench.lines(lines, altctl, "run", file) for _ in range(bench.rounds)]
        times = [middle(it.seconds[n] for it in came) for n in range(len(lines))]
        columns.append([*times[:4], *times[-3:]])
        memory.append(max(it.memory for it in came))
        bench.remove("largest")
    rows = [[what, *(told(it[n]) for it in columns)] for n, what in enumerate(named)]
    made = [bench.middle(lambda: created(bench, altctl, blocks)) for blocks in sizes]
    rows = [["create", *map(told, made)], *rows, ["the greatest memory", *map(told_bytes, memory)]]
    table(["100,000 records of 200 bytes in a store of", *(f"{it:,} blocks" for it in sizes)], rows)


def created(bench, altctl, blocks):
    took, _ = bench.run(altctl, "create", bench.path("new"), str(blocks))
    bench.remove("new")
    return took


# --- before and after


def measure_before(bench, altctl, old):
    """The same by two programs, over the same files."""
    designs, full = bench.path("designs"), bench.path("full")
    rng = random.Random(5)
    create(altctl, designs, 262_144)
    load([altctl, "run"], designs, 100_000, "random", VALUES["200 bytes"])
    lines = []
    for name in range(400):
        lines += [f"new d{name} top", *(f"put d{name} 1 {rng.randint(1, 100_000)} {name}" for _ in range(100))]
    text = "".join(f"{line}\n" for line in [*lines, "commit"])
    subprocess.run([altctl, "run", designs], input=text, stdout=subprocess.DEVNULL, text=True, check=True)
    # The copy has five blocks to spare, which no change is content with.
    used = 262_144 - int(subprocess.check_output([altctl, "check", designs], text=True).split()[-1])
    subprocess.run([altctl, "copy", designs, full, str(used + 5)], stdout=subprocess.DEVNULL, check=True)
    rows = {what: [] for what in ("a marking with 400 designs of 100 changes", "2,000 puts of a full store")}
    for program in filter(None, (old, altctl)):
        came = bench.lines(["get top 1 1", *["reclaim"] * 20], program, "run", designs)
        rows["a marking with 400 designs of 100 changes"].append(told(middle(came.seconds[1:])))
        puts = [f"put top 1 {key} a" for key in range(1, 2001)]
        came = bench.lines(["get top 1 1", *puts], program, "run", full)
        expect({"error 13 Full"}, set(came.answers[1:]))
        rows["2,000 puts of a full store"].append(told(sum(came.seconds[1:])))
    bench.remove("designs", "full")
    table(["", *["before"] * bool(old), "now"], [[what, *times] for what, times in rows.items()])


def main():
    parser = argparse.ArgumentParser(description=__doc__.split(":")[0])
    parser.add_argument("program", nargs="?", default=PROGRAM)
    parser.add_argument("-n", default="100000,1000000,8000000", help="so many records")
    parser.add_argument("-r", type=int, default=5, help="so many rounds")
    parser.add_argument("--parts", default="openings,large,largest,before")
    parser.add_argument("--before", help="an earlier program, for the part of that name")
    parser.add_argument("--large", type=int, default=40_000_000, help="so many records in the large map")
    parser.add_argument("--folder", help="where files are made")
    said = parser.parse_args()
    folder = tempfile.mkdtemp(dir=said.folder)
    bench, begun = Bench(folder, said.r), os.getloadavg()
    measures = {
        "openings": lambda: measure_openings(bench, said.program, [int(it) for it in said.n.split(",")]),
        "large": lambda: measure_large(bench, said.program, said.large),
        "largest": lambda: measure_largest(bench, said.program),
        "before": lambda: measure_before(bench, said.program, said.before),
    }
    try:
        for part in said.parts.split(","):
            measures[part]()
    finally:
        shutil.rmtree(folder)
    print(f"\nThe machine has {os.cpu_count()} processors, and had a load of {begun[0]:.1f} before it and "
          f"{os.getloadavg()[0]:.1f} after.")


if __name__ == "__main__":
    main()
