#!/usr/bin/env python3
"""Measures how many bytes a record takes, beside LMDB and SQLite: `tools/measure/measure_sizes.py [-n RECORDS]
[ALTCTL]`.

One load of 100,000 records, and one of a million, is put in one commit, by rising keys and in random order, with values
of several sizes: the same one for each, sizes between two, and the mixture of a network, of which 60% have 40 to 180
bytes, 30% are lines of 2 to 20 points of 16 bytes, and 10% lines of 20 to 100 points. All stores get the same lines.
Counted is what is in use then, without free blocks or pages. LMDB and SQLite are left out where Debian's packages
liblmdb-dev and libsqlite3-dev are not installed. Sizes are looked at, never tested: the status tells only whether the
loads were done."""
import argparse
import os
import random
import sqlite3
import subprocess
import sys
import tempfile

TOP = os.path.join(os.path.dirname(os.path.abspath(__file__)), "..", "..")
BLOCK, MOST = 4096, 1 << 26


def mixture(rng):
    share = rng.random()
    return rng.randint(40, 180) if share < 0.6 else 16 * (rng.randint(2, 20) if share < 0.9 else rng.randint(20, 100))


VALUES = {
    "16 bytes": lambda rng: 16,
    "100 bytes": lambda rng: 100,
    "200 bytes": lambda rng: 200,
    "300 to 2,000 bytes": lambda rng: rng.randint(300, 2000),
    "a network's mixture": mixture,
}


def load(words, file, records, order, size_of):
    """Has a program carry out the puts of a load, and its commit."""
    rng, numbers = random.Random(1), list(range(1, records + 1))
    if order == "random":
        rng.shuffle(numbers)
    with tempfile.TemporaryFile() as answers:
        program = subprocess.Popen([*words, file], stdin=subprocess.PIPE, stdout=answers)
        for number in numbers:
            program.stdin.write(b"put top 1 %d %s\n" % (number, b"v" * size_of(rng)))
        program.stdin.write(b"commit\n")
        program.stdin.close()
        done = answers.seek(0, os.SEEK_END) if program.wait() == 0 else 0
    if done != 3 * (records + 1):
        sys.exit(f"measure_sizes: {words[0]} did not load {records} records")


def of_altctl(altctl, file, records, order, size_of):
    """How many bytes are in use in the store."""
    rng = random.Random(2)
    blocks = min(MOST, 1024 + records * (20 + sum(size_of(rng) for _ in range(1000)) // 1000) * 2 // BLOCK)
    subprocess.run([altctl, "create", file, str(blocks)], stdout=subprocess.DEVNULL, check=True)
    load([altctl, "run"], file, records, order, size_of)
    said = subprocess.run([altctl, "check", file], stdout=subprocess.PIPE, text=True, check=True).stdout
    return BLOCK * (blocks - int(said.split()[-1]))


def of_lmdb(program, file, *loaded):
    """The same of LMDB, whose file ends with the last page, as one transaction leaves none free."""
    load([program, "run"], file, *loaded)
    return os.path.getsize(file)


def of_sqlite(program, file, *loaded):
    load([program, "run"], file, *loaded)
    with sqlite3.connect(file) as store:
        pragmas = ("page_count", "freelist_count", "page_size")
        pages, free, size = (store.execute(f"PRAGMA {it}").fetchone()[0] for it in pragmas)
    store.close()
    return (pages - free) * size


def stores(altctl, folder):
    """The stores that can be measured here, each as its name, its program and what tells its size."""
    found = [("altctl", altctl, of_altctl)]
    for name, tells, libraries in (("LMDB", of_lmdb, ["-DLMDB", "-llmdb"]), ("SQLite", of_sqlite, ["-lsqlite3"])):
        program, source = os.path.join(folder, name), os.path.join(TOP, "tools/measure/peers.c")
        built = subprocess.run(["cc", "-O3", "-o", program, source, *libraries], stderr=subprocess.DEVNULL)
        if built.returncode:
            print(f"measure_sizes: {name} is left out: it is not installed", file=sys.stderr)
        else:
            found.append((name, program, tells))
    return found


def main():
    words = argparse.ArgumentParser(description=__doc__.split(":")[0])
    words.add_argument("-n", type=int, action="append", help="how many records, in place of 100,000 and a million")
    words.add_argument("altctl", nargs="?", default=os.path.join(TOP, "altctl"))
    said = words.parse_args()
    with tempfile.TemporaryDirectory() as folder:
        found = stores(said.altctl, folder)
        print(f"| Bytes a record in use | {' | '.join(name for name, _, _ in found)} |")
        print("|---|" + "---|" * len(found))
        for records in said.n or [100000, 1000000]:
            for what, size_of in VALUES.items():
                for order in ("rising", "random"):
                    sizes = []
                    for _, program, tells in found:
                        with tempfile.TemporaryDirectory(dir=folder) as room:
                            sizes.append(tells(program, os.path.join(room, "store"), records, order, size_of) / records)
                    told = " | ".join(f"{it:,.0f}" for it in sizes)
                    print(f"| {records:,} of {what}, {order} | {told} |", flush=True)
    return 0


if __name__ == "__main__":
    sys.exit(main())
