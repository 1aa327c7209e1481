#!/usr/bin/env python3
"""Measures calls a second from C and from Python: `tools/measure/measure_clients.py [--divisor N] [ALTCTL]`. Beside
altctl by its clients, one call after another and written ahead, are libaltstore, in memory, if its archive is built,
SQLite, by its C API and by Python's module, and LMDB by its C API, if Debian's packages libsqlite3-dev and liblmdb-dev
are installed. Each figure is the middle one of three runs, which take turns. A DIVISOR makes all of it so many times
smaller. Times are looked at, never tested."""
import argparse
import os
import platform
import random
import sqlite3
import statistics
import subprocess
import sys
import tempfile
import time
from pathlib import Path

sys.dont_write_bytecode = True
TOP = Path(__file__).resolve().parents[2]
sys.path.insert(0, str(TOP / "clients/python"))
import altstore
from altctl import Store

RECORDS, COMMITS, ROUNDS, BLOCKS = 100_000, 1_000, 3, 32_768
# How each program in C is compiled.
COMPILED = {
    "altctl": ["-I", str(TOP / "clients/c"), str(TOP / "clients/c/altctl.c"), "-pthread"],
    "SQLite": ["-DSQLITE", "-lsqlite3"],
    "LMDB": ["-DLMDB", "-llmdb"],
}
ROWS = {"puts": "puts, one commit", "gets": "gets", "commits": "a put and its commit"}


def value_of(number):
    return b"%08d" % number + b"v" * 192


def compile_all(folder):
    """The programs in C that can be compiled here."""
    made = {}
    compiled = dict(COMPILED)
    if subprocess.run([TOP / "tools/release/altstore.sh", folder], stdout=subprocess.PIPE).returncode == 0:
        compiled["memory"] = ["-DMEMORY", "-I", str(TOP / "clients/c"), f"{folder}/libaltstore.a"]
    for name, words in compiled.items():
        program = f"{folder}/{name}"
        source = str(TOP / "tools/measure/measure_clients.c")
        command = ["cc", "-std=c99", "-O2", "-Wall", "-o", program, source, *words]
        if subprocess.run(command, stderr=subprocess.PIPE).returncode == 0:
            made[name] = program
        else:
            print(f"{name} is left out: its library for C is not installed")
    return made


def measure_c(program, folder, altctl, records, commits):
    words = [program, f"{folder}/store", str(records), str(commits), *([altctl] if program.endswith("altctl") else [])]
    told = subprocess.run(words, check=True, stdout=subprocess.PIPE, text=True).stdout
    return {name: float(number) for name, number in map(str.split, told.splitlines())}


def timed(count, work):
    begun = time.monotonic()
    work()
    return count / (time.monotonic() - begun)


def measure_python(folder, altctl, numbers, commits):
    """Calls a second by the Python client."""
    found = {}
    rows = [(7, it, value_of(it)) for it in numbers]
    keys = [(7, it) for it in numbers]
    due = [it[2] for it in rows]
    for suffix in "", "_ahead":
        file = f"{folder}/store{suffix}"
        subprocess.run([altctl, "create", file, str(BLOCKS)], check=True, stdout=subprocess.DEVNULL)
        with Store(file, altctl) as store:

            def puts():
                if suffix:
                    store.put_many("top", rows)
                else:
                    for row in rows:
                        store.put("top", *row)
                store.commit()

            def gets():
                came = list(store.get_many("top", keys)) if suffix else [store.get("top", *it) for it in keys]
                if came != due:
                    raise RuntimeError("a value is another one")

            def put_and_commit():
                for row in rows[:commits]:
                    store.put("top", *row)
                    store.commit()

            found[f"puts{suffix}"] = timed(len(rows), puts)
            found[f"gets{suffix}"] = timed(len(rows), gets)
            if not suffix:
                found["commits"] = timed(commits, put_and_commit)
    return found


def measure_python_memory(numbers, commits):
    """Calls a second by the module altstore, which needs no file."""
    with altstore.Memory(BLOCKS) as store:
        rows = [(7, it, value_of(it)) for it in numbers]

        def puts():
            for row in rows:
                store.put("top", *row)
            store.commit()

        def gets():
            for table, number, due in rows:
                if store.get("top", table, number) != due:
                    raise RuntimeError("a value is another one")

        def put_and_commit():
            for row in rows[:commits]:
                store.put("top", *row)
                store.commit()

        return {
            "puts": timed(len(rows), puts),
            "gets": timed(len(rows), gets),
            "commits": timed(commits, put_and_commit),
        }


def measure_python_sqlite(folder, numbers, commits):
    """Calls a second by Python's module sqlite3, row by row."""
    store = sqlite3.connect(f"{folder}/store", isolation_level=None)
    store.execute("PRAGMA journal_mode = WAL")
    store.execute("PRAGMA synchronous = FULL")
    store.execute("CREATE TABLE records (number INTEGER PRIMARY KEY, value BLOB)")
    rows = [(it, value_of(it)) for it in numbers]
    put = "INSERT OR REPLACE INTO records VALUES (?, ?)"

    def puts():
        store.execute("BEGIN")
        for row in rows:
            store.execute(put, row)
        store.execute("COMMIT")

    def gets():
        store.execute("BEGIN")
        for number, due in rows:
            if store.execute("SELECT value FROM records WHERE number = ?", (number,)).fetchone()[0] != due:
                raise RuntimeError("a value is another one")
        store.execute("COMMIT")

    def put_and_commit():
        for row in rows[:commits]:
            store.execute(put, row)

    found = {"puts": timed(len(rows), puts), "gets": timed(len(rows), gets), "commits": timed(commits, put_and_commit)}
    store.close()
    return found


def show(language, runs):
    """The rows of a language: of each store the middle one of its runs."""

    def cell(name, part):
        found = [it[part] for it in runs.get(name, []) if part in it]
        return f"{statistics.median(found):,.0f}" if found else ""

    for part, what in ROWS.items():
        cells = [
            cell("altctl", part), cell("altctl", f"{part}_ahead"), cell("memory", part), cell("SQLite", part),
            cell("LMDB", part),
        ]
        print(f"| {language}: {what} | {' | '.join(cells)} |")


def main():
    parser = argparse.ArgumentParser(description=__doc__.split(":")[0])
    parser.add_argument("--divisor", type=int, default=1)
    parser.add_argument("altctl", nargs="?", default=str(TOP / "crates/altctl/out/altctl"))
    said = parser.parse_args()
    altctl = os.path.abspath(said.altctl)
    records, commits = RECORDS // said.divisor, COMMITS // said.divisor
    numbers = random.Random(7).sample(range(records), records)
    in_c, in_python = {}, {}
    print(
        f"{platform.processor() or platform.machine()}, {os.cpu_count()} processors, Linux {platform.release()}, "
        f"Python {platform.python_version()}, SQLite {sqlite3.sqlite_version}"
    )
    print(f"load at the beginning {os.getloadavg()[0]:.1f}", flush=True)
    with tempfile.TemporaryDirectory() as folder:
        programs = compile_all(folder)
        for _ in range(ROUNDS):
            for name, program in programs.items():
                with tempfile.TemporaryDirectory() as place:
                    in_c.setdefault(name, []).append(measure_c(program, place, altctl, records, commits))
            with tempfile.TemporaryDirectory() as place:
                in_python.setdefault("altctl", []).append(measure_python(place, altctl, numbers, commits))
            if "memory" in programs:
                os.environ["ALTSTORE_LIBRARY"] = f"{folder}/libaltstore.so.0"
                in_python.setdefault("memory", []).append(measure_python_memory(numbers, commits))
            with tempfile.TemporaryDirectory() as place:
                in_python.setdefault("SQLite", []).append(measure_python_sqlite(place, numbers, commits))
    print(f"load at the end {os.getloadavg()[0]:.1f}\n")
    print(
        "| Calls a second | altctl, one by one | altctl, written ahead | libaltstore | SQLite | LMDB |\n"
        "|---|---|---|---|---|---|"
    )
    show("C", in_c)
    show("Python", in_python)


if __name__ == "__main__":
    main()
