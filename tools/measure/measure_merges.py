#!/usr/bin/env python3
"""Measures what merges take: `tools/measure/measure_merges.py [--blocks N] [--part PART] ALTCTL ..` writes a table with
a column for each program. PART is `large`, `twelve`, `hundred` or `year`; without it all are measured. Figures are
looked at, never tested.

The network has 220,000 features in 440,000 records, with values of 40 and of 100 bytes. Designs change records of their
own, so nothing is in conflict. Blocks are counted by `free`, which nothing but taking them changes between two
markings, and the blocks that a query reads by what the system says the program has read, without a cache."""
import argparse
import random
import re
import subprocess
import sys
import tempfile
import time
from pathlib import Path

FEATURES = 220_000
# What `top` changes comes from the lower features, and what designs change from the upper ones.
LOWER = 200_000
OWN = (FEATURES - LOWER) // 12
DESIGNS = [f"d{n:02}" for n in range(1, 13)]
PARTS = ("large", "twelve", "hundred", "year")


def value(chance: random.Random, size: int) -> str:
    return f"{chance.getrandbits(4 * size):0{size}x}"


def network() -> list[str]:
    """The lines that put each feature's attributes, and its geometry."""
    chance = random.Random(1)
    lines = [f"put top 7 {n} {value(chance, 40)}" for n in range(FEATURES)]
    return lines + [f"put top 107 {n} {value(chance, 100)}" for n in range(FEATURES)]


def changes(chance: random.Random, alt: str, count: int, features: range) -> list[str]:
    """Lines that change this many records."""
    chosen = chance.sample(range(2 * len(features)), count)
    return [f"put {alt} {107 if n % 2 else 7} {features[n // 2]} {value(chance, 40)}" for n in chosen]


def own_features(design: str) -> range:
    first = LOWER + OWN * DESIGNS.index(design)
    return range(first, first + OWN)


class Session:
    """A program over a store, asked line by line."""

    def __init__(self, program: str, file: Path, *options: str):
        words = [program, "run", *options, str(file)]
        self.process = subprocess.Popen(words, stdin=subprocess.PIPE, stdout=subprocess.PIPE, text=True)

    def ask(self, line: str) -> str:
        """The answer to a line, or the last line of a list."""
        self.process.stdin.write(line + "\n")
        self.process.stdin.flush()
        while True:
            answer = self.process.stdout.readline().rstrip("\n")
            if not answer.startswith(("change ", "record ", "conflict ")):
                return answer

    def timed(self, line: str) -> tuple[str, float]:
        begun = time.perf_counter()
        return self.ask(line), time.perf_counter() - begun

    def number(self, line: str) -> int:
        return int(self.ask(line).split()[1])

    def read(self) -> int:
        """How many bytes the program has read so far."""
        return int(re.search(r"rchar: (\d+)", Path(f"/proc/{self.process.pid}/io").read_text())[1])

    def close(self) -> None:
        self.process.stdin.close()
        self.process.wait()


def carry_out(program: str, file: Path, lines: list[str]) -> list[str]:
    """The answers to many lines at once."""
    text = "".join(line + "\n" for line in lines)
    ran = subprocess.run([program, "run", str(file)], input=text, capture_output=True, text=True, check=True)
    return ran.stdout.splitlines()


class Measured:
    """The stores of one program, and what it was measured to take."""

    def __init__(self, program: str, folder: Path, blocks: int):
        self.program, self.folder, self.blocks, self.rows = program, folder, blocks, []
        self.base = folder / "base"
        subprocess.run([program, "create", str(self.base), str(blocks)], check=True, stdout=subprocess.DEVNULL)
        carry_out(program, self.base, [*network(), "commit"])

    def store(self, lines: list[str]) -> Path:
        """A copy of the network in which these lines were carried out and committed."""
        file = self.folder / "store"
        subprocess.run(["cp", "--sparse=always", str(self.base), str(file)], check=True)
        if lines:
            carry_out(self.program, file, [*lines, "commit"])
        return file

    def tell(self, what: str, figure: str) -> None:
        print(f"{what}: {figure}", file=sys.stderr, flush=True)
        self.rows.append((what, figure))

    def merge(self, session: Session, design: str) -> tuple[str, int, float]:
        """The answer to a merge, and how many blocks and seconds it took."""
        free = session.number("free")
        answer, seconds = session.timed(f"merge {design}")
        return answer, free - session.number("free"), seconds

    def tell_merge(self, what: str, session: Session, design: str) -> None:
        answer, taken, seconds = self.merge(session, design)
        self.tell(what, f"{answer}: {taken:,} blocks, {1000 * seconds:,.0f} ms")

    def large(self) -> None:
        """More changes than a store of the greatest size has 17 blocks for."""
        chance = random.Random(2)
        made = ["new d01 top", *changes(chance, "d01", 1, own_features("d01"))]
        file = self.store([*made, *changes(chance, "top", 62_000, range(LOWER))])
        session = Session(self.program, file)
        self.tell_merge("a design of 1 change, after 62,000 of top", session, "d01")
        session.close()

    def twelve(self) -> None:
        chance = random.Random(3)
        made = [line for it in DESIGNS for line in (f"new {it} top", *changes(chance, it, 1, own_features(it)))]
        file = self.store([*made, *changes(chance, "top", 5_000, range(LOWER))])
        session = Session(self.program, file)
        taken = [self.merge(session, it) for it in DESIGNS]
        session.ask("commit")
        session.close()
        self.tell("12 designs of 1 change each, after 5,000 of top", f"{sum(it[1] for it in taken):,} blocks")
        self.tell_changes(file)

    def tell_changes(self, file: Path) -> None:
        session = Session(self.program, file, "--cache", "0", "--read-only")
        session.ask("blocks")
        before = session.read()
        answer, seconds = session.timed("changes d01")
        read = (session.read() - before) // 4096
        session.close()
        self.tell("`changes` of one of them after that", f"{answer}: {read:,} blocks read, {1000 * seconds:,.1f} ms")

    def hundred(self) -> None:
        for count in (1, 1_000, 100_000):
            chance = random.Random(4)
            made = ["new d01 top", *changes(chance, "d01", 100, own_features("d01"))]
            file = self.store([*made, *changes(chance, "top", count, range(LOWER))])
            session = Session(self.program, file)
            self.tell_merge(f"a design of 100 changes, after {count:,} of top", session, "d01")
            session.close()

    def in_use(self, file: Path) -> int:
        session = Session(self.program, file)
        session.ask("reclaim")
        used = self.blocks - session.number("free")
        session.close()
        return used

    def year(self) -> None:
        """500 records a day in `top` for 250 days; each design changes 10 of its own and is merged every fifth day."""
        chance, lines, tops, owns = random.Random(5), [f"new {it} top" for it in DESIGNS], [], []
        for day in range(1, 251):
            tops += changes(chance, "top", 500, range(LOWER))
            lines += [*tops[-500:], "commit"]
            for it in DESIGNS if day % 5 == 0 else ():
                owns += changes(chance, it, 10, own_features(it))
                lines += [*owns[-10:], f"merge {it}"]
        begun = time.perf_counter()
        file = self.store(lines)
        seconds = time.perf_counter() - begun
        used = self.in_use(file)
        alone = self.in_use(self.store([*tops, *(f"new {it} top" for it in DESIGNS), *owns]))
        self.tell("a year of 12 designs, merged every week", f"{used:,} blocks in use, {seconds:,.0f} s")
        self.tell("`top` and each design's own changes alone", f"{alone:,} blocks; {used / alone:.2f} times these")


def main() -> None:
    parser = argparse.ArgumentParser(description=__doc__, formatter_class=argparse.RawDescriptionHelpFormatter)
    parser.add_argument("--blocks", type=int, default=1 << 20)
    parser.add_argument("--part", choices=PARTS)
    parser.add_argument("programs", nargs="+", metavar="ALTCTL")
    words = parser.parse_args()
    columns = []
    for program in words.programs:
        with tempfile.TemporaryDirectory() as folder:
            measured = Measured(program, Path(folder), words.blocks)
            for part in [words.part] if words.part else PARTS:
                getattr(measured, part)()
            columns.append(measured.rows)
    print("| | " + " | ".join(Path(it).parent.name or it for it in words.programs) + " |")
    print("|---|" + "---|" * len(columns))
    for rows in zip(*columns):
        print(f"| {rows[0][0]} | " + " | ".join(figure for _, figure in rows) + " |")


if __name__ == "__main__":
    main()
