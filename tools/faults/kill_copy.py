#!/usr/bin/env python3
"""Kills copies of a store at random moments: `tools/faults/kill_copy.py [ALTCTL] [COUNT] [SEED]`. If a copy that is not
whole has the name that was asked for, or a file is overwritten, it says so and ends with status 1.

The moments lie between the start of a copy and its end, as long as one that is not killed takes. After each kill
nothing has the name, or the whole copy does, byte for byte; a file with `.part` behind the name may be there, over
which the next copy does not write; and the store is as it was. It stands beside the gate: proved is in which order a
copy is synced and named, this tries files and the program.
"""
import argparse
import os
import random
import subprocess
import sys
import tempfile
import time
from collections import Counter

sys.dont_write_bytecode = True
from compare import read, started

HERE = os.path.dirname(os.path.abspath(__file__))
BLOCKS, RECORDS = 4096, 3000


class Failure(Exception):
    """A copy is not as it should be."""


def expect(what, due, came):
    if due != came:
        raise Failure(f"{what}: expected {str(due)[:200]}, and came {str(came)[:200]}")


def make_store(altctl, file):
    expect("create", (0, f"created {BLOCKS}\n", ""), started(altctl, "create", file, str(BLOCKS)))
    lines = [*(f"put top 1 {number} {number}" for number in range(RECORDS)), "commit"]
    ran = subprocess.run(
        [altctl, "run", file], input="".join(f"{it}\n" for it in lines), capture_output=True, text=True
    )
    expect("puts", (0, "ok\n" * len(lines), ""), (ran.returncode, ran.stdout, ran.stderr))


class Copies:
    """Copies of one store, and what became of them."""

    def __init__(self, altctl, folder):
        self.altctl, self.file, self.to = altctl, os.path.join(folder, "store"), os.path.join(folder, "copy")
        self.part, self.count = f"{self.to}.part", Counter()
        make_store(altctl, self.file)
        self.before, begun = read(self.file), time.monotonic()
        expect("a copy that is not killed", 0, started(altctl, "copy", self.file, self.to)[0])
        self.time, self.whole = time.monotonic() - begun, read(self.to)
        expect("a copy that is not killed: its other name", False, os.path.lexists(self.part))
        os.remove(self.to)

    def kill_one(self, chance):
        """Kills a copy after a while, and looks at what is there."""
        copy = subprocess.Popen(
            [self.altctl, "copy", self.file, self.to], stdout=subprocess.DEVNULL, stderr=subprocess.PIPE
        )
        time.sleep(chance.uniform(0, self.time))
        copy.kill()
        _, said = copy.communicate()
        expect("what a copy says", b"", said)
        is_named, is_part = os.path.lexists(self.to), os.path.lexists(self.part)
        self.count[f"{'the name' if is_named else 'no name'}{' and a part' * is_part}"] += 1
        if is_named:
            expect("the file that has the name is the whole copy", True, read(self.to) == self.whole)
        elif copy.returncode == 0:
            raise Failure("a copy ended well, and nothing has its name")
        expect("the store is as it was", True, read(self.file) == self.before)
        if is_part:
            self.look_at_part(is_named)
        if is_named:
            os.remove(self.to)

    def look_at_part(self, is_named):
        """Copies again, over which nothing may happen to what is there."""
        left, taken = read(self.part), self.to if is_named else self.part
        expect(
            "a copy beside a part",
            (1, "", f"altctl: cannot create {taken}\n"),
            started(self.altctl, "copy", self.file, self.to),
        )
        expect(
            "the part is as it was, and the name", (True, is_named), (read(self.part) == left, os.path.lexists(self.to))
        )
        os.remove(self.part)
        if is_named:
            expect("the name is whole without the part", True, read(self.to) == self.whole)


def main():
    parser = argparse.ArgumentParser(description=__doc__.split(":")[0])
    parser.add_argument("altctl", nargs="?", default=os.path.join(HERE, "..", "..", "altctl"))
    parser.add_argument("count", nargs="?", type=int, default=100)
    parser.add_argument("seed", nargs="?", type=int, default=1)
    words = parser.parse_args()
    chance = random.Random(words.seed)
    try:
        with tempfile.TemporaryDirectory() as folder:
            copies = Copies(words.altctl, folder)
            for _ in range(words.count):
                copies.kill_one(chance)
            expect("a copy after all", 0, started(words.altctl, "copy", copies.file, copies.to)[0])
            if not copies.count["no name and a part"]:
                raise Failure("no kill came while a copy was made")
    except Failure as failure:
        print(f"kill_copy: {failure}", file=sys.stderr)
        return 1
    print(f"kill_copy: each of {words.count} copies left nothing or all under its name: {dict(copies.count)}")
    return 0


if __name__ == "__main__":
    sys.exit(main())
