#!/usr/bin/env python3
"""Works on stores of the most blocks there may be, whose files are nearly all hole: `tools/faults/largest.py [ALTCTL]
[-n LINES] [-s SEED]`. Where an answer isn't the model's, or a file takes room that it need not, it says so and ends
with status 1.

One store is created with that many blocks, one grows to them, and one is written by hand with its leaves far apart, up
to the last block. Over each, random lines are answered beside a plain model; then it is opened again, and shows what
was committed. It is checked and copied, and the copies show the same. A check and a copy take 24 bytes of memory for
each block: where so much is not to be had, they are skipped, with a line that says so. The same holds for a file system
on which no file may be so long. It stands beside the gate: numbers of blocks are proved to fit; this tries the offsets
that the system gets.
"""
import argparse
import os
import random
import sys
import tempfile
import time
from collections import Counter

sys.dont_write_bytecode = True
import compare
from compare import BLOCK, FIRST, started
from kill import EMPTY, MOST, Failure, Program, answered, changes, commit, merge, unlike

HERE = os.path.dirname(os.path.abspath(__file__))
# So many bytes a file may take on its device.
ROOM = 1 << 25
# So much memory a check or a copy of such a store takes, and a part to spare.
MEMORY = 26 * MOST
FAR_LEAVES, FAR_RECORDS = 200, 12


def expect(what, due, came):
    if due != came:
        raise Failure(f"{what}: expected {due}, and came {came}")


def memory():
    """How many bytes of memory are to be had."""
    with open("/proc/meminfo") as it:
        return next(1024 * int(line.split()[1]) for line in it if line.startswith("MemAvailable:"))


def may_be_long(folder):
    """Whether a file here may have so many blocks."""
    with tempfile.TemporaryFile(dir=folder) as it:
        try:
            it.truncate(MOST * BLOCK)
        except OSError:
            return False
    return True


def expect_sparse(what, file):
    """Looks at the length of a file, and at the room that it takes."""
    found = os.stat(file)
    expect(f"{what}: its length", MOST * BLOCK, found.st_size)
    if found.st_blocks * 512 > ROOM:
        raise Failure(f"{what} takes {found.st_blocks * 512} bytes")


class Session:
    """Lines and their answers, beside the model: what it has now, and what was committed."""

    def __init__(self, altctl, file, state, count):
        self.altctl, self.file, self.committed, self.state, self.count = altctl, file, state, state, count

    def run(self, lines, options=()):
        """Has the lines of each list answered in a session."""
        program = Program(self.altctl, self.file, options)
        try:
            for line in lines:
                self.ask(program, line)
            program.end(0)
        finally:
            program.process.kill()
            program.process.wait()
        self.state = self.committed

    def ask(self, program, line):
        due, after = answered(self.state, line)
        came = program.ask(line)
        if came != due:
            raise Failure(unlike(line[:200], due, came or []))
        self.count["lines"] += 1
        self.state = self.committed if line == "rollback" else after
        if line == "commit":
            self.committed = self.state
        return came

    def work(self, chance, batches):
        """A session of random lines, with merges that are settled, and commits."""
        program = Program(self.altctl, self.file)
        try:
            for number in range(batches):
                for line in changes(chance, self.state, True, 12):
                    self.ask(program, line)
                names = [name for name in self.state.tree if name != "top"]
                if names and chance.random() < 0.4:
                    name = chance.choice(names)
                    self.ask(program, merge(chance, name, self.ask(program, f"conflicts {name}")))
                    self.ask(program, f"post {name}")
                if chance.random() < 0.3:
                    for line in commit(self.state.tree, f"commit-{number}"):
                        self.ask(program, line)
            self.ask(program, "commit")
            program.end(0)
        finally:
            program.process.kill()
            program.process.wait()

    def look(self, file=None):
        """Opens a file, and compares all that it shows."""
        of_names = [f"{verb} {name}" for name in self.committed.tree for verb in ("list", "checks", "changes")]
        Session(self.altctl, file or self.file, self.committed, self.count).run(["alts", *of_names])


def checked(altctl, file, tree):
    """Checks a store, and gives how many blocks are in use."""
    status, output, faults = started(altctl, "check", file)
    marks = sum(len(it.checkpoints) for it in tree.values())
    expect("a check", (0, ""), (status, faults))
    expect("what a check counts", [f"alternatives {len(tree)}", f"checkpoints {marks}"], output.splitlines()[:2])
    return MOST - int(output.split()[-1])


def try_copies(session, folder):
    """Checks and copies a store, and looks at the copies."""
    used = checked(session.altctl, session.file, session.committed.tree)
    for blocks in MOST, used + 100:
        to = os.path.join(folder, "copy")
        came = started(session.altctl, "copy", session.file, to, str(blocks))
        expect("a copy", (0, f"copied {blocks}, {used} used\n", ""), came)
        session.look(to)
        if blocks == MOST:
            expect_sparse("a copy", to)
        os.remove(to)
    session.count["copies"] += 2


def make_far(chance, file):
    """Makes a store by hand whose leaves lie far apart, in random order, and gives the state that it shows."""
    blocks = [MOST - 1, MOST - 2, 2**20 - 1, 2**20, 2**25, *(chance.randrange(FIRST, MOST) for _ in range(FAR_LEAVES))]
    root, *leaves = dict.fromkeys(blocks)
    keys = [(0, number) for number in range(FAR_RECORDS * len(leaves))]
    written = compare.Store(64)
    written.blocks = MOST
    written.write_slot(2, [compare.Alternative(b"A", "top", "", root, 0)])
    trees = {root: compare.node_of(1, list(zip(keys[::FAR_RECORDS], leaves)))}
    for at, leaf in enumerate(leaves):
        trees[leaf] = compare.leaf_of([(key, b"far") for key in keys[at * FAR_RECORDS :][:FAR_RECORDS]])
    disk = {it: written.disk[it] for it in (0, 2)}
    disk.update((block, compare.exchanged(block, text)) for block, text in trees.items())
    with open(file, "wb") as it:
        for block, text in disk.items():
            it.seek(block * BLOCK)
            it.write(text)
        it.truncate(MOST * BLOCK)
    top = EMPTY.tree["top"]._replace(current={key: "far" for key in keys})
    return EMPTY._replace(tree={"top": top}, blocks=MOST)


def create(altctl, file, blocks):
    expect("create", (0, f"created {blocks}\n", ""), started(altctl, "create", file, str(blocks)))


def created(altctl, chance, file, count):
    """A store that is created with the most blocks."""
    begun = time.monotonic()
    create(altctl, file, MOST)
    print(f"largest: {MOST:,} blocks were created in {time.monotonic() - begun:.2f} seconds")
    expect_sparse("a new store", file)
    return Session(altctl, file, EMPTY._replace(blocks=MOST), count)


def grown(altctl, chance, file, count):
    """A store that grows from the fewest blocks to the most, is rolled back, and grows again."""
    create(altctl, file, 64)
    session = Session(altctl, file, EMPTY._replace(blocks=64), count)
    session.run(["put top 1 1 a", "commit", f"grow {MOST + 1}", f"grow {MOST}", "put top 1 2 b", "rollback", "list top"])
    session.run(["list top", f"grow {MOST}", f"grow {MOST}", "new x top", "put x 1 3 c", "commit"])
    return session


def far(altctl, chance, file, count):
    """A store that is written by hand."""
    return Session(altctl, file, make_far(chance, file), count)


def try_store(session, chance, folder, batches):
    """Works on a store, and looks at it, and at copies of it if there is memory for them."""
    session.look()
    session.work(chance, batches)
    session.look()
    expect_sparse("a store", session.file)
    if memory() > MEMORY:
        try_copies(session, folder)
    else:
        print(f"largest: checks and copies are skipped: they need {MEMORY >> 20:,} MiB of memory", file=sys.stderr)
    os.remove(session.file)


def main():
    parser = argparse.ArgumentParser(description=__doc__.split(":")[0])
    parser.add_argument("altctl", nargs="?", default=os.path.join(HERE, "..", "..", "altctl"))
    parser.add_argument("-n", type=int, default=60, help="so many batches of random lines over each store")
    parser.add_argument("-s", type=int, default=1, help="the seed")
    said = parser.parse_args()
    count, stores = Counter(), (created, grown, far)
    with tempfile.TemporaryDirectory() as folder:
        if not may_be_long(folder):
            print("largest: skipped: no file may be so long here")
            return 0
        try:
            for number, make in enumerate(stores):
                chance = random.Random(f"{said.s} {number}")
                session = make(os.path.abspath(said.altctl), chance, os.path.join(folder, "store"), count)
                try_store(session, chance, folder, said.n)
        except Failure as failure:
            print(f"largest: {make.__name__}, seed {said.s}: {failure}", file=sys.stderr)
            return 1
    print(f"largest: {len(stores)} stores of {MOST:,} blocks: all is as the model has it")
    for what, number in count.items():
        print(f"    {number} {what}")
    return 0


if __name__ == "__main__":
    sys.exit(main())
