#!/usr/bin/env python3
"""Damages files of stores, in one place or several, and looks whether the program notices it:
`tools/faults/damage.py [PROGRAM] [--files N] [--seed S] [--plain]`. Where it does not, it says so, leaves the file as
damaged.alt, and ends with status 1.

A store has alternatives with checkpoints and values of 1 to 4,000 bytes. In each copy of its file one bit is turned, a
block has the bytes of another one, two blocks have changed places, a block is zero, or half of it is other bytes, as
those from before the last commit. A check has to name the first damaged block that it meets, if the slot in use or its
trees have one, and else to say what it says of the store. Each line of a session, merges among them, has to be answered
as over the undamaged file, or `error 18 Damaged` with a damaged block, if a version that it names has one. What is in
use is found by a walk over the bytes of the file; the answers are those of the model of `tools/faults/compare.py`,
which has to make the same file.

A whole older block with its number is not among the damages: a sum does not tell it. With `--broken` each damaged block
gets the sum of its new bytes, so the script has to fail. With `--plain` only lines come that `tools/measure/plain.c`
knows. It stands beside the gate.
"""
import argparse
import multiprocessing
import os
import random
import struct
import subprocess
import sys
import tempfile
from collections import Counter
from typing import NamedTuple

sys.dont_write_bytecode = True
from compare import BLOCK, FIRST, Store, exchanged, place_of, read, spelled, started
from preloaded import PROGRAM, build_program

# So many processes work side by side, and so many copies at most are taken of one store.
WORKERS, COPIES = 3, 500
# The files stand in memory where they can, since a sync costs nothing there.
MEMORY = "/dev/shm" if os.path.isdir("/dev/shm") else None
SIZES = [range(1, 20), range(1, 20), range(20, 400), range(400, 2000), [1348, 2028, 3999, 4000]]


class Failure(Exception):
    """Something is answered otherwise than it should be, over a file of these bytes."""


def expect(what, due, came):
    if due != came:
        texts = str(due), str(came)
        begin = max(0, len(os.path.commonprefix(texts)) - 60)
        due, came = (text[begin : begin + 200] for text in texts)
        raise Failure(f"{what}: from character {begin} on expected {due}, and came {came}")


# --- a store


def changes(chance, name, keys):
    """Puts of values of all sizes, as words of the model."""
    sizes = [chance.choice(chance.choice(SIZES)) for _ in keys]
    return [["put", name, key, bytes(chance.choices(range(33, 126), k=size))] for key, size in zip(keys, sizes)]


def lines_of(chance):
    """The lines that make a store, as words of the model: first those of one commit, then those of another."""
    keys = [(table, number) for table in (1, 7) for number in chance.sample(range(500), 30)]
    few = lambda: chance.sample(keys, chance.randrange(1, 6))
    first = [*changes(chance, "top", keys), ["checkpoint", "top", "survey"], ["new", "north", "top"]]
    first += [["new", "south", "top"], *changes(chance, "north", few()), ["checkpoint", "north", "first"]]
    first += [["new", "deep", "north"], *changes(chance, "deep", [*few(), (8, 1)]), ["new", "same", "top"], ["commit"]]
    second = [*changes(chance, "top", few()), *changes(chance, "south", few()), *changes(chance, "north", few())]
    second += [["remove", "top", chance.choice(keys)], ["checkpoint", "deep", "late"], ["drop", "same"]]
    # More entries than one block of a slot has.
    second += [["checkpoint", "south", f"c{number}"] for number in range(chance.choice([0, 40]))]
    return first, [*second, ["commit"]]


def typed(words):
    """The line of these words."""
    verb, *rest = words
    if verb == "merge":
        return " ".join([verb, rest[0], *(f"{key[0]}:{key[1]}={side}" for key, side in rest[1])])
    flat = (it for word in words for it in (word if isinstance(word, tuple) else (word,)))
    return " ".join(spelled(it) if isinstance(it, bytes) else str(it) for it in flat)


def carried_out(program, file, store, lines):
    """Has the program and the model carry out lines, and gives the bytes of the file, which the model's have to be."""
    store.open()
    due = [store.apply(it) for it in lines]
    text = "".join(f"{typed(it)}\n" for it in lines)
    words = [program, "run", "--buffer", "0", file]
    ran = subprocess.run(words, input=text, capture_output=True, text=True, timeout=60)
    expect("the lines of a store", (0, due, ""), (ran.returncode, ran.stdout.splitlines(), ran.stderr))
    text = read(file)
    expect("the bytes of a store are the model's", True, text == b"".join(store.disk))
    return text


class Trees:
    """What is in use in the bytes of a file."""

    def __init__(self, text):
        self.text, self.slot = text, 18 if text[BLOCK] & 1 else 2
        count, = struct.unpack_from("<I", text, self.slot * BLOCK + 12)
        self.slot_blocks = [*range(self.slot, self.slot + (count + 32) // 32)]
        cells = range(self.slot * BLOCK + 128, self.slot * BLOCK + 128 * (count + 1), 128)
        self.roots = [root for at in cells for root in struct.unpack_from("<II", text, at + 67) if root]
        # In the order in which a check meets them.
        self.met = dict.fromkeys(self.slot_blocks)
        for root in self.roots:
            self.visit(root, self.met)
        # What an opening for lines reads.
        self.opening = {*self.slot_blocks, *self.roots, *(it for it in self.met if self.is_node(it))}

    def is_node(self, block):
        return block >= FIRST and bytes_of(self.text, block)[:4] == b"NODE"

    def visit(self, block, met, damaged=()):
        """Adds a block to those that were met, and what lies under it, unless it is damaged."""
        if block and block not in met:
            met[block] = None
            lists = self.is_node(block) and block not in damaged
            count, = struct.unpack_from("<I", self.text, block * BLOCK + 8)
            for at in range(block * BLOCK + 16, block * BLOCK + 16 + 14 * count, 14) if lists else ():
                self.visit(*struct.unpack_from("<I", self.text, at + 10), met, damaged)
        return met

    def under(self, *roots):
        return {it for root in roots for it in self.visit(root, {})}

    def named(self, block):
        """The block by which the program names a damaged one: of a slot, the first."""
        return self.slot if block in self.slot_blocks else block

    def refusal(self, text, damaged):
        """What a check says of a file of these bytes on the standard error, or None if it accepts it: the slot alone if
        it is damaged, else the first damaged block of the walk, and the others in rising order."""
        if damaged & {*self.slot_blocks}:
            return refused_by(text, self.slot)
        met = {}
        for root in self.roots:
            self.visit(root, met, damaged)
        first, *others = [it for it in met if it in damaged] or [None]
        return first and "".join(refused_by(text, it) for it in [first, *sorted(others)])


def refused_by(text, block):
    """What an opening says on the standard error of a damaged block, and of a slot's first one that has no sum."""
    told = "altctl: the file has no checksums: tools/upgrade.py OLD NEW carries it over\n"
    lacks_sum = block < FIRST and not any(bytes_of(text, block)[place_of(block) :][:4])
    return f"altctl: 18 Damaged {block}\n" + told * lacks_sum


class Question(NamedTuple):
    """A line and its answer; after a merge also the answer if the merge of this alternative was refused, and the blocks
    of the versions that the line names."""

    line: str
    due: str
    unmerged: str
    merged: str
    blocks: set


class Made:
    """A store in a file, and what is asked of it."""

    def __init__(self, program, chance, file, is_plain):
        self.chance, self.store = chance, Store(chance.randrange(200, 401))
        blocks = len(self.store.disk)
        expect("create", (0, f"created {blocks}\n", ""), started(program, "create", file, str(blocks)))
        first, second = lines_of(chance)
        self.older = carried_out(program, file, self.store, first)
        self.text = carried_out(program, file, self.store, second)
        os.remove(file)
        self.trees, self.is_plain = Trees(self.text), is_plain
        self.questions = [*self.asked(), *self.merges()]
        alternatives = len(self.names())
        checkpoints = len(self.store.committed) - alternatives
        free = blocks - FIRST - len({it for it in self.trees.met if it >= FIRST})
        self.checked = f"alternatives {alternatives}\ncheckpoints {checkpoints}\nfree {free}\n"

    def names(self):
        return [it.name for it in self.store.committed if it.tag == b"A"]

    def question(self, words, *roots, unmerged="", merged=""):
        return Question(typed(words), self.store.apply(words), unmerged, merged, self.trees.under(*roots))

    def versions(self):
        """The words of versions, with their roots."""
        for it in self.store.committed:
            if it.tag == b"A":
                yield it.name, it.current
                yield f"{it.name}@", it.base
            elif not it.name.startswith("c"):
                yield f"{it.owner}@{it.name}", it.current

    def gets(self, word):
        """Gets of keys of a version, and of one that it may lack."""
        keys = sorted(self.store.version(word))
        return [["get", word, it] for it in [*self.chance.sample(keys, min(4, len(keys))), (8, 1)]]

    def asked(self):
        """Questions before any merge."""
        yield self.question(["alts"])
        for word, root in self.versions():
            if self.is_plain and "@" in word:
                continue
            for words in self.gets(word):
                yield self.question(words, root)
            yield self.question(["list", word], root)
        for it in self.store.committed:
            if it.tag == b"A":
                yield self.question(["checks", it.name])
                yield self.question(["changes", it.name], it.current, it.base)

    def merges(self):
        """Merges into two alternatives, with as many settlements as they need, and questions after each."""
        top = self.store.find("top").current
        for name in ("north", "south"):
            it = self.store.find(name)
            roots, words = [it.current, it.base, top], [["list", name], *self.gets(name)]
            before = [self.store.apply(line) for line in words]
            conflicts = self.store.in_conflict(*self.store.sides(name)[2:])
            settled = [(key, self.chance.choice(["mine", "theirs"])) for key, *_ in conflicts]
            yield self.question(["merge", name, settled], *roots, merged=name)
            for line, answer in zip(words, before):
                yield self.question(line, *roots, unmerged=answer, merged=name)


# --- damages


def turn_bit(chance, made, text, block):
    bit = chance.randrange(8 * BLOCK)
    text[block * BLOCK + bit // 8] ^= 1 << bit % 8
    return [block]


def copy_other(chance, made, text, block):
    text[block * BLOCK : (block + 1) * BLOCK] = bytes_of(made.text, chosen(chance, made))
    return [block]


def change_places(chance, made, text, block):
    other = chosen(chance, made)
    text[block * BLOCK : (block + 1) * BLOCK] = bytes_of(made.text, other)
    text[other * BLOCK : (other + 1) * BLOCK] = bytes_of(made.text, block)
    return [block, other]


def make_zero(chance, made, text, block):
    text[block * BLOCK : (block + 1) * BLOCK] = bytes(BLOCK)
    return [block]


def write_half(chance, made, text, block):
    """Half of the block is what stood there before the last commit, or other bytes."""
    others = bytes_of(made.older, block), bytes_of(made.text, chosen(chance, made)), chance.randbytes(BLOCK)
    begin = chance.choice([0, BLOCK // 2])
    half = chance.choice(others)[begin : begin + BLOCK // 2]
    text[block * BLOCK + begin : block * BLOCK + begin + len(half)] = half
    return [block]


WAYS = {
    "one bit": turn_bit, "another block's bytes": copy_other, "two in each other's place": change_places,
    "a block of zeros": make_zero, "a block half written": write_half,
}


def bytes_of(text, block):
    return bytes(text[block * BLOCK : (block + 1) * BLOCK])


def chosen(chance, made):
    """A block behind the selector: mostly one in use, as those that every opening reads, else one of the slots, or
    any."""
    draw = chance.random()
    if draw < 0.7:
        return chance.choice(sorted(made.trees.opening) if draw < 0.2 else [*made.trees.met])
    return chance.randrange(2, FIRST if draw < 0.8 else len(made.text) // BLOCK)


def damaged(chance, made, ways):
    """A copy of the file that is damaged in these ways, and the blocks that are: those with other bytes than in the
    file, and than before the last commit, since a whole older block is not noticed."""
    while True:
        text, blocks = bytearray(made.text), set()
        for way in ways:
            blocks |= {*WAYS[way](chance, made, text, chosen(chance, made))}
        sides = made.text, made.older
        if not any(bytes_of(text, block) == bytes_of(side, block) for block in blocks for side in sides):
            return text, blocks


def give_sums(text, blocks):
    """Gives the damaged blocks the sums of their new bytes."""
    for block in blocks:
        at = place_of(block)
        shown = bytearray(bytes_of(text, block))
        shown[at : at + 4] = bytes(4)
        text[block * BLOCK : (block + 1) * BLOCK] = exchanged(block, bytes(shown))


# --- what the program says


def answers_in(output, questions):
    """The answers of the questions, each as a text."""
    lines, answers = iter(output.splitlines()), []
    for it in questions:
        found = [next(lines, "")]
        if it.line.split()[0] in ("list", "alts", "checks", "changes"):
            while found[-1] and not found[-1].startswith(("end ", "error ")):
                found.append(next(lines, ""))
        answers.append("\n".join(found))
    expect("what follows the answers", [], [*lines])
    return answers


def try_session(program, file, made, text, blocks, count):
    """Asks all questions over a file of these bytes, of which these blocks are damaged."""
    lines = "".join(f"{it.line}\n" for it in made.questions)
    ran = subprocess.run([program, "run", file], input=lines, capture_output=True, text=True, timeout=60)
    if blocks & made.trees.opening:
        due = {refused_by(text, made.trees.named(it)) for it in blocks & made.trees.opening}
        expect("an opening: status and output", (1, ""), (ran.returncode, ran.stdout))
        expect(f"an opening: one of {sorted(due)}", True, ran.stderr in due)
        count["sessions that were not opened"] += 1
        return
    expect("a session: status and standard error", (0, ""), (ran.returncode, ran.stderr))
    due, merged = {f"error 18 Damaged {it}" for it in blocks}, set()
    for it, answer in zip(made.questions, answers_in(ran.stdout, made.questions)):
        is_merge = it.line.startswith("merge ")
        right = it.due if is_merge or not it.merged or it.merged in merged else it.unmerged
        if answer == right:
            merged |= {it.merged} if is_merge else set()
            count["lines answered as over the undamaged file"] += 1
        elif it.blocks & blocks and answer in due:
            count["lines answered Damaged"] += 1
        else:
            expect(it.line[:100], right, answer)


def try_file(program, file, made, ways, is_broken, count):
    """Damages a copy of the file, checks it, and asks all questions over it."""
    text, blocks = damaged(made.chance, made, ways)
    if is_broken:
        give_sums(text, blocks)
    with open(file, "wb") as it:
        it.write(text)
    try:
        refusal = made.trees.refusal(text, blocks)
        due = (1, "", refusal) if refusal else (0, made.checked, "")
        expect("a check", due, started(program, "check", file))
        try_session(program, file, made, text, blocks, count)
    except (Failure, subprocess.TimeoutExpired) as failure:
        with open("damaged.alt", "wb") as it:
            it.write(text)
        raise Failure(f"{ways}, blocks {sorted(blocks)}, left as damaged.alt: {failure}") from None
    for way in {*ways}:
        count[f"files with {way}"] += 1
    count["files whose damage is in use"] += bool(refusal)
    count["files of which a check names several blocks"] += bool(refusal) and refusal.count("18 Damaged") > 1


def try_store(task):
    """Makes a store, and damages so many copies of its file."""
    program, seed, files, is_plain, is_broken = task
    count, chance = Counter(), random.Random(seed)
    with tempfile.TemporaryDirectory(dir=MEMORY) as folder:
        file = os.path.join(folder, "store")
        try:
            made = Made(program, chance, file, is_plain)
            for _ in range(files):
                several = chance.choice([1, 1, chance.randrange(2, 12)])
                try_file(program, file, made, chance.choices([*WAYS], k=several), is_broken, count)
        except Failure as failure:
            return f"seed {seed}: {failure}"
    return count


def main():
    words = argparse.ArgumentParser(description=__doc__.split(":")[0])
    words.add_argument("program", metavar="PROGRAM", nargs="?", help="the program; by default the one of the sources")
    words.add_argument("--files", type=int, default=10_000, metavar="N", help="so many damaged files")
    words.add_argument("--seed", type=int, default=1, metavar="S", help="the first seed")
    words.add_argument("--plain", action="store_true", help="only lines that plain.c knows")
    words.add_argument("--broken", action="store_true", help="give damaged blocks their sums, so that it fails")
    said = words.parse_args()
    if not said.program:
        build_program()
    program = os.path.abspath(said.program or PROGRAM)
    each = max(1, min(COPIES, -(-said.files // WORKERS)))
    sizes = [min(each, said.files - done) for done in range(0, said.files, each)]
    tasks = [(program, seed, files, said.plain, said.broken) for seed, files in enumerate(sizes, said.seed)]
    count = Counter()
    with multiprocessing.Pool(WORKERS) as pool:
        for found in pool.imap_unordered(try_store, tasks):
            if isinstance(found, str):
                print(f"damage: {found}", file=sys.stderr)
                return 1
            count += found
    print(f"damage: {said.files} damaged files of {len(tasks)} stores: no damage was missed, and no value was wrong")
    for what, number in sorted(count.items()):
        print(f"    {number} {what}")
    return 0


if __name__ == "__main__":
    sys.exit(main())
