#!/usr/bin/env python3
"""Kills the program at random moments over one real file, and looks each time whether the file then shows what was
acknowledged, beside a plain model: `tools/faults/kill.py [ALTCTL] [COUNT] [SEED]`. Where it doesn't, the status is 1.
It stands beside the gate: the store is proved against crashes of a modelled disk, this tries a file and the program.
"""

import argparse
import random
import signal
import subprocess
import sys
import tempfile
import threading
from collections import Counter
from itertools import zip_longest
from pathlib import Path
from typing import NamedTuple

# A store begins with so many blocks, and grows by at most so many at once.
BLOCKS = 256
MOST_NEW = 40
# A store has no more than so many.
MOST = 67_108_864
LONGEST_LIFE = 0.2
# How many blocks may wait: as many as usual, or this many.
OPTIONS = [[], ["--buffer", "1"], ["--buffer", "2"], ["--buffer", "64"]]
NAMES = ["a", "b", "c", "d", "e", "f", "g", "h"]
CHECKPOINTS = ["before", "between", "after"]
TABLES = range(3)
NUMBERS = range(64)
VALUES = ["-", "%2D", "duct", "cable%20A", "%00%FF", "pipe", "x" * 240, "y" * 241, "%00" * 300, "z" * 4000]


# --- the model ------------------------------------------------------------------------------------


class Alternative(NamedTuple):
    """Maps are never changed in place, so states may share them."""

    parent: str
    current: dict
    base: dict
    checkpoints: dict


class State(NamedTuple):
    """The alternatives, and how many blocks the store has."""

    tree: dict
    blocks: int


class Refused(Exception):
    """A refusal: its number, its name, and what it has beside them."""


EMPTY = State({"top": Alternative("~", {}, {}, {})}, BLOCKS)


def find(tree, name):
    if name not in tree:
        raise Refused("1 NoSuchAlternative")
    return tree[name]


def find_below_top(tree, name):
    alternative = find(tree, name)
    if alternative.parent == "~":
        raise Refused("6 IsTop")
    return alternative


def find_checkpoint(alternative, name):
    if name not in alternative.checkpoints:
        raise Refused("3 NoSuchCheckpoint")
    return alternative.checkpoints[name]


def without(entries, key):
    return {k: v for k, v in entries.items() if k != key}


def key_of(table, number):
    return int(table), int(number)


def conflicts(tree, name):
    """The keys that an alternative and its parent changed differently, with the three values."""
    alternative = find_below_top(tree, name)
    base, mine = alternative.base, alternative.current
    parent = tree[alternative.parent].current
    for key in sorted(base.keys() | mine.keys() | parent.keys()):
        values = base.get(key), parent.get(key), mine.get(key)
        if len(set(values)) == 3:
            yield key, values


def differences(before, after):
    for key in sorted(before.keys() | after.keys()):
        values = before.get(key), after.get(key)
        if values[0] != values[1]:
            yield key, values


def merged(tree, name, settlements):
    """The map that a merge gives: the parent's changes, with each conflict settled."""
    sides = {}
    in_conflict = dict(conflicts(tree, name))
    for word in settlements:
        key, side = word.split("=")
        if key_of(*key.split(":")) in sides:
            raise Refused(f"11 SettledTwice {key}")
        sides[key_of(*key.split(":"))] = side
    for table, number in sides:
        if (table, number) not in in_conflict:
            raise Refused(f"10 NotInConflict {table}:{number}")
    if len(sides) < len(in_conflict):
        raise Refused(f"9 Unsettled {len(in_conflict) - len(sides)}")
    alternative = tree[name]
    records = dict(alternative.current)
    for key, (_, value) in differences(alternative.base, tree[alternative.parent].current):
        if sides.get(key) == "mine":
            continue
        if value is None:
            records.pop(key, None)
        else:
            records[key] = value
    return records


def unchanged(tree):
    return "ok", tree


def new(tree, name, parent, checkpoint=None):
    above = find(tree, parent)
    if name in tree:
        raise Refused("2 AlternativeExists")
    records = above.current if checkpoint is None else find_checkpoint(above, checkpoint)[0]
    return "ok", {**tree, name: Alternative(parent, records, records, {})}


def drop(tree, name):
    find_below_top(tree, name)
    if any(other.parent == name for other in tree.values()):
        raise Refused("7 HasChildren")
    return "ok", without(tree, name)


def merge(tree, name, *settlements):
    alternative = find_below_top(tree, name)
    records = merged(tree, name, settlements)
    count = len(list(differences(alternative.current, records)))
    alternative = alternative._replace(current=records, base=tree[alternative.parent].current)
    return f"ok {count}", {**tree, name: alternative}


def post(tree, name):
    alternative = find_below_top(tree, name)
    parent = tree[alternative.parent]
    if alternative.base != parent.current:
        raise Refused("8 NotMerged")
    records = alternative.current
    posted = {alternative.parent: parent._replace(current=records), name: alternative._replace(base=records)}
    return "ok", {**tree, **posted}


def put(alternative, table, number, value):
    return alternative._replace(current={**alternative.current, key_of(table, number): value})


def remove(alternative, table, number):
    if key_of(table, number) not in alternative.current:
        raise Refused("5 NoSuchRecord")
    return alternative._replace(current=without(alternative.current, key_of(table, number)))


def checkpoint(alternative, name):
    if name in alternative.checkpoints:
        raise Refused("4 CheckpointExists")
    checkpoints = {**alternative.checkpoints, name: (alternative.current, alternative.base)}
    return alternative._replace(checkpoints=checkpoints)


def uncheck(alternative, name):
    find_checkpoint(alternative, name)
    return alternative._replace(checkpoints=without(alternative.checkpoints, name))


def back(alternative, name):
    current, base = find_checkpoint(alternative, name)
    return alternative._replace(current=current, base=base)


# Commands that change a tree, and those that change one alternative alone.
COMMANDS = {"commit": unchanged, "rollback": unchanged, "reclaim": unchanged}
COMMANDS.update(new=new, drop=drop, merge=merge, post=post)
EDITS = {"put": put, "remove": remove, "checkpoint": checkpoint, "uncheck": uncheck, "back": back}


def step(tree, verb, words):
    """What a command is answered, and the tree that it leaves."""
    if verb in COMMANDS:
        return COMMANDS[verb](tree, *words)
    name, *rest = words
    return "ok", {**tree, name: EDITS[verb](find(tree, name), *rest)}


def version(tree, word):
    """The records that a word means: an alternative's, those of its base, or of a checkpoint."""
    name, mark, checkpoint = word.partition("@")
    alternative = find(tree, name)
    if checkpoint:
        return find_checkpoint(alternative, checkpoint)[0]
    return alternative.base if mark else alternative.current


def in_part(key, part):
    """Whether a key is in a table, or between two numbers of it. Without words each key is."""
    table, *ends = map(int, part or [key[0]])
    return key[0] == table and (not ends or ends[0] <= key[1] <= ends[1])


def alts(tree):
    return [f"alternative {name} {alternative.parent}" for name, alternative in tree.items()]


def listed(tree, at, *part):
    return [record(*it) for it in sorted(version(tree, at).items()) if in_part(it[0], part)]


def listed_next(tree, at, table, number, count):
    found = [record(*it) for it in sorted(version(tree, at).items()) if it[0] >= key_of(table, number)]
    return found[: int(count)]


def diff(tree, first, second, *part):
    found = differences(version(tree, first), version(tree, second))
    return [row("change", *it) for it in found if in_part(it[0], part)]


def checks(tree, name):
    return [f"checkpoint {it}" for it in find(tree, name).checkpoints]


def changes(tree, name):
    alternative = find(tree, name)
    return [row("change", *each) for each in differences(alternative.base, alternative.current)]


def conflict_rows(tree, name):
    return [row("conflict", *each) for each in conflicts(tree, name)]


def record(key, value):
    return row("record", key, [value])


def row(word, key, values):
    return " ".join([word, *map(str, key), *("~" if value is None else value for value in values)])


# The lines of a list, but for the last.
QUERIES = {"alts": alts, "list": listed, "next": listed_next, "diff": diff, "checks": checks, "changes": changes}
QUERIES["conflicts"] = conflict_rows


def grown(state, blocks):
    if not state.blocks < blocks <= MOST:
        raise Refused("21 BadSize")
    return "ok", state._replace(blocks=blocks)


def answered(state, line):
    """The lines that a line is answered, and the state that it leaves."""
    verb, *words = line.split(" ")
    try:
        if verb in QUERIES:
            lines = QUERIES[verb](state.tree, *words)
            return [*lines, f"end {len(lines)}"], state
        if verb == "grow":
            answer, after = grown(state, int(*words))
            return [answer], after
        answer, tree = step(state.tree, verb, words)
        return [answer], state._replace(tree=tree)
    except Refused as refusal:
        return [f"error {refusal}"], state


# --- the program ----------------------------------------------------------------------------------


class Failure(Exception):
    """The program did what it must not."""


def unlike(line, expected, came):
    """The first line of an answer that isn't the expected one."""
    for number, (one, other) in enumerate(zip_longest(expected, came, fillvalue="nothing"), 1):
        if one != other:
            return f"{line}: line {number}\n    expected {one}\n    came     {other}"
    return ""


class Program:
    """A process of the program on a store."""

    def __init__(self, altctl, store, options=(), variables=None):
        words = [altctl, "run", *options, store]
        self.process = subprocess.Popen(words, stdin=subprocess.PIPE, stdout=subprocess.PIPE, env=variables)

    def send(self, lines):
        try:
            self.process.stdin.write("".join(f"{line}\n" for line in lines).encode())
            self.process.stdin.flush()
        except BrokenPipeError:
            pass  # It was killed, which the missing answers tell.

    def answer(self, line):
        """The lines that a line was answered, or None where the answer isn't whole."""
        is_list = line.split(" ")[0] in QUERIES
        lines = []
        while True:
            came = self.process.stdout.readline().decode()
            if not came.endswith("\n"):
                return None
            lines.append(came[:-1])
            if not is_list or came.startswith(("end ", "error ")):
                return lines

    def ask(self, line):
        self.send([line])
        return self.answer(line)

    def end(self, status):
        """Waits for the end, which has to be of this status."""
        try:
            self.process.stdin.close()
        except BrokenPipeError:
            pass
        self.process.stdout.close()
        if self.process.wait() != status:
            raise Failure(f"the program ended with status {self.process.returncode}")


# --- lines at random ------------------------------------------------------------------------------


def pick(chance, entries, others):
    """Mostly one of the entries, where there are any."""
    return chance.choice(list(entries) if entries and chance.random() < 0.8 else others)


def change(chance, state, merges):
    """A random line that changes an alternative or the number of blocks, or is refused."""
    tree = state.tree
    verbs = {
        "put": 60, "remove": 14, "new": 6, "drop": 3, "checkpoint": 5, "uncheck": 3, "back": 3, "rollback": 1,
        "reclaim": 1, "grow": 2,
    }
    if merges:
        verbs |= {"merge": 2, "post": 3}
    verb = chance.choices(list(verbs), list(verbs.values()))[0]
    name = pick(chance, tree, NAMES)
    if verb in ("rollback", "reclaim"):
        return verb
    if verb == "grow":
        return f"grow {state.blocks + chance.randrange(-1, MOST_NEW + 1)}"
    if verb == "new":
        at = f" {chance.choice(CHECKPOINTS)}" if chance.random() < 0.5 else ""
        return f"new {chance.choice(NAMES)} {name}{at}"
    if verb in ("drop", "merge", "post"):
        return f"{verb} {name}"
    if verb in ("checkpoint", "uncheck", "back"):
        return f"{verb} {name} {chance.choice(CHECKPOINTS)}"
    keys = [(table, number) for table in TABLES for number in NUMBERS]
    if verb == "put":
        return " ".join(map(str, ["put", name, *chance.choice(keys), chance.choice(VALUES)]))
    records = tree[name].current if name in tree else {}
    return " ".join(map(str, ["remove", name, *pick(chance, records, keys)]))


def changes(chance, state, merges, most):
    return [change(chance, state, merges) for _ in range(chance.randrange(most))]


def part_query(chance, tree):
    """A random query of a part or of a page, mostly of versions that are there."""
    at, other = (
        pick(chance, tree, NAMES) + chance.choice(["", "@", f"@{chance.choice(CHECKPOINTS)}"]) for _ in range(2)
    )
    table, first, last = chance.choice(TABLES), chance.choice(NUMBERS), chance.choice(NUMBERS)
    part = chance.choice([f"{table}", f"{table} {first} {last}"])
    return chance.choice([f"list {at} {part}", f"next {at} {table} {first} {last}", f"diff {at} {other} {part}"])


def commit(tree, stamp):
    """A commit that can be seen: `top` has one checkpoint of its own for it."""
    earlier = [name for name in tree["top"].checkpoints if name not in CHECKPOINTS]
    return [f"checkpoint top {stamp}", *(f"uncheck top {name}" for name in earlier), "commit"]


def merge(chance, name, conflict_lines):
    """A merge that settles each conflict."""
    keys = [line.split(" ")[1:3] for line in conflict_lines if line.startswith("conflict ")]
    sides = [f"{table}:{number}={chance.choice(['mine', 'theirs'])}" for table, number in keys]
    return " ".join(["merge", name, *sides])


# --- a life of the program ------------------------------------------------------------------------


class Life:
    """One process, from its start until it is killed."""

    def __init__(self, program, chance, merges, count):
        self.program = program
        self.chance = chance
        self.merges = merges
        self.count = count

    def look(self, allowed):
        """Which of the allowed states the store shows. It has a block more then, which is not committed."""
        seen = {"alts": self.shown("alts")}
        for alternative in seen["alts"][:-1]:
            name = alternative.split(" ")[1]
            for verb in ["list", "checks", *(["changes"] if self.merges else [])]:
                seen[f"{verb} {name}"] = self.shown(f"{verb} {name}")
            if self.merges:
                for line in f"list {name} 1 8 40", f"next {name} 1 8 20", f"diff {name}@ {name} 1":
                    seen[line] = self.shown(line)
        for state in allowed:
            if all(answered(state, line)[0] == came for line, came in seen.items()):
                self.count["commits under way"] += len(allowed) > 1
                self.count["commits under way that are shown"] += state is not allowed[0]
                self.look_at_blocks(state.blocks)
                return state
        raise Failure("\n".join(self.difference(state, seen) for state in allowed))

    def look_at_blocks(self, blocks):
        """Whether the store has so many blocks: it can't grow to that many, and it can to one more."""
        for due, line in ["error 21 BadSize", f"grow {blocks}"], ["ok", f"grow {blocks + 1}"]:
            came = self.shown(line)
            if came != [due]:
                raise Failure(f"after the opening, {unlike(line, [due], came)}")

    def shown(self, line):
        """The answer to a query before the program is killed."""
        came = self.program.ask(line)
        if came is None:
            raise Failure(f"after the opening, {line}: no answer")
        return came

    def difference(self, state, seen):
        """The first answer that a state has otherwise."""
        for line, came in seen.items():
            expected = answered(state, line)[0]
            if came != expected:
                return f"after the opening, {unlike(line, expected, came)}"
        return ""

    def work(self, committed):
        """Has lines carried out, after a look, until the program is killed. Gives the states that may be shown then."""
        state = committed._replace(blocks=committed.blocks + 1)
        while True:
            lines = self.batch(state)
            if lines is None:
                return [committed]
            self.program.send(lines)
            for line in lines:
                came = self.program.answer(line)
                if came is None:
                    return [committed, state] if line == "commit" else [committed]
                state = self.after(state, line, came)
                if line == "commit":
                    committed = state
                if line == "rollback":
                    state = committed

    def batch(self, state):
        """The next lines, or None where the program was killed."""
        self.count["batches"] += 1
        tree = state.tree
        if self.merges and not self.ask_part(state):
            return None
        lines = changes(self.chance, state, self.merges, 12)
        if self.merges and len(tree) > 1 and self.chance.random() < 0.4:
            name = self.chance.choice([name for name in tree if name != "top"])
            came = self.program.ask(f"conflicts {name}")
            if came is None:
                return None
            self.after(state, f"conflicts {name}", came)
            lines = [merge(self.chance, name, came), *([f"post {name}"] if self.chance.random() < 0.7 else []), *lines]
        if self.chance.random() < 0.6:
            lines += commit(tree, f"commit-{self.count['batches']}")
            lines += changes(self.chance, state, self.merges, 4)
        return lines

    def ask_part(self, state):
        """Asks for a part of a version. False where the program was killed."""
        line = part_query(self.chance, state.tree)
        came = self.program.ask(line)
        if came is not None:
            self.after(state, line, came)
        return came is not None

    def after(self, state, line, came):
        """The state after a line with its answer. A change may always be refused for want of blocks."""
        verb = line.split(" ")[0]
        refused = came[0].startswith("error ")
        self.count["answers"] += 1
        self.count["refusals"] += refused
        self.count["merges"] += verb == "merge" and not refused
        self.count["posts"] += verb == "post" and not refused
        self.count["growths"] += verb == "grow" and not refused
        self.count["rollbacks"] += verb == "rollback" and not refused
        expected, after = answered(state, line)
        if came == ["error 13 Full"] and verb in ("put", "remove", "merge"):
            self.count["refusals for want of blocks"] += 1
            return state
        if came != expected:
            raise Failure(unlike(line, expected, came))
        return after


def live(program, allowed, chance, merges, count):
    """Looks at the store, works on it until the program is killed, and gives what may be shown then."""
    life = Life(program, chance, merges, count)
    committed = life.look(allowed)
    killer = threading.Timer(chance.uniform(0, LONGEST_LIFE), program.process.kill)
    killer.start()
    try:
        return life.work(committed)
    finally:
        killer.join()


def kill_often(altctl, store, kills, seed, count):
    """Kills the program so many times, and looks a last time. A failure names the round."""
    allowed = [EMPTY]
    program = Program(altctl, store)
    merges = program.ask("merge top") == ["error 6 IsTop"]
    program.end(0)
    for number in range(kills):
        program = Program(altctl, store, OPTIONS[number % len(OPTIONS)])
        try:
            allowed = live(program, allowed, random.Random(f"{seed} {number}"), merges, count)
            program.end(-signal.SIGKILL)
        except Failure as failure:
            program.process.kill()
            raise Failure(f"seed {seed}, round {number}: {failure}") from None
    program = Program(altctl, store)
    Life(program, None, merges, count).look(allowed)
    program.end(0)


def main():
    beside = Path(__file__).resolve().parents[2] / "altctl"
    parser = argparse.ArgumentParser(description=__doc__.split(":")[0])
    parser.add_argument("altctl", nargs="?", default=str(beside))
    parser.add_argument("count", nargs="?", type=int, default=100)
    parser.add_argument("seed", nargs="?", type=int, default=1)
    words = parser.parse_args()
    count = Counter()
    with tempfile.TemporaryDirectory() as folder:
        store = f"{folder}/store"
        subprocess.run([words.altctl, "create", store, str(BLOCKS)], check=True, stdout=subprocess.DEVNULL)
        try:
            kill_often(words.altctl, store, words.count, words.seed, count)
        except Failure as failure:
            print(f"kill: {failure}")
            sys.exit(1)
    print(f"kill: all is as acknowledged, seed {words.seed}: {words.count} kills")
    for what, number in count.items():
        print(f"    {number} {what}")


if __name__ == "__main__":
    main()
