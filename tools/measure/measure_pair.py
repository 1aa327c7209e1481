#!/usr/bin/env python3
"""Measures two programs by the same lines, such as one before a change and one after it:
`tools/measure/measure_pair.py [-n RECORDS] [-r ROUNDS] BEFORE AFTER`.

For values of 16 and of 200 bytes and for the mixture of a network (`measure_sizes.py`) it loads 100,000 records in
random order and by rising keys, gets them, lists them, and has 20 designs of 100 changes each told and merged with as
many changes of their parent. All answers have to be the same. A time is the least one of the rounds, of the processor,
from start to end: what one program reads as it opens a store, another may read later. Times are looked at, never
tested: the status tells only whether all was answered alike."""
import argparse
import os
import random
import subprocess
import sys
import tempfile

sys.dont_write_bytecode = True
from measure_sizes import VALUES

DESIGNS, CHANGES = 20, 100


def text_of(lines):
    return b"".join(line + b"\n" for line in lines)


def steps_of(records, size_of):
    """What is done to a new store, step by step: what it is, and its lines. A step without a name is not told."""
    rng, numbers = random.Random(1), list(range(1, records + 1))
    shuffled = rng.sample(numbers, records)
    value = lambda letter: letter * size_of(rng)
    put = lambda alt, number, letter: b"put %s 1 %d %s" % (alt, number, value(letter))
    names = [b"d%d" % design for design in range(DESIGNS)]
    drawn = [(name, rng.sample(numbers, CHANGES)) for name in names]
    yield "puts in random order", text_of([*(put(b"top", it, b"v") for it in shuffled), b"commit"])
    yield "gets", text_of(b"get top 1 %d" % it for it in shuffled)
    yield "a list", b"list top\n"
    made = [line for name, its in drawn for line in (b"new %s top" % name, *(put(name, it, b"d") for it in its))]
    theirs = [put(b"top", it, b"t") for it in rng.sample(numbers, CHANGES)]
    yield f"{DESIGNS} designs of {CHANGES} changes", text_of([*made, *theirs, b"commit"])
    yield "changes of them", text_of(b"changes " + name for name in names)
    yield "merges of them", text_of([*(b"merge %s all=mine" % name for name in names), b"commit"])


def rising(records, size_of):
    rng = random.Random(1)
    puts = (b"put top 1 %d %s" % (number, b"v" * size_of(rng)) for number in range(1, records + 1))
    yield "puts by rising keys", text_of([*puts, b"commit"])


def run(program, file, lines):
    """Runs lines over a store. Gives the answers, and the seconds of the processor."""
    with tempfile.TemporaryFile() as given, tempfile.TemporaryFile() as answers:
        given.write(lines)
        given.seek(0)
        ran = subprocess.Popen([program, "run", file], stdin=given, stdout=answers)
        _, status, used = os.wait4(ran.pid, 0)
        ran.returncode = os.waitstatus_to_exitcode(status)
        if ran.returncode:
            sys.exit(f"measure_pair: {program} ended with status {ran.returncode}")
        answers.seek(0)
        return answers.read(), used.ru_utime + used.ru_stime


def measure(program, folder, records, steps):
    """Carries out all steps over a new store. Gives the answers to each, and its time."""
    file, found = os.path.join(folder, "store"), []
    subprocess.run([program, "create", file, str(4096 + records)], stdout=subprocess.DEVNULL, check=True)
    for _, lines in steps:
        found.append(run(program, file, lines))
    os.remove(file)
    return found


def compared(programs, folder, records, steps, rounds):
    """The least times of both programs for each step."""
    least = [[float("inf")] * 2 for _ in steps]
    for _ in range(rounds):
        came = [measure(program, folder, records, steps) for program in programs]
        for (what, _), times, (one, took), (other, took_too) in zip(steps, least, *came):
            if one != other:
                sys.exit(f"measure_pair: {what}: the programs answer otherwise")
            times[:] = min(times[0], took), min(times[1], took_too)
    return least


def main():
    words = argparse.ArgumentParser(description=__doc__.split(":")[0])
    words.add_argument("-n", type=int, default=100000, help="how many records")
    words.add_argument("-r", type=int, default=5, help="how many rounds")
    words.add_argument("before")
    words.add_argument("after")
    said = words.parse_args()
    print(f"| {said.n:,} records | Before | After | Ratio |\n|---|---|---|---|")
    with tempfile.TemporaryDirectory() as folder:
        for name in ("16 bytes", "200 bytes", "a network's mixture"):
            for made in (steps_of, rising):
                steps = list(made(said.n, VALUES[name]))
                found = compared([said.before, said.after], folder, said.n, steps, said.r)
                for (what, _), (one, other) in zip(steps, found):
                    ratio = f"{other / one:.2f}" if one else ""
                    print(f"| {name}: {what} | {1000 * one:.1f} ms | {1000 * other:.1f} ms | {ratio} |", flush=True)
    return 0


if __name__ == "__main__":
    sys.exit(main())
