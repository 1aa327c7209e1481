#!/usr/bin/env python3
"""Measures how many batches a second planners commit through the one stream of `altctl serve --planners`, each batch by
itself (`line`) and all that wait with one commit (`later` and `go`):

    tools/measure/measure_groups.py [--planners N] [--seconds N] [--rounds N] [--slow MICROSECONDS] [ALTCTL]

In each turn every planner sends a batch, a single change or ten of them, all of which change records of 10,000; the
next turn begins when all of them are answered. With `--slow` each sync takes that much longer, as on a slower disk.
Times are looked at, never tested."""
import argparse
import random
import subprocess
import sys
import tempfile
import time
from statistics import median

sys.dont_write_bytecode = True
from measure_service import RECORDS, TOP, shown, slowed, sync_time

LINES = 10


def put():
    return f"put top 7 {random.randrange(RECORDS)} value-{random.randrange(1 << 30)}"


def change(number, verb):
    """A single change, and how many lines of answer are due."""
    return f"{verb} {number} {put()}\n", 2


def batch(number, verb):
    """A batch, which waits if its commit does. The answers to `begin` come at once."""
    lines = ["line {0} begin", *(f"line {{0}} {put()}" for _ in range(LINES)), f"{verb} {{0}} commit"]
    return "".join(f"{it}\n".format(number) for it in lines), 2 + 1 + LINES + 1


class Stream:
    """The program over a store with the records, and the planners in its stream."""

    def __init__(self, altctl, folder, planners, variables):
        file = f"{folder}/map.alt"
        subprocess.run([altctl, "create", file, "16384"], check=True, stdout=subprocess.DEVNULL)
        lines = "".join(f"put top 7 {number} value\n" for number in range(RECORDS)) + "commit\n"
        subprocess.run([altctl, "run", file], input=lines.encode(), check=True, stdout=subprocess.DEVNULL)
        words = [altctl, "serve", "--planners", file]
        self.process = subprocess.Popen(words, stdin=subprocess.PIPE, stdout=subprocess.PIPE, env=variables)
        self.numbers = range(1, planners + 1)
        self.ask("".join(f"join {it}\n" for it in self.numbers), 2 * planners)

    def ask(self, text, due):
        """Sends a text, and reads so many lines of answer."""
        self.process.stdin.write(text.encode())
        self.process.stdin.flush()
        answers = [self.process.stdout.readline() for _ in range(due)]
        if any(not it or it.startswith(b"error") for it in answers):
            sys.exit(f"measure_groups: answered {answers}")

    def turn(self, kind, verb):
        """Every planner has a batch committed."""
        said = [kind(number, verb) for number in self.numbers]
        goes = verb == "later"
        self.ask("".join(it for it, _ in said) + "go\n" * goes, sum(it for _, it in said) + 2 * goes)

    def measured(self, kind, verb, seconds):
        """How many turns a second there are."""
        self.turn(kind, verb)
        turns, begun = 0, time.monotonic()
        while time.monotonic() < begun + seconds:
            self.turn(kind, verb)
            turns += 1
        return turns / (time.monotonic() - begun)


def main():
    parser = argparse.ArgumentParser(description=__doc__.split(":")[0])
    parser.add_argument("--planners", type=int, default=64, help="200 at most")
    parser.add_argument("--seconds", type=int, default=2, help="of each measurement")
    parser.add_argument("--rounds", type=int, default=5, help="how often each is done; the median counts")
    parser.add_argument("--slow", type=int, default=0, help="microseconds added to each sync")
    parser.add_argument("altctl", nargs="?", default=str(TOP / "altctl"))
    said = parser.parse_args()
    kinds = {"single changes": change, f"batches of {LINES} lines": batch}
    found = {(what, verb): [] for what in kinds for verb in ("line", "later")}
    with tempfile.TemporaryDirectory() as folder:
        stream = Stream(said.altctl, folder, said.planners, slowed(said, folder))
        syncs = []
        for _ in range(said.rounds):
            syncs.append(sync_time(folder))
            for what, verb in found:
                found[what, verb].append(stream.measured(kinds[what], verb, said.seconds))
        stream.process.stdin.close()
        stream.process.wait()
    slower = f" and {said.slow} more" if said.slow else ""
    print(f"{said.planners} planners; a sync takes {median(syncs):.0f} µs{slower}")
    print(shown("A second", ["Batches", "Commits"]) + "\n" + "|---" * 3 + "|")
    for (what, verb), rates in found.items():
        turns = median(rates)
        commits = turns if verb == "later" else turns * said.planners
        how = "by `later` and `go`" if verb == "later" else "by `line`"
        print(shown(f"{what}, {how}", [f"{turns * said.planners:,.0f}", f"{commits:,.0f}"]))


if __name__ == "__main__":
    main()
