#!/usr/bin/env python3
"""Loses what a sync that failed did not bring to the device: `tools/faults/failed_sync.py [ALTCTL] [-n ROUNDS]`. If a
power loss after it takes back an acknowledged commit, it says how often and ends with status 1.

Linux tells once that a sync failed, and from then on counts the blocks as written: the next sync succeeds, though the
device has nothing of them, while reads still show them. In each round a sync of a session fails so. A second session
opens the store and commits, and loses the power in one of its syncs, which brings some of its blocks to the device,
whole or half. What the device has then must open, and show what was acknowledged last, or what a commit that got no
answer makes.

In a third of the rounds the system drops its copies of what it counts as written before the second opening, and reads
what the device has. `lose_sync.c`, loaded before the C library, is device and system.

It needs a C compiler, and a program that is linked against glibc. It stands beside the gate, as `failing_device.py`
does.
"""
from __future__ import annotations

import argparse
import os
import random
import shutil
import subprocess
import sys
import tempfile
from typing import Dict, List, Tuple

sys.dont_write_bytecode = True
from preloaded import ALTCTL, compiled, preloaded

# A store has so many blocks at first, and some of its commits come after a growth.
BLOCK, BLOCKS = 4096, 256
KEYS = 60
Records = Dict[int, str]


class Failure(Exception):
    """Something is answered otherwise than it should be."""


class Lost(Exception):
    """What was acknowledged is not there."""


class Machine:
    """A store as the system shows it and as the device has it, and the program over it."""

    def __init__(self, altctl: str, library: str, folder: str) -> None:
        self.altctl, self.library = altctl, library
        self.store, self.device, self.dirty = (os.path.join(folder, name) for name in ("store", "device", "dirty"))

    def create(self) -> None:
        for file in (self.store, self.device, self.dirty):
            if os.path.exists(file):
                os.remove(file)
        words = [self.altctl, "create", self.store, str(BLOCKS)]
        subprocess.run(words, stdout=subprocess.DEVNULL, check=True, timeout=60)
        shutil.copyfile(self.store, self.device)
        with open(self.dirty, "wb") as it:
            it.write(bytes(BLOCKS))

    def run(self, lines: List[str], **faults: int) -> Tuple[int, List[str], str]:
        """Runs lines. Gives the status, the answers and what is said of errors."""
        variables = preloaded(self.library, store=self.store, device=self.device, dirty=self.dirty, **faults)
        text, words = "".join(f"{line}\n" for line in lines), [self.altctl, "run", self.store]
        ran = subprocess.run(words, input=text, capture_output=True, text=True, env=variables, timeout=60)
        return ran.returncode, ran.stdout.splitlines(), ran.stderr

    def drop_copies(self) -> None:
        """Has the system read again what it counts as written."""
        with open(self.dirty, "rb") as dirty, open(self.device, "rb") as device, open(self.store, "r+b") as store:
            for block, is_dirty in enumerate(dirty.read()):
                if not is_dirty:
                    device.seek(block * BLOCK)
                    store.seek(block * BLOCK)
                    store.write(device.read(BLOCK))

    def shown(self, file: str) -> Records:
        """The records that a file shows if it is only read."""
        words = [self.altctl, "do", "--read-only", file, "list top"]
        ran = subprocess.run(words, capture_output=True, text=True, timeout=60)
        if ran.returncode:
            raise Lost(f"the store does not open: {ran.stderr.strip()}")
        return records_in(ran.stdout.splitlines())


def records_in(answers: List[str]) -> Records:
    rows = [line.split() for line in answers if line.startswith("record ")]
    return {int(number): value for _, _, number, value in rows}


def draw_commits(rng: random.Random, records: Records, name: str) -> Tuple[List[str], List[Records]]:
    """The lines of a session of several commits, and the records that each of them makes."""
    lines: List[str] = []
    states: List[Records] = []
    for commit in range(rng.randint(1, 3)):
        for number in rng.sample(range(KEYS), rng.randint(1, 40)):
            records = {**records, number: f"{name}{commit}"}
            lines.append(f"put top 1 {number} {records[number]}")
        if rng.random() < 0.3:
            lines.insert(-1, f"grow {BLOCKS + rng.randint(1, 300)}")
        states.append(records)
        lines.append("commit")
    return lines, states


def acknowledged(lines: List[str], answers: List[str]) -> int:
    """How many commits were answered `ok`."""
    return sum(line == "commit" and answer == "ok" for line, answer in zip(lines, answers))


def try_round(machine: Machine, rng: random.Random) -> None:
    machine.create()
    lines, made = draw_commits(rng, {}, "a")
    states: List[Records] = [{}, *made]
    # The opening syncs once, each commit before its selector and after it. Mostly the selector's sync fails.
    failing = 2 * rng.randint(1, len(made)) + (rng.random() < 0.8)
    status, answers, faults = machine.run(lines, fail_sync=failing)
    if (status, answers[-1:], faults) != (3, ["error 15 Device"], "altctl: stopped\n"):
        raise Failure(f"sync {failing} of {lines} failed, and it ends with {status}, {answers[-1:]}, {faults}")
    done = acknowledged(lines, answers)
    may_show = states[done : done + 2]
    if rng.random() < 1 / 3:
        machine.drop_copies()
    found = machine.shown(machine.store)
    if found not in may_show:
        raise Lost(f"the next opening shows {found}")
    lines, made = draw_commits(rng, found, "b")
    _, answers, _ = machine.run(lines, cut_sync=rng.randint(1, 2 * len(made) + 1), seed=rng.randrange(1 << 30))
    done = acknowledged(lines, answers)
    shown = machine.shown(machine.device)
    if shown not in ([*may_show, *made[:1]] if done == 0 else made[done - 1 : done + 1]):
        raise Lost(f"{done} later commits were acknowledged, and the device shows {shown}")


def main() -> int:
    parser = argparse.ArgumentParser(description=__doc__.splitlines()[0])
    parser.add_argument("altctl", nargs="?", default=ALTCTL)
    parser.add_argument("-n", type=int, default=200, metavar="ROUNDS")
    parser.add_argument("-s", type=int, default=1, metavar="SEED")
    given = parser.parse_args()
    altctl, losses = os.path.abspath(given.altctl), []
    subprocess.run([altctl, "--help"], stdout=subprocess.DEVNULL, check=True)
    with tempfile.TemporaryDirectory() as folder:
        machine = Machine(altctl, compiled("lose_sync", folder), folder)
        for number in range(given.n):
            try:
                try_round(machine, random.Random(f"{given.s} {number}"))
            except Lost as lost:
                losses.append(f"round {number}: {lost}")
            except Failure as failure:
                print(f"failed_sync: round {number}: {failure}", file=sys.stderr)
                return 1
    if losses:
        lost = f"{len(losses)} of {given.n} rounds lost what was acknowledged"
        print(f"failed_sync: {lost}, as {losses[0][:300]}", file=sys.stderr)
        return 1
    print(f"failed_sync: {given.n} syncs failed, and nothing that was acknowledged was lost")
    return 0


if __name__ == "__main__":
    sys.exit(main())
