#!/usr/bin/env python3
"""Measures how a store grows in a year with twelve designs: `tools/measure/measure_year.py [--weeks N] [--features N]`.
The map is one layer of short records. Each week 500 records of `top` change, each design changes 50 and is merged, and
makes a checkpoint; every fourth week a third of the designs is posted, dropped and begun anew. It tells the blocks in
use by quarter, and what dropping frees."""
import argparse
import os
import random
import subprocess
import sys
import tempfile
from pathlib import Path

sys.dont_write_bytecode = True
TOP = Path(__file__).resolve().parents[2]
sys.path.insert(0, str(TOP / "clients" / "python"))
from altctl import Store

ALTCTL = os.environ.get("ALTCTL", str(TOP / "altctl"))
DESIGNS, BLOCKS = 12, 2**19
TOP_CHANGES, OWN_CHANGES, ROUND = 500, 50, 4


def value(chance):
    """Attributes of a usual length."""
    return b'{"1":"DU-%06d","2":"HDPE","3":110,"6":"Stadtwerke Nord","7":"Bahnhofstrasse","8":"%d"}' % (
        chance.randrange(10**6),
        chance.randrange(10**6),
    )


class Year:
    def __init__(self, store, features):
        self._store, self._features, self._chance = store, features, random.Random(2)
        for it in (7, 107):
            store.put_many("top", ((it, number, value(self._chance)) for number in range(1, features + 1)))
        self.blocks = store.blocks()
        self.alone = self.used()
        self.names = [f"design-{it}" for it in range(DESIGNS)]
        for it in self.names:
            store.new(it, "top")
        self.checks = {it: [] for it in self.names}

    def used(self):
        self._store.commit()
        self._store.reclaim()
        self._store.commit()
        return self.blocks - self._store.free()

    def change(self, alt, count):
        # Work is in one place: numbers close together.
        first = self._chance.randrange(1, self._features - count)
        records = ((self._chance.choice((7, 107)), it, value(self._chance)) for it in range(first, first + count))
        self._store.put_many(alt, list(records))

    def week(self, number):
        self.change("top", TOP_CHANGES)
        for it in self.names:
            self.change(it, OWN_CHANGES)
            self._store.merge(it, all="mine")
            self._store.checkpoint(it, f"week-{number}")
            self.checks[it].append(f"week-{number}")
        self._store.commit()
        if number % ROUND == 0:
            for it in self.names[number // ROUND % 3 :: 3]:
                self.post(it)

    def post(self, alt):
        self._store.merge(alt, all="mine")
        self._store.post(alt)
        self._store.drop(alt)
        self._store.new(alt, "top")
        self._store.commit()
        self.checks[alt] = []

    def drop_checkpoints(self):
        for alt, names in self.checks.items():
            for it in names:
                self._store.uncheck(alt, it)
            names.clear()

    def drop_designs(self):
        for it in self.names:
            self._store.drop(it)


def main():
    parser = argparse.ArgumentParser(prog="measure_year")
    parser.add_argument("--weeks", type=int, default=52)
    parser.add_argument("--features", type=int, default=50000)
    words = parser.parse_args()
    with tempfile.TemporaryDirectory() as folder:
        file = os.path.join(folder, "year.alt")
        subprocess.run([ALTCTL, "create", file, str(BLOCKS)], check=True, stdout=subprocess.DEVNULL)
        with Store(file, ALTCTL) as store:
            year = Year(store, words.features)
            print(f"the map alone: {year.alone} blocks")
            for number in range(1, words.weeks + 1):
                year.week(number)
                if number % 13 == 0 or number == words.weeks:
                    print(f"week {number}: {year.used()} blocks", flush=True)
            year.drop_checkpoints()
            print(f"without checkpoints: {year.used()} blocks")
            for it in year.names:
                store.merge(it, all="mine")
            print(f"all designs merged: {year.used()} blocks")
            year.drop_designs()
            print(f"without designs: {year.used()} blocks")


if __name__ == "__main__":
    main()
