"""`altgis export`: a version as layers of a file."""
import contextlib
import sqlite3
import sys

import maps
from gis.importing import LEFT_OUT, MOST_NAMED
from gis.sources import MOST_ID
from gis.targets import write_file
from maps import Fault, Fields, numbers


def steady(store, words, *versions):
    """What raises a Fault if these versions have changed since now: a service carries out others' batches between two
    pages."""
    alts = sorted({it.partition("@")[0] for it in versions})

    def last_lines():
        return [it for alt in alts for it in store.log(alternative=alt, last=1)] if words.is_service else []

    before = last_lines()

    def check():
        if last_lines() != before:
            raise Fault(f"{' or '.join(alts)} has changed meanwhile: do it again, or with a checkpoint")

    return check


class LeftOut:
    """The features that cannot be written. They are left out, and named at the end."""

    def __init__(self):
        self._faults = {}

    def of(self, table):
        """What notes that a feature of a table is bad."""
        return lambda number, fault: self._faults.setdefault((table, number), fault)

    def tell(self):
        """Names them, and gives the status that altgis ends with."""
        for key in sorted(self._faults)[:MOST_NAMED]:
            print(f"altgis: left out {key[0]}:{key[1]}: {self._faults[key]}", file=sys.stderr)
        if self._faults:
            print(f"altgis: {len(self._faults)} features are left out, as they are bad", file=sys.stderr)
        return LEFT_OUT if self._faults else 0


class Reader:
    """What reads the attributes of a layer's features: by names, the id among them if a field of the layer has it."""

    def __init__(self, layer):
        self._fields = Fields(layer)
        self._ids = [it for it in layer["fields"] if it["name"] == layer["id"]]

    def __call__(self, number, value):
        if number > MOST_ID:
            raise Fault(f"feature {number} has another id than features have")
        try:
            found = self._fields.named(value)
        except Fault as fault:
            raise Fault(f"feature {number}: {fault}") from None
        for it in self._ids:
            found[it["name"]] = str(number) if it["type"] == "String" else number
        return found


def export(store, words):
    check = steady(store, words, words.version)
    layers, bad = maps.layers_and_bad(store, words.version)
    tables = sorted(layers) if words.table is None else [words.table]
    for it in bad.values():
        print(f"altgis: {it}", file=sys.stderr)
    if not set(tables) & set(layers):
        raise Fault(f"{words.version} has no layer, or none in table {words.table}")
    if words.layer and len(tables) > 1:
        told = f"{words.version} has layers in the tables {', '.join(map(str, tables))}"
        raise Fault(f"{told}: give --table with --layer")
    names = [words.layer or layers[it]["name"] for it in tables]
    given = take_numbers(store, words, layers, tables)
    left_out = LeftOut()

    def fill(*made):
        for table, layer in zip(tables, made):
            read, bad = Reader(layers[table]), left_out.of(table)
            for number, text, course in maps.scan_features(store, words.version, table, bad):
                try:
                    layer.add(number, read(number, text), course)
                except Fault as fault:
                    bad(number, fault)
        check()
        return [it.count for it in made]

    finish = lambda file: begin_at(file, dict(zip(names, given))) if words.numbers else None
    counts = write_file(words.out, [(layers[it], name) for it, name in zip(tables, names)], fill, words.plain, finish)
    for table, name, count, its in zip(tables, names, counts, given):
        more = f"; new ones get the numbers {its[0]} to {its[-1]}" if words.numbers else ""
        print(f"{name} of {words.version}, table {table}: {count} features{more}")
    return left_out.tell()


def take_numbers(store, words, layers, tables):
    """A thousand numbers for each table, if that is asked for: they are nobody else's from then on."""
    if not words.numbers:
        return [range(0)] * len(tables)
    if "@" in words.version or not words.out.lower().endswith(".gpkg"):
        raise Fault("--numbers is for an alternative as it is now, and a name that ends with .gpkg")
    other = [it for it in tables if layers[it]["id"] is not None]
    if other:
        raise Fault(f"--numbers is for fids, and the ids of table {other[0]} are in the field {layers[other[0]]['id']}")
    return [numbers.take(store, it, numbers.RANGE, words.is_service) for it in tables]


def begin_at(file, given):
    """Lets a GeoPackage number the features that are drawn in it from the first of these numbers on."""
    with contextlib.closing(sqlite3.connect(file)) as database:
        for name, its in given.items():
            database.execute("DELETE FROM sqlite_sequence WHERE name = ?", (name,))
            database.execute("INSERT INTO sqlite_sequence (name, seq) VALUES (?, ?)", (name, its[0] - 1))
        database.commit()
