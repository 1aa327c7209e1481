"""`altgis diff`: what differs between two versions, as layers of a file."""
from array import array
from collections import Counter

import numpy

import maps
from gis.exporting import LeftOut, Reader, steady
from gis.importing import portions
from gis.targets import write_file
from maps import Fault
from maps.merging import Choices, Merging

LAYERS = "added", "changed", "removed", "conflicts"
OWN = {"alt_id": "Integer64", "alt_side": "String", "alt_what": "String"}


class Differences:
    """The layers of a difference of one table. Their fields are those of the map, and before them the id, the side, and
    what differs: the names of fields, and of the geometry."""

    def __init__(self, described, made, bad):
        self._names, self._layers, self._bad = own_names(described), dict(zip(LAYERS, made)), bad
        self.counts = Counter()

    def add(self, layer, number, what, sides):
        """A feature as it is on these sides, a dict from side to its attributes and geometry, or None."""
        self.counts[layer] += 1
        for side, feature in sides.items():
            if feature is not None:
                told = dict(zip(self._names, (number, side, what)))
                try:
                    self._layers[layer].add(None, {**feature[0], **told}, feature[1])
                except Fault as fault:
                    self._bad(number, fault)


def own_names(described):
    return [maps.free_name(it, described["fields"]) for it in OWN]


def with_own_fields(described):
    own = [{"name": it, "type": kind} for it, kind in zip(own_names(described), OWN.values())]
    return {**described, "fields": own + described["fields"], "id": None}


class Table:
    """A layer in both versions."""

    def __init__(self, store, words, table, layers, bad):
        self._store, self._words, self.table, self._bad, self._faulty = store, words, table, bad, set()
        there = [it.get(table) for it in layers]
        self.described = maps.joined(*map(maps.numbered, (there[0] or there[1], there[1] or there[0])))
        self._readers = [Reader(it or there[0] or there[1]) for it in there]
        self._shape = maps.free_name("geometry", self.described["fields"])

    def fill(self, made):
        differences, store, words, table = (
            Differences(self.described, made, self._bad),
            self._store,
            self._words,
            self.table,
        )
        rows = (row for it in (table, table + maps.GEOMETRY) for row in store.diff(words.a, words.b, it))
        for numbers in portions(numpy.unique(array("Q", (it.number for it in rows))).tolist()):
            sides = [self.features(it, read, numbers) for it, read in zip((words.a, words.b), self._readers)]
            for number in (it for it in numbers if it not in self._faulty):
                before, after = (it.get(number) for it in sides)
                what = self._what(before, after)
                layer = "added" if before is None else "removed" if after is None else "changed"
                if layer != "changed" or what:
                    differences.add(
                        layer, number, what if layer == "changed" else "", {"before": before, "after": after}
                    )
        return differences

    def features(self, at, read, numbers):
        """The features that a version has of these: attributes by names, and geometry."""
        records = maps.read_features(self._store, at, self.table, numbers)
        found = {}
        for it in numbers:
            keys = (self.table, it), (self.table + maps.GEOMETRY, it)
            if any(key in records for key in keys):
                try:
                    found[it] = read(it, maps.value_at(records, *keys[0]) or b"{}"), maps.value_at(records, *keys[1])
                except Fault as fault:
                    self._faulty.add(it)
                    self._bad(it, fault)
        return found

    def _what(self, before, after):
        """The names of the fields that differ, and `geometry` if that does."""
        if before is None or after is None:
            return ""
        names = [it["name"] for it in self.described["fields"]]
        more = sorted({*before[0], *after[0]} - set(names))
        exact = lambda side, name: maps.to_text(side[0].get(name))
        found = [it for it in (*names, *more) if exact(before, it) != exact(after, it)]
        return ", ".join(found + ([self._shape] if before[1] != after[1] else []))

    def add_clashes(self, differences, merging):
        """What a person has to choose in a merge of two alternatives, one of which is the parent of the other."""
        what = {}
        for it in merging.plan.open:
            if it.table == self.table:
                what.setdefault(it.number, []).append(it.field)
        alt = merging.alt
        for numbers in portions(sorted(what)):
            versions = {
                "base": f"{alt}@",
                "parent": self._words.a if alt == self._words.b else self._words.b,
                "mine": alt,
            }
            reads = {"parent": self._readers[alt == self._words.a], "mine": self._readers[alt == self._words.b]}
            base = maps.layer_at(self._store, versions["base"], self.table)
            reads["base"] = Reader(base or self.described)
            sides = {side: self.features(at, reads[side], numbers) for side, at in versions.items()}
            for it in numbers:
                differences.add(
                    "conflicts", it, ", ".join(what[it]), {side: its.get(it) for side, its in sides.items()}
                )


def merging_of(store, words):
    """The merge of two versions, if one is the parent of the other, or None."""
    parents = {it.name: it.parent for it in store.alternatives()}
    for parent, mine in ((words.a, words.b), (words.b, words.a)):
        if parents.get(mine) == parent:
            merging = Merging(store, mine, Choices(), None)
            merging.make()
            return merging
    return None


def diff(store, words):
    """One layer of each kind for each table, with the layer's name before it if there are more tables than one."""
    check = steady(store, words, words.a, words.b)
    layers = [maps.layers(store, it) for it in (words.a, words.b)]
    tables = sorted({*layers[0], *layers[1]})
    due = tables if words.table is None else [it for it in tables if it == words.table]
    if not due or words.a == words.b:
        raise Fault(f"give two versions, and a --table of them: there are layers in {', '.join(map(str, tables))}")
    left_out = LeftOut()
    its = [Table(store, words, it, layers, left_out.of(it)) for it in due]
    prefixes = [f"{it.described['name']}_" if len(its) > 1 else "" for it in its]
    if len(set(prefixes)) < len(its):
        prefixes = [f"{it.described['name']}_{it.table}_" for it in its]

    def fill(*made):
        merging, told = merging_of(store, words), []
        for at, it in enumerate(its):
            differences = it.fill(made[at * len(LAYERS) : (at + 1) * len(LAYERS)])
            if merging:
                it.add_clashes(differences, merging)
            told.append(differences.counts)
        check()
        return told

    layers_due = [
        (with_own_fields(it.described), prefix + name) for it, prefix in zip(its, prefixes) for name in LAYERS
    ]
    for it, counts in zip(its, write_file(words.out, layers_due, fill)):
        told = ", ".join(f"{counts[name]} {name}" for name in LAYERS)
        print(f"{words.a} to {words.b}, table {it.table}: {told}")
    return left_out.tell()
