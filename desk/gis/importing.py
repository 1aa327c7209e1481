"""`altgis import`: puts what differs between layers of a file and tables of a store."""
import itertools
import sys
from array import array
from bisect import bisect
from collections import Counter

import numpy
from altctl import Refusal

import maps
import places
from gis.changes import Changes
from gis.filling import MANY, bookends
from gis.formats import names_of, open_layer, open_source
from gis.full import FULL, room
from gis.sources import Source
from maps import Fault, Fields, numbers

PORTION = 1000  # Features that are in memory at once.
MOST_NAMED = 20  # bad features
LEFT_OUT = 3  # The status if bad features were left out.


def portions(rows):
    """Rows in lists of a thousand."""
    rows = iter(rows)
    return iter(lambda: list(itertools.islice(rows, PORTION)), [])


def ids_of(keys, table):
    return {number for its_table, number in keys if its_table in (table, table + maps.GEOMETRY)}


def bring(store, words):
    """Imports one layer, or all of a file, as one commit or batch."""
    layers = maps.layers(store, words.alt)
    jobs = [Import(store, words, source, table, layers) for source, table in sources(words, layers)]
    if words.new:
        for it in jobs:
            it.take_numbers()
    changes = Changes(store, words, words.is_service)
    try:
        for it in jobs:
            it.run(changes)
        told = "; ".join(it.told() for it in jobs)
        changes.commit(f"the import is in the store: {told}")
    except Refusal as refusal:
        if refusal.number != FULL:
            raise
        raise Fault(f"refused: {refusal}: {room(store, words, changes, jobs)}") from None
    finally:
        changes.forget()
    if words.dry_run:
        print("a dry run, which changes nothing:")
    elif changes.checkpoint:
        print(f"checkpoint {changes.checkpoint} of {words.alt} has what was there before")
    for it in jobs:
        print(it.told())
    if words.dry_run or not changes.are_any:
        return max(it.status for it in jobs)
    for it in jobs:
        it.pass_over()
    if words.alt == "top":
        index(store, words, {it.table: it.found.places() for it in jobs if it.found})
        numbers.renew(store, words.is_service)
    return max(it.status for it in jobs)


def sources(words, layers):
    """The layers of the file, each with its table: that of the layer of its name in the store, or else the first free
    one."""
    if not words.all:
        return [(Source(*open_layer(words.file, words.layer), words.id), words.table)]
    known = {it["name"]: table for table, it in sorted(layers.items(), reverse=True)}
    free = (it for it in maps.TABLES if it >= words.first_table and it not in layers)
    names = names_of(open_source(words.file))
    tables = [known.get(name) or next(free, None) for name in names]
    if None in tables:
        raise Fault(
            f"{words.file} has {len(names)} layers, and there are not so many free tables from {words.first_table} on"
        )
    return [(Source(*open_layer(words.file, name)), table) for name, table in zip(names, tables)]


class Import:
    """One layer into one table."""

    def __init__(self, store, words, source, table, layers):
        self._store, self._words, self._source, self.table = store, words, source, table
        self._alt, self._bad, self.status = words.alt, [], 0
        self.counts, self._highest, self._given = Counter(), -1, range(0)
        self.name = words.name or source.described["name"]
        self.is_new = table not in layers
        # Nobody else puts features into a new table of a file, so these are all that the index of places wants to know.
        self.found = places.Found() if self.is_new and words.alt == "top" and not words.is_service else None
        self._check(layers.get(table))
        self.layer = self._layer(layers.get(table))
        self.total = source.count()

    def _check(self, there):
        store, alt, table = self._store, self._alt, self.table
        if there and there["name"] != self.name and not self._words.rename:
            told = f"table {table} of {alt} has the layer {there['name']}, and this one is {self.name}"
            raise Fault(f"{told}: give another --table, or --rename, or --name {there['name']}")
        if self.is_new and store.get(alt, 0, table) is not None:
            raise Fault(f"table 0 has a record that is no layer, for table {table}")
        if self.is_new and any(row.table == it for it in maps.tables_of(table) for row in store.next(alt, it, 0, 1)):
            raise Fault(f"table {table} has records, and they are no layer")

    def _layer(self, there):
        """The layer that the import leaves, with numbers for its fields and the links that were asked for."""
        new = {**self._source.described, "name": self.name}
        if there:
            new = (maps.replaced if self._words.sync else maps.joined)(maps.numbered(there), new)
        if not there or not all("number" in it for it in new["fields"]):
            new = maps.numbered(new, numbers.first_of_fields(self._store, self.table))
        links = dict(it.rpartition("=")[::2] for it in self._words.link or ())
        unknown = set(links) - {it["name"] for it in new["fields"]}
        if unknown or not all(it.isdecimal() and int(it) in maps.TABLES for it in links.values()):
            raise Fault(f"a link is FIELD=TABLE, and {self.name} has to have the field: {', '.join(self._words.link)}")
        fields = [{**it, "link": int(links[it["name"]])} if it["name"] in links else it for it in new["fields"]]
        return {**new, "fields": fields}

    def _note(self, told):
        if not self._words.skip_bad:
            raise Fault(f"{told} (--skip-bad leaves bad features out)")
        self._bad.append(told)
        self.status = LEFT_OUT

    def take_numbers(self):
        """With `--new` the features get numbers of the store. These are taken before anything is changed."""
        if self._words.dry_run:
            first = numbers.free_number(self._store, self.table)
            self._given = range(first, first + self.total)
        elif self.total:
            self._given = numbers.take(self._store, self.table, self.total, self._words.is_service)

    def _features(self, fields):
        features = self._source.features(fields, self._note)
        return self._with_numbers(features) if self._words.new else features

    def _with_numbers(self, features):
        given = iter(self._given)
        for _, *feature in features:
            number = next(given, None)
            if number is None:
                raise Fault(f"the layer {self.name} has more features than the {self.total} that its file tells of")
            yield (number, *feature)

    def run(self, changes):
        """Puts the features of the layer, and removes those that are gone if that is asked for."""
        store, alt, table = self._store, self._alt, self.table
        fields, firsts, seen, parts, ends = Fields(self.layer), set(), array("Q"), set(), None
        features = self._features(fields)
        update = maps.Update(maps.read(store, alt, [(0, table)]))
        update.set(0, table, maps.to_text(self.layer).encode())
        changes.make(update.gone(), update.put)
        for portion in portions(features):
            numbers_of = [it[0] for it in portion]
            there = {} if self.is_new else maps.read_features(store, alt, table, numbers_of)
            update = maps.Update(there, firsts, fields.is_same)
            told = {number: update.set_feature(table, number, *it) for number, *it, _ in portion}
            if self.found:
                for number, _, course, bounds in portion:
                    self.found.add(number, course, bounds)
            gone = update.gone()
            told.update((it, "changed") for it in ids_of(gone, table) if told[it] == "same")
            added = [it for it, what in told.items() if what == "added"]
            if ends is None and len(added) >= MANY:
                ends = bookends(store, alt, table)
                changes.make([], ends)
            changes.make(gone, update.put)
            self.counts.update(told.values())
            self._highest = max([self._highest, *added])
            seen.extend(numbers_of)
            parts.update(it for it in gone if it[0] >= maps.PARTS)
        changes.make(list(ends or ()), {})
        changes.wait()
        self._remove(changes, once(seen), firsts, parts)

    def _remove(self, changes, seen, firsts, parts):
        removed = set()
        for portion in portions([] if self.is_new else self._left(seen, firsts)):
            changes.make([it for it in portion if it not in parts], {})
            removed |= ids_of(portion, self.table)
        self.counts["removed"] = len(removed)

    def _left(self, seen, firsts):
        """The keys to remove: with `--sync` those of features that are not seen, and always parts that belong to no
        value. `firsts` has those of the seen features' values."""
        store, alt = self._store, self._alt

        def is_seen(number):
            at = bisect(seen, number)
            return at > 0 and seen[at - 1] == number

        *tables, parts = maps.tables_of(self.table)
        if self._words.sync or any(it.table == parts for it in store.next(alt, parts, 0, 1)):
            for it in (row for table in tables for row in store.scan(alt, table)):
                if is_seen(it.number):
                    continue
                if self._words.sync:
                    yield it.table, it.number
                else:
                    firsts.update(key[1] // maps.MOST_PARTS for key in maps.part_keys(it.table, it.value))
        for it in store.scan(alt, parts):
            if it.number // maps.MOST_PARTS not in firsts:
                yield it.table, it.number

    def told(self):
        told = ", ".join(f"{self.counts[it]} {it}" for it in ("added", "changed", "removed", "same"))
        return f"{self.name} into {self._alt}, table {self.table}: {told}"

    def pass_over(self):
        """Tells of the bad features, and lets no number be given that the layer has brought along."""
        for it in self._bad[:MOST_NAMED]:
            print(f"altgis: left out: {it}", file=sys.stderr)
        if self._bad:
            print(f"altgis: {len(self._bad)} features are left out, as they are bad", file=sys.stderr)
        if self._highest >= 0 and not self._words.new:
            numbers.pass_over(self._store, self.table, self._highest, self._words.is_service)


def once(seen):
    """The ids in their order."""
    found = numpy.sort(seen)
    twice = found[1:][found[1:] == found[:-1]]
    if len(twice):
        raise Fault(f"two features have the id {twice[0]}")
    return array("Q", found.tobytes())


def index(store, words, fresh=None):
    """Lets the index of places follow, if this planner may do that. Without it the map is right, too. `fresh` has the
    places of whole tables."""
    try:
        places.renew(store, words.is_service, fresh)
    except Refusal as refusal:
        print(f"altgis: the index of places is as it was: {refusal}", file=sys.stderr)
