"""Finding features by what their fields say, and which values a field has. The attributes of a table lie in memory as
one text, which is searched in a few hundredths of a second even if it has 200,000 features.

The text is that of the alternative `.places`, which nobody edits: what a design has otherwise `diff .places DESIGN`
tells, so what is found is never out of date. Without an index the text is of the design itself, and is read anew after
each change."""
import bisect
from typing import NamedTuple

import maps
import places
from values import attributes_of

MOST_FOUND = 200
MOST_VALUES = 200  # of a field, for a list to choose from


class Source(NamedTuple):
    """A table of a version, as it was at a batch."""

    at: str
    table: int
    stamp: int


class Texts:
    """The attributes of a table as one text, and the values that occur in each field, None for too many."""

    def __init__(self, rows, layer):
        self.numbers, self.starts, self.values, size, parts = [], [], {}, 0, []
        for number, value in rows:
            attributes = attributes_of(value, layer)
            self._count(attributes)
            part = as_searched("\n".join(attributes.values()))
            self.numbers.append(number)
            self.starts.append(size)
            parts.append(part)
            size += len(part) + 1
        self.text = b"\0".join(parts)

    def _count(self, attributes):
        for name, text in attributes.items():
            known = self.values.setdefault(name, {})
            if known is not None:
                known[text] = known.get(text, 0) + 1
                if len(known) > MOST_VALUES:
                    self.values[name] = None

    def hits(self, wanted):
        """The numbers of the features that have a text somewhere."""
        at = self.text.find(wanted)
        while at >= 0:
            index = bisect.bisect_right(self.starts, at) - 1
            yield self.numbers[index]
            after = self.starts[index + 1] if index + 1 < len(self.starts) else len(self.text)
            at = self.text.find(wanted, after)


def as_searched(text):
    """A text as it is compared: without regard to capitals."""
    return text.replace("\0", " ").casefold().encode("utf-8", "replace")


def read_texts(store, source, layer, in_pieces):
    return Texts(in_pieces(maps.scan_values(store, source.at, source.table, bad=lambda *_: None)), layer)


class Finder:
    """The texts that were read. Reading one takes a few seconds for 200,000 features, so the desk does it beside its
    other work."""

    def __init__(self):
        self.texts = {}

    def sources(self, designs, alt):
        """What is searched for a design, each with its layer."""
        layers = designs.design(alt).layers
        at, stamp = (places.OWN, designs.indexed) if designs.has_index else (alt, designs.stamp(alt))
        return {Source(at, table, stamp): layer for table, layer in sorted(layers.items())}

    def missing(self, designs, alt):
        return {it: layer for it, layer in self.sources(designs, alt).items() if it not in self.texts}

    def take(self, texts):
        """Keeps texts in place of those of the same table and version."""
        old = [it for it in self.texts if any((it.at, it.table) == (new.at, new.table) for new in texts)]
        for it in old:
            del self.texts[it]
        self.texts.update(texts)

    def find(self, designs, alt, text, field=None, table=None):
        """The features of a design that have a text in a field, or in any, or as their number."""
        wanted, found = as_searched(text), []
        for source, layer in self.sources(designs, alt).items():
            if wanted and source in self.texts and table in (None, source.table):
                found += self._in_table(designs, alt, source, layer, wanted, field, MOST_FOUND + 1 - len(found))
        return {"found": found[:MOST_FOUND], "is_more": len(found) > MOST_FOUND}

    def _in_table(self, designs, alt, source, layer, wanted, field, most):
        changed = {}
        if source.at != alt:
            rows = {(it.table, it.number): it.after for it in designs.store.diff(source.at, alt, source.table)}
            there = {key: value for key, value in rows.items() if value is not None}
            records = maps.with_parts(designs.store, alt, there)
            changed = {key[1]: places.safe_value(records, key) for key in rows}
        found = []
        number = int(wanted) if wanted.isdigit() and len(wanted) < 20 else None
        if number is not None and field is None:
            value = places.safe_value(maps.read(designs.store, alt, [(source.table, number)]), (source.table, number))
            found += self._matching([(number, value)], layer, b"", None) if value is not None else []
        due = [(it, value) for it, value in changed.items() if value is not None and it != number]
        found += self._matching(due, layer, wanted, field)[:most]
        hits = (it for it in self.texts[source].hits(wanted) if it not in changed and it != number)
        while len(found) < most:
            some = [it for it, _ in zip(hits, range(most - len(found)))]
            if not some:
                break
            values = designs.store.get_many(alt, [(source.table, it) for it in some])
            its = [(it, self._value(designs, alt, source.table, it, value)) for it, value in zip(some, values)]
            found += self._matching(its, layer, wanted, field)
        return [{**designs.design(alt).mine.row((source.table, it)), "texts": texts} for it, texts in found]

    def _value(self, designs, alt, table, number, value):
        records = {(table, number): value} if value is not None else {}
        if value is not None and value.startswith(b"long "):
            records = maps.with_parts(designs.store, alt, records)
        return places.safe_value(records, (table, number))

    def _matching(self, values, layer, wanted, field):
        """Those that have the text in the field, or in one, with the fields that have it."""
        found = []
        for number, value in values:
            its = attributes_of(value or b"{}", layer)
            texts = {name: text for name, text in its.items() if field in (None, name) and wanted in as_searched(text)}
            if texts or not wanted:
                found.append((number, dict(list((texts if wanted else its).items())[:3])))
        return found

    def values(self, designs, alt, table):
        """The values that occur in the fields of a layer, those that occur most often first."""
        for source in self.sources(designs, alt):
            if source.table == table and source in self.texts:
                its = self.texts[source].values
                return {
                    name: sorted(known, key=known.get, reverse=True) for name, known in its.items() if known is not None
                }
        return {}
