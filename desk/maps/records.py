"""The values of a map as records of a store: each in one record, or in a head and parts. maps/__init__.py has the
table."""
import hashlib
import heapq
import itertools
import operator
import re
from typing import Callable, Optional

GEOMETRY, PARTS = 100, 200
LONGEST, MOST_PARTS = 4000, 1000
TABLES = range(1, 100)
IMPORTS = ".import-"  # What the names of alternatives begin with by which an import goes through a service.
HEAD = re.compile(rb"long ([1-9][0-9]{0,6}) ([0-9]{1,20})")
SHOWN = 60  # bytes of a bad value that a message shows


class Fault(Exception):
    """What is wrong with the words, the file or the map, in one line."""


def first_part(table, number, value):
    digest = hashlib.sha256(b"%d %d " % (table, number) + value).digest()
    return int.from_bytes(digest, "big") % 10**16 * MOST_PARTS


def tables_of(table):
    """The tables of a layer: attributes, geometry, parts."""
    return table, table + GEOMETRY, parts_table(table)


def parts_table(table):
    return PARTS + table % GEOMETRY


def records_of(table, number, value):
    """The records in which a value lies under a key: one, or a head and parts."""
    if len(value) <= LONGEST:
        return {(table, number): value}
    if len(value) > LONGEST * MOST_PARTS:
        raise Fault(f"{table}:{number} has {len(value)} bytes, and {LONGEST * MOST_PARTS} are the most")
    first = first_part(table, number, value)
    starts = enumerate(range(0, len(value), LONGEST), first)
    parts = {(parts_table(table), at): value[start : start + LONGEST] for at, start in starts}
    return {(table, number): b"long %d %d" % (len(value), first), **parts}


def part_keys(table, head):
    """The keys of the parts of a value that lies under a key of this table: none if it is no head of a longer one."""
    found = HEAD.fullmatch(head)
    size, first = map(int, found.groups()) if found else (0, 0)
    if not LONGEST < size <= LONGEST * MOST_PARTS or first % MOST_PARTS or first >= 10**16 * MOST_PARTS:
        return []
    return [(parts_table(table), first + at) for at in range(-(-size // LONGEST))]


def value_at(records, table, number):
    """The value under a key of records, or None."""
    value = records.get((table, number))
    if value is None or not value.startswith(b"long "):
        return value
    keys = part_keys(table, value)
    if not keys:
        raise Fault(f"{table}:{number} is no head of a longer value: {value[:SHOWN]!r}")
    whole = b"".join(records.get(key, b"") for key in keys)
    if value != b"long %d %d" % (len(whole), first_part(table, number, whole)):
        raise Fault(f"{table}:{number} lacks parts, or has other ones than its head tells of")
    return whole


def features(records, table):
    """The features of a table among records, as a dict from id to attributes and geometry. A feature of which a merge
    has left the geometry alone has no attributes."""
    numbers = sorted({number for its_table, number in records if its_table in (table, table + GEOMETRY)})
    return {it: (value_at(records, table, it) or b"{}", value_at(records, table + GEOMETRY, it)) for it in numbers}


# Reading a version of a store: an alternative (`north`), its base (`north@`) or a checkpoint (`north@before`).


def read(store, at, keys):
    """The records that are there under these keys, and the parts that their heads tell of."""
    keys = list(keys)
    return with_parts(
        store, at, {key: value for key, value in zip(keys, store.get_many(at, keys)) if value is not None}
    )


def with_parts(store, at, records):
    parts = [part for key, value in records.items() for part in part_keys(key[0], value)]
    return {**records, **{key: value for key, value in zip(parts, store.get_many(at, parts)) if value is not None}}


def read_features(store, at, table, numbers):
    """The records of these features, parts included. Numbers close together are read as a range."""
    if not numbers:
        return {}
    tables, wanted, first, last = (table, table + GEOMETRY), set(numbers), min(numbers), max(numbers)
    if last - first > 4 * len(wanted):
        return read(store, at, ((it, number) for it in tables for number in sorted(wanted)))
    found = {
        (it, row.number): row.value for it in tables for row in store.list(at, it, first, last) if row.number in wanted
    }
    return with_parts(store, at, found)


def scan_values(store, at, table, bad: Optional[Callable[[int, Fault], None]] = None):
    """The values of a table with their numbers, a page at a time. A value that lacks parts is given to `bad`, if that
    is there, and left out; else it is raised."""
    for row in store.scan(at, table):
        if not row.value.startswith(b"long "):
            yield row.number, row.value
            continue
        key = table, row.number
        try:
            yield row.number, value_at(with_parts(store, at, {key: row.value}), *key)
        except Fault as fault:
            if bad is None:
                raise
            bad(row.number, fault)


def scan_features(store, at, table, bad: Optional[Callable[[int, Fault], None]] = None):
    """The features of a table, a page at a time: id, attributes and geometry. One whose value lacks parts is given to
    `bad`, if that is there, and left out; else it is raised."""
    left_out = set()

    def note(number, fault):
        left_out.add(number)
        bad(number, fault)

    def side(of):
        return ((number, of, value) for number, value in scan_values(store, at, of, bad and note))

    # Each side is one value ahead of the group, so what is bad of a feature is noted before its group is there.
    for number, group in itertools.groupby(heapq.merge(side(table), side(table + GEOMETRY)), operator.itemgetter(0)):
        values = {of: value for _, of, value in group}
        if number not in left_out:
            yield number, values.get(table, b"{}"), values.get(table + GEOMETRY)


def by_key(rows):
    return {(it.table, it.number): it.value for it in rows}
