"""An index of places: where the features of a map lie, so that a window of it is found by a few pages.

The index is kept in an alternative of its own, `.places` under `top`: it describes the geometry that this alternative
shows. So no design shows the index, merges it or is in conflict at it, and the index is never wrong: where a design has
another geometry than `.places`, whoever has put it, `diff .places DESIGN` tells so. The fewer that are, the quicker the
desk is, so an import into `top` renews the index, and the desk does once there are many.

| Record of `.places` | Its value |
|---|---|
| (65000 + T, n) | page n of table T: 166 features at most, of each its number (u64), west, south, east, north (f32) |
| (65100 + T, n) | the bounds of 250 pages, the first one of which is 250 n |

Bounds are rounded outwards. Large features come first, and among those of like size the near ones are together, by the
Morton code of their middles. All numbers are little-endian."""
import contextlib
from array import array

import numpy
from osgeo import ogr

import maps
from altctl import Refusal
from maps import GEOMETRY
from maps.geometry import Bad, bounds_of
from maps.geometry import fault_of as geometry_fault

OWN = ".places"
PAGES, HEADS = 65000, 65100
PAGE = numpy.dtype([("number", "<u8"), ("box", "<f4", 4)])
HEAD = numpy.dtype(("<f4", 4))
NOTHING = numpy.empty(0, PAGE)
PER_PAGE, PER_HEAD = maps.LONGEST // PAGE.itemsize, maps.LONGEST // HEAD.itemsize
MOST_PAGES = 120  # that one window reads
FARTHEST = 1e12  # No coordinate system counts so far, and from 1e38 on a bound would be infinite.
TRIES = 3  # of a renewal, if others change `top` meanwhile
NO_CHECKPOINT, DENIED, CHANGED = 3, 90, 103
# Points to collections: of these the bounds are those of their points. A curve goes beyond them.
STRAIGHT = range(1, 8)


def geometry_of(value):
    """A geometry from WKB. Raises Fault if it cannot be drawn: GEOS does not return from a point that is no number."""
    fault = geometry_fault(value)
    try:
        geometry = None if fault else ogr.CreateGeometryFromWkb(value)
    except RuntimeError:
        geometry = None
    if geometry is None:
        raise maps.Fault(fault or "its bytes are no geometry")
    if geometry.IsEmpty():
        raise maps.Fault("it has no points")
    if max(map(abs, geometry.GetEnvelope())) > FARTHEST:
        raise maps.Fault(f"it has a coordinate beyond {FARTHEST:g}")
    return geometry


def parsed(value):
    """A geometry from WKB, or None where there is none that can be drawn."""
    try:
        return geometry_of(value) if value else None
    except maps.Fault:
        return None


def box_of(value):
    """The bounds of a geometry: west, south, east, north. None where it has none."""
    if value and is_straight(value):
        try:
            return box_within(bounds_of(value))
        except Bad:
            return None
    geometry = parsed(value) if value else None
    if geometry is None:
        return None
    west, east, south, north = geometry.GetEnvelope()
    return west, south, east, north


def is_straight(value):
    """Whether the bounds of a geometry are those of its points."""
    return value[:1] == b"\1" and int.from_bytes(value[1:5], "little") in STRAIGHT


def box_within(found):
    """The bounds of points in the order of `box_of`, None where there are none or they are too far away."""
    is_near = found and max(map(abs, found)) <= FARTHEST
    return (found[0], found[2], found[1], found[3]) if is_near else None


def union(boxes):
    """The bounds of boxes, or None."""
    return [*boxes[:, :2].min(axis=0).tolist(), *boxes[:, 2:].max(axis=0).tolist()] if len(boxes) else None


def touching(boxes, west, south, east, north):
    """Which boxes are in a window, a part of them at least."""
    return (boxes[:, 0] <= east) & (boxes[:, 2] >= west) & (boxes[:, 1] <= north) & (boxes[:, 3] >= south)


class Places:
    """The bounds of features, in memory."""

    def __init__(self, numbers, boxes):
        self.numbers, self.boxes = numpy.array(numbers, "<u8"), numpy.array(boxes, float).reshape(-1, 4)

    @classmethod
    def of(cls, boxes):
        """From a dict of number to bounds, those without any left out."""
        there = {number: box for number, box in boxes.items() if box}
        return cls(list(there), list(there.values()))

    def bounds(self):
        return union(self.boxes)

    def window(self, *window):
        """The features in a window, their bounds, and about how many there are."""
        inside = touching(self.boxes, *window)
        return self.numbers[inside], self.boxes[inside], int(inside.sum())


class Found:
    """The bounds of the features of a table that are put, as they are found."""

    def __init__(self):
        self._numbers, self._boxes = array("Q"), array("d")

    def add(self, number, value, bounds):
        """Adds a feature by its geometry, the bounds of whose points are known, or None if it has none."""
        box = value and (box_within(bounds) if is_straight(value) else box_of(value))
        if box:
            self._numbers.append(number)
            self._boxes.extend(box)

    def places(self):
        return Places(self._numbers, self._boxes)


class Index:
    """The stored index of a table. What a window needs of it is read from the store, once for all designs. `courses`
    has what designs draw of features that lie where the index says."""

    def __init__(self, store, table):
        self._store, self._table, self._entries, self.courses = store, PAGES + table, {}, {}
        heads = [entries_of(it.value, HEAD) for it in store.list(OWN, HEADS + table)]
        pages = numpy.concatenate([numpy.empty((0, 4), "<f4"), *heads]).astype(float)
        self.pages = numpy.clip(numpy.nan_to_num(pages), -FARTHEST, FARTHEST)

    def bounds(self):
        return union(self.pages)

    def window(self, *window):
        """As `Places` has it. Where the window has too many pages, the first ones, of the largest features, are read,
        and of the others some that are spread evenly."""
        due = numpy.nonzero(touching(self.pages, *window))[0]
        some = due
        if len(due) > MOST_PAGES:
            half = MOST_PAGES // 2
            turn = due[half:] * 2654435761 % 2**32  # The same pages come first in each window, spread over all of them.
            some = numpy.sort(numpy.concatenate([due[:half], due[half:][numpy.argsort(turn)[:half]]]))
        entries = self.read(some)
        boxes = entries["box"].astype(float)
        inside = touching(boxes, *window)
        about = int(inside.sum()) * len(due) // max(len(some), 1)
        return entries["number"][inside], boxes[inside], about

    def read(self, pages):
        """The entries of pages. Of those that were not read before, neighbours are read as a range."""
        due = pages[[it not in self._entries for it in pages.tolist()]]
        runs = numpy.split(due, numpy.nonzero(numpy.diff(due) > 1)[0] + 1) if len(due) else []
        self._entries.update(dict.fromkeys(due.tolist(), NOTHING))
        for run in runs:
            rows = self._store.list(OWN, self._table, int(run[0]), int(run[-1]))
            self._entries.update({it.number: entries_of(it.value, PAGE) for it in rows})
        return numpy.concatenate([NOTHING, *(self._entries[it] for it in pages.tolist())])


def entries_of(value, kind):
    """The entries of a record of the index, however long somebody has made it."""
    return numpy.frombuffer(value[: len(value) // kind.itemsize * kind.itemsize], kind)


def scanned(store, at, table):
    """The bounds of all features of a version's table, read a page at a time."""
    numbers, boxes = array("Q"), array("d")
    for number, value in maps.scan_values(store, at, table + GEOMETRY, bad=lambda *_: None):
        box = box_of(value)
        if box:
            numbers.append(number)
            boxes.extend(box)
    return Places(numbers, boxes)


def moved(store, old, new, table):
    """The features with another geometry in a version than in an older one, and their bounds there, None where they
    have none."""
    rows = {(it.table, it.number): it.after for it in store.diff(old, new, table + GEOMETRY)}
    records = maps.with_parts(store, new, {key: value for key, value in rows.items() if value is not None})
    return {key[1]: box_of(safe_value(records, key)) for key in rows}


def safe_value(records, key):
    """A value among records, None where it lacks parts: it has come in half then, and is read with the next batch."""
    try:
        return maps.value_at(records, *key)
    except (maps.Fault, TypeError, ValueError):
        return None


def packed(numbers, boxes):
    """The values of pages and of heads for these features."""
    west, south, east, north = union(boxes)
    across = max(east - west, north - south) or 1.0
    size = (boxes[:, 2:] - boxes[:, :2]).max(axis=1)
    smallness = numpy.log2(across / numpy.maximum(size, across / 2**16)).astype(int)
    middle = ((boxes[:, :2] + boxes[:, 2:]) / 2 - (west, south)) * (65535 / across)
    order = numpy.lexsort((spread(middle[:, 0]) | spread(middle[:, 1]) << 1, smallness))
    entries = numpy.empty(len(numbers), PAGE)
    entries["number"], rounded = numbers[order], boxes[order].astype("<f4")
    for at, away in ((slice(0, 2), -numpy.inf), (slice(2, 4), numpy.inf)):
        is_inwards = (rounded[:, at] - boxes[order][:, at]) * (1 if away < 0 else -1) > 0
        rounded[:, at] = numpy.where(is_inwards, numpy.nextafter(rounded[:, at], numpy.float32(away)), rounded[:, at])
    entries["box"] = rounded
    pages = [entries[at : at + PER_PAGE] for at in range(0, len(entries), PER_PAGE)]
    heads = numpy.array([union(it["box"]) for it in pages], "<f4")
    groups = [heads[at : at + PER_HEAD] for at in range(0, len(heads), PER_HEAD)]
    return [it.tobytes() for it in pages], [it.tobytes() for it in groups]


def spread(numbers):
    """Numbers of 16 bits with a zero before each bit."""
    spread = numbers.astype("u4")
    for by, mask in ((8, 0x00FF00FF), (4, 0x0F0F0F0F), (2, 0x33333333), (1, 0x55555555)):
        spread = (spread | spread << by) & mask
    return spread


def renew(store, is_service, fresh=None):
    """Makes the index anew for what `top` shows. Where the features of a table lie is told by `fresh`, or else by the
    old index and by what has moved since. For a service that is one batch, which is refused if `top` has changed since
    it was looked at: then it is looked at again."""
    forget_mark(store)
    if OWN not in {it.name for it in store.alternatives()}:
        store.new(OWN, "top")  # So all of it can be read while others go on.
    fresh, seen = fresh or {}, {OWN: store.batches()} if is_service else {}
    known = {table: stored(store, table) for table in maps.layers(store, OWN) if table not in fresh}
    for tries in range(TRIES, 0, -1):
        if is_service:
            seen["top"] = store.batches()
        whole = {table: fresh.get(table) or since(store, table, known) for table in maps.layers(store, "top")}
        try:
            with store.batch(seen) if is_service else contextlib.nullcontext():
                store.drop(OWN)
                store.new(OWN, "top")
                store.put_many(OWN, (it for table, its in whole.items() for it in records_of(table, its)))
            break
        except Refusal as refusal:
            if not is_service:
                store.rollback()
            if refusal.number != CHANGED or refusal.detail.startswith(f"{OWN} ") or tries == 1:
                raise
    store.commit()


def forget_mark(store):
    """Removes the checkpoint of `top` that an older desk has left if it was stopped while it made the index: it keeps
    all blocks that `top` had then. Whoever may not change `top` leaves it for others to remove."""
    if OWN in store.checkpoints("top"):
        try:
            store.uncheck("top", OWN)
        except Refusal as refusal:
            if refusal.number not in (NO_CHECKPOINT, DENIED):
                raise


def stored(store, table):
    """Where the features of a table lie in `.places`, by its index if it has one."""
    index = Index(store, table)
    if not len(index.pages):
        return scanned(store, OWN, table)
    entries = index.read(numpy.arange(len(index.pages)))
    entries = entries[(numpy.abs(entries["box"]) <= FARTHEST).all(axis=1)]
    return Places(entries["number"], entries["box"])


def since(store, table, known):
    """Where the features of a table lie in `top`, if `known` has where they lie in `.places`."""
    others, its = moved(store, OWN, "top", table), known.get(table, Places([], []))
    stay, more = ~numpy.isin(its.numbers, numpy.fromiter(others, "<u8", len(others))), Places.of(others)
    numbers, boxes = [its.numbers[stay], more.numbers], [its.boxes[stay], more.boxes]
    return Places(numpy.concatenate(numbers), numpy.concatenate(boxes))


def records_of(table, its):
    """The records of the index of a table, if that has features."""
    if len(its.numbers):
        for its_table, values in zip((PAGES + table, HEADS + table), packed(its.numbers, its.boxes)):
            yield from ((its_table, at, value) for at, value in enumerate(values))
