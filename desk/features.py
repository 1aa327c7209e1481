"""Features as people draw and change them: what comes from the page becomes records, if the feature is still as it was
shown."""
import json

from osgeo import ogr

import maps
from maps import GEOMETRY, Fault
from places import geometry_of
from values import is_plain, typed

# The types of geometry that a layer of a type has, too.
ALSO = {"Multi Line String": "LINESTRING", "Multi Polygon": "POLYGON", "Multi Point": "POINT"}


class Late(Fault):
    """An edit that comes too late. `now` has for each feature what it is by now."""

    def __init__(self, now):
        super().__init__("it has changed meanwhile: look at it again")
        self.now = now


def changed_features(designs, alt, features, hand):
    """The update of records that draws, changes and removes features, and what it is in words. New numbers are taken by
    `hand`."""
    design, texts = designs.design(alt), []
    numbered = [(int(it["table"]), int(it["number"]) if it.get("number") else None, it) for it in features]
    for table, _, _ in numbered:
        if table not in design.layers:
            raise Fault(f"{alt} has no layer in table {table} any more")
    records = read_all(designs.store, alt, [(table, number) for table, number, _ in numbered if number is not None])
    refuse_late(design, records, numbered)
    update = maps.Update(records)
    for table, number, it in numbered:
        name = design.mine.name(table)
        if it.get("remove"):
            texts.append(f"removed {name} {number}")
            continue
        is_new = number is None
        number = designs.numbers.take(hand, table) if is_new else number
        texts.append(f"{'drew' if is_new else 'changed'} {name} {number}")
        set_feature(update, design.layers[table], (table, number), it)
    return update, ", ".join(texts)


def refuse_late(design, records, numbered):
    """Refuses an edit of features that are not as they were shown. The records that it changes are looked at, and no
    later ones: an edit that changes nothing then, and is not sent, has nothing to be late for."""
    late = {}
    for table, number, it in numbered:
        now = None if number is None else design.side_of(records, (table, number))
        if number is not None and (
            now is None or any(now[name] != it["before"][name] for name in ("attributes", "course"))
        ):
            late[f"{table}:{number}"] = now
    if late:
        raise Late(late)


def read_all(store, at, features):
    return maps.read(
        store, at, [key for table, number in features for key in ((table, number), (table + GEOMETRY, number))]
    )


def set_feature(update, layer, key, it):
    """Gives a feature its attributes and its course. A field whose text is None gets no value, and what is not said
    stays."""
    (table, number), names = key, maps.Fields(layer)
    attributes = names.named(maps.value_at(update.old, *key) or b"{}")
    for name, text in it.get("values", {}).items():
        old = attributes.get(name)
        attributes[name] = None if text is None else typed(text, names.by_name.get(name), old)
    shape = table + GEOMETRY, number
    course = wkb_of(it["course"], layer) if "course" in it else maps.value_at(update.old, *shape)
    update.set(table, number, names.packed(attributes))
    if course is not None:
        update.set(*shape, course)


def wkb_of(course, layer):
    """A geometry from GeoJSON, of the layer's type."""
    try:
        geometry = ogr.CreateGeometryFromJson(json.dumps(course))
        value = bytes(geometry.ExportToIsoWkb(ogr.wkbNDR))
    except (AttributeError, RuntimeError):
        raise Fault("this is no course") from None
    geometry_of(value)
    due = layer["geometry"].replace("3D ", "").replace("Measured ", "")
    kind = geometry.GetGeometryName()
    if not due.startswith("Unknown") and due.replace(" ", "").upper() != kind:
        if ALSO.get(due) != kind:
            raise Fault(f"{layer['name']} has courses of type {due}, and not {kind}")
        geometry = {
            "LINESTRING": ogr.ForceToMultiLineString,
            "POLYGON": ogr.ForceToMultiPolygon,
            "POINT": ogr.ForceToMultiPoint,
        }[kind](geometry)
        value = bytes(geometry.ExportToIsoWkb(ogr.wkbNDR))
    return value


def split_feature(designs, alt, it, hand):
    """The update that splits a line at a place near it: its first part keeps the number, and the other one gets a new
    one."""
    key = table, number = int(it["table"]), int(it["number"])
    design = designs.design(alt)
    records = read_all(designs.store, alt, [key])
    refuse_late(design, records, [(table, number, it)])
    line = geometry_of(maps.value_at(records, table + GEOMETRY, number) or b"")
    if not is_plain(line) or line.GetGeometryName() != "LINESTRING":
        raise Fault("only a plain line can be split")
    first, second = halves(line.GetPoints(), tuple(map(float, it["point"])))
    new = designs.numbers.take(hand, table)
    update, attributes = maps.Update(dict(records)), maps.value_at(records, *key) or b"{}"
    update.set(table, number, attributes)
    update.set(table, new, attributes)
    for its, points in ((number, first), (new, second)):
        update.set(table + GEOMETRY, its, line_of(points))
    return update, f"split {design.mine.name(table)} {number} into {number} and {new}"


def halves(points, at):
    """The points of a line before and after its place that is nearest to a point."""
    def place(one, other):
        across = [b - a for a, b in zip(one, other)]
        length = sum(it * it for it in across)
        part = sum((p - a) * it for p, a, it in zip(at, one, across)) / length if length else 0.0
        found = tuple(a + min(max(part, 0.0), 1.0) * it for a, it in zip(one, across))
        return sum((p - q) ** 2 for p, q in zip(found, at)), found

    nearest, found = min((place(one, other), index) for index, (one, other) in enumerate(zip(points, points[1:])))
    point, index = nearest[1], found
    first = [*points[: index + 1], *([point] if point != points[index] else [])]
    second = [*([point] if point != points[index + 1] else []), *points[index + 1 :]]
    if len(first) < 2 or len(second) < 2:
        raise Fault("a line is split between its ends")
    return first, second


def line_of(points):
    line = ogr.Geometry(ogr.wkbLineString)
    for x, y in points:
        line.AddPoint_2D(x, y)
    return bytes(line.ExportToIsoWkb(ogr.wkbNDR))
