"""Attributes and geometries as people read them, and as they type them. What is in a store may be anything: a value
that cannot be shown is told to be bad, and why."""
import contextlib
import json
import math

from osgeo import gdal, ogr, osr

import maps
import places
from maps.systems import crs_from_text
from maps.types import fault_of

gdal.UseExceptions()
ogr.UseExceptions()
osr.UseExceptions()

LITERALS = {
    "Integer": int,
    "Integer64": int,
    "Real": (int, float),
    "value": (type(None), bool, int, float, str, list, dict),
}


FEW = 8  # points of a course that is not worth being simplified


def flat(geometry):
    """A geometry as the page draws it: without heights, measures and arcs."""
    geometry = geometry.GetLinearGeometry()
    geometry.FlattenTo2D()
    return geometry


def geojson(geometry):
    """A geometry that can be drawn, as a whole."""
    return json.loads(flat(geometry).ExportToJson())


class Course:
    """A geometry to be drawn, None for none. One with few points is made into GeoJSON once."""

    def __init__(self, geometry):
        self._flat = geometry and flat(geometry)
        self._whole = geojson(geometry) if geometry and count_points(self._flat) <= FEW else None

    def at(self, tolerance):
        """The course, simplified to a tolerance."""
        if self._whole is not None or self._flat is None:
            return self._whole
        simple = None
        with contextlib.suppress(RuntimeError):  # GEOS refuses some, which are drawn as they are.
            simple = self._flat.SimplifyPreserveTopology(tolerance)
        return json.loads((simple or self._flat).ExportToJson())


def count_points(geometry):
    parts = geometry.GetGeometryCount()
    return sum(count_points(geometry.GetGeometryRef(it)) for it in range(parts)) if parts else geometry.GetPointCount()


def text_of(value):
    """A value of JSON as a person reads it."""
    return value if isinstance(value, str) else json.dumps(value, ensure_ascii=False)


def attributes_of(value, layer):
    """The attributes of a feature as names and texts. What is no JSON object is one text."""
    try:
        return {name: text_of(it) for name, it in maps.Fields(layer or maps.NO_LAYER).named(value).items()}
    except maps.Fault:
        return {"value": value.decode("utf-8", "backslashreplace")}


def typed(text, field, old):
    """The value that a text in a form stands for: by the type of its field, or else by the value before."""
    kind = field["type"] if field else "String" if isinstance(old, str) else "value"
    due = list if kind.endswith("List") else LITERALS.get(kind)
    if field and kind != "String" and not text:
        return None
    if not due:
        return checked(text, field)
    try:
        value = json.loads(text, parse_constant=int) if text else None  # `NaN` is no number here, nor for int.
    except (ValueError, RecursionError):
        value = ...
    if value is not None and not isinstance(value, due):
        raise maps.Fault(f"{text} is no {kind}")
    return checked(value, field)


def checked(value, field):
    """The value, if the field can have it."""
    fault = fault_of(field, value) if field else None
    if fault:
        raise maps.Fault(fault)
    return value


def is_plain(geometry):
    """Whether a course on the page has all of a geometry: no heights, no measures, no arcs."""
    return not geometry.Is3D() and not geometry.IsMeasured() and not geometry.HasCurveGeometry(False)


def side_of(records, feature, keys, layer):
    """A feature as the records of a version have it, None if it has none: attributes, course, and what of it is bad. A
    course that the page does not have as a whole is none to be edited."""
    if not any(it in records for it in keys):
        return None
    bad, found = [], {}
    for key in keys:
        try:
            found[key] = maps.value_at(records, *key)
        except maps.Fault as fault:
            bad.append(str(fault))
    course, is_whole = None, True
    if layer and found.get(keys[-1]):
        try:
            geometry = places.geometry_of(found[keys[-1]])
            is_whole = is_plain(geometry)
            course = geojson(geometry)
        except maps.Fault as fault:
            bad.append(f"its course cannot be drawn: {fault}")
    attributes = attributes_of(found.get(feature) or b"{}", layer)
    return {"attributes": attributes, "course": course, "bad": bad, "is_whole": is_whole and not bad}


DEGREE = 111_320.0  # metres of a degree from north to south


def metres_of(crs):
    """How many metres a unit of the map is, from north to south. Without a coordinate system it is taken for one."""
    try:
        system = crs_from_text(crs) if crs else None
    except maps.Fault:
        system = None
    if system is None:
        return 1.0
    return DEGREE if system.IsGeographic() else system.GetLinearUnits() or 1.0


def aspect_of(crs, bounds):
    """How wide a unit is beside its height: with degrees, as it is in the middle of the map."""
    try:
        is_round = crs and bounds and crs_from_text(crs).IsGeographic()
    except maps.Fault:
        is_round = False
    return max(math.cos(math.radians((bounds[1] + bounds[3]) / 2)), 0.01) if is_round else 1
