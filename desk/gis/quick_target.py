"""Features of a GeoPackage written by SQL, many at once. GDAL has made the file and its layers before, and makes the
index of places afterwards. A value that is not as its field says, and a geometry that has more than x and y, is left to
GDAL: NotPlain tells that GDAL has to write the file anew."""
import functools
import struct
import sys

from gis.quick import PORTION, is_plain, sql_name
from maps import Fault, types
from maps.geometry import Bad, bounds_of

KINDS = range(1, 8)  # Points to collections.
POINT = 1


class NotPlain(Exception):
    """A value that GDAL has to write."""


def is_quick(described) -> bool:
    return all(is_plain(it) for it in described["fields"])


def whole(bits):
    least, most = -(2**bits), 2**bits - 1

    def check(value):
        if type(value) is not int or not least <= value <= most:
            raise NotPlain
        return value

    return check


def real(value):
    if type(value) is not float and type(value) is not int:
        raise NotPlain
    return float(value)


def text(value):
    if type(value) is not str or "\0" in value or not value.isascii() and not is_utf8(value):
        raise NotPlain
    return value


def is_utf8(value):
    try:
        value.encode()
    except UnicodeError:
        return False
    return True


@functools.lru_cache(2**16)
def is_day(value):
    return types.is_fit("Date", None, value) and value >= "0001"


def day(value):
    if type(value) is not str or not is_day(value):
        raise NotPlain
    return value


CHECKS = {"Integer": whole(31), "Integer64": whole(63), "Real": real, "String": text, "Date": day}


def tell_unknown(name, unknown):
    if unknown:
        print(f"altgis: left out, as {name} has no such fields: {', '.join(sorted(unknown))}", file=sys.stderr)


class QuickLayer:
    """A layer that is being written."""

    def __init__(self, database, described, name):
        self._database, self.name, self.count, self._rows, self._unknown = database, name, 0, [], set()
        found = "SELECT column_name, srs_id FROM gpkg_geometry_columns WHERE table_name = ?"
        self.course, self._system = database.execute(found, (name,)).fetchone() or (None, 0)
        self._bounds = []
        self._at = {it["name"]: (at, CHECKS[it["type"]]) for at, it in enumerate(described["fields"], 1)}
        (fid,) = (it[1] for it in database.execute(f"PRAGMA table_info({sql_name(name)})") if it[5])
        names = [fid, *self._at, *([self.course] if self.course else [])]
        marks = ", ".join("?" * len(names))
        self._insert = f"INSERT INTO {sql_name(name)} ({', '.join(map(sql_name, names))}) VALUES ({marks})"
        self._counts = self._take_triggers()

    def _take_triggers(self):
        """Takes away the triggers that count each feature by itself, and gives what makes them again."""
        found = (
            "SELECT name, sql FROM sqlite_master WHERE type = 'trigger' AND tbl_name = ? AND sql LIKE '%AFTER INSERT%'"
        )
        triggers = self._database.execute(found, (self.name,)).fetchall()
        for name, _ in triggers:
            self._database.execute(f"DROP TRIGGER {sql_name(name)}")
        return [made for _, made in triggers]

    def add(self, number, attributes, course):
        """Adds a feature: its fid or None, its attributes as a dict, and its geometry."""
        row = [number] + [None] * (len(self._at) + bool(self.course))
        for name, value in attributes.items():
            if name not in self._at:
                self._unknown.add(name)
            elif value is not None:
                at, check = self._at[name]
                row[at] = check(value)
        if course is not None:
            row[-1] = self._packed(number, course)
        self._rows.append(row)
        self.count += 1
        if len(self._rows) == PORTION:
            self._write()

    def _packed(self, number, course):
        """The geometry as a GeoPackage has it: a head, which has its bounds unless it is a point or empty, and WKB."""
        try:
            bounds = bounds_of(course)
        except Bad as bad:
            raise Fault(f"feature {number}: its geometry is bad: {bad}") from None
        kind = int.from_bytes(course[1:5], "little") if course[0] == 1 else 0
        if not self.course or kind not in KINDS:
            raise NotPlain
        has_bounds = bounds is not None and kind != POINT
        head = struct.pack("<2sBBi", b"GP", 0, 1 | has_bounds << 1 | (bounds is None) << 4, self._system)
        if bounds is not None:
            self._bounds.append(bounds)
        return head + struct.pack("<4d", *bounds) + course if has_bounds else head + course

    def _write(self):
        self._database.executemany(self._insert, self._rows)
        self._rows = []
        if self._bounds:
            west, east, south, north = zip(*self._bounds)
            self._bounds = [[min(west), max(east), min(south), max(north)]]

    def finish(self):
        """Writes what is left, and what the file tells of the layer as a whole."""
        self._write()
        for made in self._counts:
            self._database.execute(made)
        self._database.execute(
            "UPDATE gpkg_ogr_contents SET feature_count = ? WHERE table_name = ?", (self.count, self.name)
        )
        if self._bounds:
            update = "UPDATE gpkg_contents SET min_x = ?, max_x = ?, min_y = ?, max_y = ? WHERE table_name = ?"
            self._database.execute(update, (*self._bounds[0], self.name))

    def tell_unknown(self):
        tell_unknown(self.name, self._unknown)
