"""Features of a GeoPackage read and written by SQL, many at once, which is several times as quick as by GDAL one by
one. GDAL opens or makes the file, and tells what its layers are. It is only for tables of whole numbers, reals, texts
and dates: what else there may be, or has another type than its field says, goes through GDAL."""
import contextlib
import math
import sqlite3
from json.encoder import encode_basestring as quoted
from pathlib import Path

from osgeo import ogr

PORTION = 1000
# When a value is not what its field says.
OTHER = {
    "Integer": "typeof({0}) NOT IN ('integer', 'null') OR abs({0}) > 2147483647",
    "Integer64": "typeof({0}) NOT IN ('integer', 'null')",
    "Real": "typeof({0}) NOT IN ('real', 'integer', 'null')",
    "String": "typeof({0}) NOT IN ('text', 'null')",
    "Date": "{0} IS NOT NULL AND (typeof({0}) <> 'text' OR date({0}) IS NOT {0} OR {0} < '0001')",
}
# When GDAL would make something else of a value, without a word: 0 of a text in a column of numbers.
WRONG = {
    "Integer": "typeof({0}) NOT IN ('integer', 'null') OR abs({0}) > 2147483647 AND {0} <> -2147483648",
    "Integer64": "typeof({0}) NOT IN ('integer', 'null')",
    "Real": "typeof({0}) NOT IN ('real', 'integer', 'null')",
    "Date": "{0} IS NOT NULL AND date({0}) IS NOT {0}",
    "DateTime": "{0} IS NOT NULL AND datetime({0}) IS NULL",
}
ENVELOPES = {0: 0, 1: 32, 2: 48, 3: 48, 4: 64}  # Bytes, by the bits 1 to 3 of the flags of a geometry.
EXTENDED = 0x20


def connected(file: str) -> sqlite3.Connection:
    database = sqlite3.connect(f"{Path(file).absolute().as_uri()}?mode=ro", uri=True)
    database.text_factory = bytes
    return database


def wrong_values(file: str, table: str, fid: str, fields) -> dict:
    """What is wrong with features of a GeoPackage, by their fids: values that are not what their field says."""
    found = {}
    with contextlib.closing(connected(file)) as database:
        for it in fields:
            if it["type"] in WRONG:
                column, kind = sql_name(it["name"]), it["type"]
                where = WRONG[kind].format(column)
                for number, value in database.execute(
                    f"SELECT {sql_name(fid)}, {column} FROM {sql_name(table)} WHERE {where}"
                ):
                    shown = value.decode("utf-8", "replace") if isinstance(value, bytes) else value
                    found[number] = f"feature {number}: {shown!r} is no {kind}, as the field {it['name']} is"
    return found


def is_plain(field) -> bool:
    return field["type"] in OTHER and "subtype" not in field


def sql_name(name: str) -> str:
    return '"' + name.replace('"', '""') + '"'


class Quick:
    """The features of a layer of a GeoPackage, if it is one of those."""

    def __init__(self, opened, layer, described, fields):
        self._file, self._layer, self._described, self._fields = opened.GetDescription(), layer, described, fields
        self._is_geopackage, self._database = opened.GetDriver().ShortName == "GPKG", None

    def can(self) -> bool:
        fields = self._described["fields"]
        if not self._is_geopackage or not self._layer.GetFIDColumn() or not all(map(is_plain, fields)):
            return False
        self._database = connected(self._file)
        other = " OR ".join(OTHER[it["type"]].format(sql_name(it["name"])) for it in fields)
        table = sql_name(self._layer.GetName())
        return not other or self._database.execute(f"SELECT 1 FROM {table} WHERE {other} LIMIT 1").fetchone() is None

    def features(self):
        """As `Source` has them: a number, attributes and geometry. The number is a text, as it may be wrong."""
        described, course = self._described, self._layer.GetGeometryColumn()
        own = [it for it in described["fields"] if it["name"] != described["id"]]
        due = sorted(own, key=lambda it: self._fields.order(it["name"]))
        names = [described["id"] or self._layer.GetFIDColumn(), *(it["name"] for it in due)]
        columns = [*map(sql_name, names), sql_name(course) if course else "NULL"]
        found = self._database.execute(f"SELECT {', '.join(columns)} FROM {sql_name(self._layer.GetName())}")
        while True:
            rows = found.fetchmany(PORTION)
            if not rows:
                return
            numbers, *values, courses = zip(*rows)
            texts = [column(it["type"], self._fields.key(it["name"]), its) for it, its in zip(due, values)]
            for number, row, value in zip(numbers, zip(*texts) if texts else ((),) * len(rows), courses):
                try:
                    attributes = f"{{{','.join(filter(None, row))}}}".encode()
                except UnicodeError:
                    attributes = None
                yield text_of(number), attributes, None if value is None else well_known(value)


def text_of(value) -> str:
    """The id that a field has, as GDAL gives it as a text."""
    return "" if value is None else value.decode("utf-8", "replace") if isinstance(value, bytes) else str(value)


def column(kind: str, key: str, values) -> list:
    """What each value of a column is in the JSON of its feature, None for none."""
    key = f"{quoted(key)}:"
    if kind in ("Integer", "Integer64"):
        return [None if it is None else f"{key}{it}" for it in values]
    if kind == "Real":
        reals = [None if it is None else float(it) for it in values]
        return [None if it is None else key + (repr(it) if math.isfinite(it) else f'"{it}"') for it in reals]
    if kind == "Date":
        return [None if it is None else f'{key}"{it.decode()}"' for it in values]
    # GDAL reads a text up to the first NUL.
    texts = (None if it is None else it.split(b"\0", 1)[0].decode("utf-8", "surrogateescape") for it in values)
    return [None if it is None else key + quoted(it) for it in texts]


def well_known(value: bytes) -> bytes:
    """The geometry of a GeoPackage as the store has it. What is no such thing is given back as it is, and told to be
    bad."""
    size = ENVELOPES.get(value[3] >> 1 & 7) if len(value) > 8 else None
    if value[:2] != b"GP" or size is None or value[3] & EXTENDED:
        return value
    course = value[8 + size :]
    if course[:1] == b"\1" and course[3:5] == b"\0\0":
        return course
    try:
        return bytes(ogr.CreateGeometryFromWkb(course).ExportToIsoWkb(ogr.wkbNDR))
    except (AttributeError, RuntimeError):
        return course
