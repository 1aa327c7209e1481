"""The fields of a layer in QGIS, and values between JSON and QGIS. What QGIS would not keep exactly, as moments with a
zone, and lists, is shown as the text that it is."""
import json

from qgis.core import QgsField, QgsGeometry
from qgis.PyQt.QtCore import QDate, Qt, QVariant

import maps
from maps import Fault
from maps.types import fault_of

TYPES = {"Integer": QVariant.Int, "Integer64": QVariant.LongLong, "Real": QVariant.Double, "Date": QVariant.Date}


def kind_of(field):
    is_boolean = field["type"] == "Integer" and field.get("subtype") == "Boolean"
    return QVariant.Bool if is_boolean else TYPES.get(field["type"], QVariant.String)


def qgis_fields(record):
    """The fields of a layer: first the number of a feature, which nobody edits."""
    number = QgsField(maps.free_name("number", record["fields"]), QVariant.LongLong)
    return [number, *(QgsField(it["name"], kind_of(it)) for it in record["fields"])]


def to_qgis(field, value):
    """A value of JSON in QGIS. One that the field cannot have is shown as none, and stays unless it is edited."""
    kind = kind_of(field)
    if value is None or kind != QVariant.String and fault_of(field, value):
        return QVariant()
    if kind == QVariant.Date:
        return QDate.fromString(value, Qt.ISODate)
    if kind == QVariant.String:
        return value if isinstance(value, str) else json.dumps(value, ensure_ascii=False)
    return {QVariant.Bool: bool, QVariant.Double: float}.get(kind, int)(value)


def from_qgis(field, value):
    """The value of JSON for what was typed. Raises Fault if the field cannot have it."""
    if value is None or isinstance(value, QVariant) and value.isNull():
        return None
    if isinstance(value, QDate):
        value = value.toString(Qt.ISODate)
    elif field["type"].endswith("List"):
        try:
            value = json.loads(value)
        except ValueError:
            raise Fault(f"{value} is no {field['type']}, as the field {field['name']} is") from None
    elif field["type"] == "Real" and isinstance(value, float) and not abs(value) < float("inf"):
        value = "nan" if value != value else "inf" if value > 0 else "-inf"
    fault = fault_of(field, value)
    if fault:
        raise Fault(fault)
    return value


def geometry_of(value):
    """A geometry from WKB, an empty one for none."""
    found = QgsGeometry()
    if value:
        found.fromWkb(value)
    return found


def wkb_of(geometry):
    return None if geometry.isNull() else bytes(geometry.asWkb())


def text_of(value):
    """A value as a table shows it."""
    if value is None:
        return "–"
    if isinstance(value, bytes):
        found = geometry_of(value)
        return (
            f"{found.constGet().geometryType()}, {found.constGet().nCoordinates()} points"
            if not found.isNull()
            else "bad geometry"
        )
    return value if isinstance(value, str) else json.dumps(value, ensure_ascii=False)
