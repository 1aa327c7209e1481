"""How two designs differ, as layers that are styled by what changed: by colour, also to the colour-blind, by width and
by pattern."""
from qgis.core import (
    QgsCategorizedSymbolRenderer,
    QgsFeature,
    QgsField,
    QgsRendererCategory,
    QgsSymbol,
    QgsVectorLayer,
    QgsWkbTypes,
)
from qgis.PyQt.QtCore import Qt, QVariant
from qgis.PyQt.QtGui import QColor

import maps
from maps import GEOMETRY, Fault

from .fields import geometry_of, qgis_fields, to_qgis
from .layers import crs_of

# The colours of Okabe and Ito, as the desk has them.
LOOKS = {
    "added": ("#009E73", 1.2, Qt.SolidLine),
    "changed": ("#0072B2", 1.0, Qt.DashLine),
    "removed": ("#000000", 0.9, Qt.DotLine),
}


def compared(store, old, new):
    """Layers of what differs from one version to another, one for each table and kind of geometry."""
    layers = {**maps.layers(store, old), **maps.layers(store, new)}
    for table, record in sorted(layers.items()):
        numbers = sorted({it.number for part in (table, table + GEOMETRY) for it in store.diff(old, new, part)})
        groups = {}
        for number, before, after in both(store, old, new, table, numbers):
            feature = feature_of(record, number, before, after)
            groups.setdefault(feature.geometry().type(), []).append(feature)
        for kind, features in sorted(groups.items()):
            yield layer_of(record, f"{record['name']}: {old} to {new}", features)


def both(store, old, new, table, numbers):
    """Each feature with its attributes and geometry in both versions, None where it is not there."""
    keys = [(it, number) for number in numbers for it in (table, table + GEOMETRY)]
    versions = [maps.read(store, at, keys) for at in (old, new)]
    for number in numbers:
        sides = [(maps.value_at(its, table, number), maps.value_at(its, table + GEOMETRY, number)) for its in versions]
        yield number, *(None if it == (None, None) else it for it in sides)


def feature_of(record, number, before, after):
    status = "added" if before is None else "removed" if after is None else "changed"
    names, made = maps.Fields(record), QgsFeature()
    attributes, course = after or before
    values = [safe(names, it and it[0]) for it in (before, after)]
    what = (
        [it for it in {**values[0], **values[1]} if values[0].get(it) != values[1].get(it)]
        if status == "changed"
        else []
    )
    moved = ["geometry"] if status == "changed" and before[1] != after[1] else []
    its = safe(names, attributes)
    fields = [to_qgis(it, its.get(it["name"])) for it in record["fields"]]
    made.setAttributes([number, status, ", ".join(what + moved), *fields])
    made.setGeometry(geometry_of(course))
    return made


def safe(names, value):
    try:
        return names.named(value or b"{}")
    except Fault:
        return {}


def layer_of(record, name, features):
    kind = QgsWkbTypes.displayString(features[0].geometry().wkbType()) if features[0].hasGeometry() else "NoGeometry"
    layer = QgsVectorLayer(kind, name, "memory")
    layer.setCrs(crs_of(record["crs"]))
    number, *others = qgis_fields(record)
    own = [QgsField(maps.free_name(it, record["fields"]), QVariant.String) for it in ("status", "what")]
    layer.dataProvider().addAttributes([number, *own, *others])
    layer.updateFields()
    layer.dataProvider().addFeatures(features)
    layer.updateExtents()
    layer.setReadOnly(True)
    if layer.isSpatial():
        layer.setRenderer(renderer_of(layer, own[0].name()))
    return layer


def renderer_of(layer, field):
    categories = []
    for status, (colour, width, pattern) in LOOKS.items():
        symbol = QgsSymbol.defaultSymbol(layer.geometryType())
        symbol.setColor(QColor(colour))
        for it in symbol.symbolLayers():
            if hasattr(it, "setPenStyle"):
                it.setPenStyle(pattern)
        if hasattr(symbol, "setWidth"):
            symbol.setWidth(width)
        elif hasattr(symbol, "setSize"):
            symbol.setSize(3 * width)
        categories.append(QgsRendererCategory(status, symbol, status))
    return QgsCategorizedSymbolRenderer(field, categories)
