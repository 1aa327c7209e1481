"""A table of a design as a layer of QGIS. What each feature was in the store when it was read is kept, so
that an edit of one that somebody has changed since is noticed."""
from qgis.core import QgsCoordinateReferenceSystem, QgsFeature, QgsVectorLayer, QgsWkbTypes

import maps
from maps import GEOMETRY, Fault

from .fields import geometry_of, qgis_fields, to_qgis
from .provider import KEY, register

FLAT = QgsWkbTypes.flatType


def type_of(name):
    """The type of geometry that a layer's record names, in QGIS's words; None for any."""
    words = name.split()
    ends = ("Z" if "3D" in words else "") + ("M" if "Measured" in words else "")
    kind = "".join(it for it in words if it not in ("3D", "Measured"))
    return None if kind.startswith("Unknown") else "NoGeometry" if kind == "None" else kind + ends


def crs_of(text):
    if not text:
        return QgsCoordinateReferenceSystem()
    return (
        QgsCoordinateReferenceSystem(text) if text.startswith("EPSG:") else QgsCoordinateReferenceSystem.fromWkt(text)
    )


class DesignLayer:
    """One of them. `left_out` are features that QGIS does not show here: their geometry is bad, or of another type."""

    def __init__(self, session, alt, table):
        self.session, self.alt, self.table = session, alt, table
        self.seen, self.ids, self.numbers, self.left_out = {}, {}, {}, 0
        # Features that were edited here and removed by others, and those that were to be removed here and stay.
        self.lost, self.spared = {}, set()
        # What has changed in the store while the layer is edited: numbers, or None for anything.
        self.pending = set()
        self.record = maps.layer_at(session.store, alt, table)
        if self.record is None:
            raise Fault(f"{alt} has no layer in table {table} any more")
        self.names = maps.Fields(self.record)
        rows = list(self._rows())
        kind = type_of(self.record["geometry"]) or self._first_type(rows)
        register()
        self.layer = QgsVectorLayer(kind, f"{self.record['name']} of {alt}", KEY)
        self.layer.setCrs(crs_of(self.record["crs"]))
        self.provider = self.layer.dataProvider()
        self.memory = self.provider.memory
        self.provider.add_fields(qgis_fields(self.record))
        self.layer.updateFields()
        form = self.layer.editFormConfig()
        form.setReadOnly(0, True)
        self.layer.setEditFormConfig(form)
        self.layer.setCustomProperty("altqgis", f"{alt} {table}")
        self._add(rows)

    def _rows(self):
        return maps.scan_features(self.session.store, self.alt, self.table, bad=lambda *_: self._leave_out())

    def _leave_out(self):
        self.left_out += 1

    @staticmethod
    def _first_type(rows):
        shapes = (geometry_of(course) for _, _, course in rows)
        return next((QgsWkbTypes.displayString(it.wkbType()) for it in shapes if not it.isNull()), "NoGeometry")

    def feature(self, number, attributes, course):
        """A feature as QGIS has it, None if it cannot be shown."""
        made = QgsFeature(self.layer.fields())
        try:
            its = self.names.named(attributes)
        except Fault:
            return None
        made.setAttributes([number, *(to_qgis(it, its.get(it["name"])) for it in self.record["fields"])])
        shape = geometry_of(course)
        has_type = FLAT(shape.wkbType()) == FLAT(self.layer.wkbType())
        if (
            course
            and not has_type
            and not (self.layer.geometryType() == shape.type() and QgsWkbTypes.isMultiType(self.layer.wkbType()))
        ):
            return None
        made.setGeometry(shape)
        return made

    def _add(self, rows):
        made = []
        for number, attributes, course in rows:
            self.seen[number] = attributes, course
            feature = self.feature(number, attributes, course)
            if feature is None:
                self._leave_out()
            else:
                made.append(feature)
        _, added = self.memory.addFeatures(made)
        for it in added:
            self.know(it.id(), it[0])
        self.layer.updateExtents()

    def know(self, fid, number):
        self.ids[number], self.numbers[fid] = fid, number

    def catch_up(self, numbers=None):
        """Takes in what others have changed: features by their numbers, or anything. What is being edited stays until
        that ends."""
        self.pending = None if numbers is None or self.pending is None else self.pending | set(numbers)
        if self.layer.isEditable() or self.pending == set():
            return
        numbers, self.pending = self.pending, set()
        if numbers is None:
            self.memory.truncate()
            self.seen, self.ids, self.numbers, self.left_out = {}, {}, {}, 0
            self._add(self._rows())
        else:
            now = self.now(sorted(numbers))
            due = [it for it in sorted(numbers) if now.get(it) != self.seen.get(it) or it in self.spared]
            self.memory.deleteFeatures([self.ids.pop(it) for it in due if it in self.ids])
            for it in due:
                self.seen.pop(it, None)
            self._add((it, *now[it]) for it in due if it in now)
        self.spared = set()
        self.provider.dataChanged.emit()
        self.layer.triggerRepaint()

    def now(self, numbers):
        """What the store has of these features now, as a dict from number to attributes and geometry."""
        return self.found(self.read(numbers), numbers)

    def read(self, numbers):
        return maps.read(self.session.store, self.alt, [key for it in numbers for key in self.keys(it)])

    def found(self, records, numbers):
        """These features as records have them."""
        sides = {it: [maps.value_at(records, *key) for key in self.keys(it)] for it in numbers}
        return {
            it: (attributes or b"{}", course)
            for it, (attributes, course) in sides.items()
            if (attributes, course) != (None, None)
        }

    def keys(self, number):
        return (self.table, number), (self.table + GEOMETRY, number)
