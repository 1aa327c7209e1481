"""A layer of a file, as the store has it: what it is, and its features."""
import re
from typing import Callable, Iterator, List, Optional, Tuple

from osgeo import gdal, ogr

from gis.quick import Quick, wrong_values
from gis.values import readers, unguarded
from maps import Fault, Fields, geometry
from maps.systems import crs_to_text

MOST_ID = 2**63 - 1
WRONG_VALUE = re.compile("Invalid (content|value)|parsed incompletely|out of range|clamped|truncated", re.I)
Feature = Tuple[int, bytes, Optional[bytes], Optional[List[float]]]


def field_to_json(field):
    names = {"type": field.GetTypeName(), "subtype": ogr.GetFieldSubTypeName(field.GetSubType())}
    numbers = {"width": field.GetWidth(), "precision": field.GetPrecision()}
    told = {it: value for it, value in {**names, **numbers}.items() if value not in ("None", 0)}
    return {"name": field.GetName(), **told}


class Source:
    """A layer of a file that GDAL has opened: `described` is what the store keeps of it beside its features. With
    `id_field` the ids are in that field, and not the fids."""

    def __init__(self, opened, layer, id_field: Optional[str] = None):
        self.opened, self.layer = opened, layer
        self.is_csv = opened.GetDriver().ShortName == "CSV"
        head = layer.GetLayerDefn()
        fields = [field_to_json(head.GetFieldDefn(it)) for it in range(head.GetFieldCount())]
        if self.is_csv:
            fields = [{**it, "name": unguarded(it["name"])} for it in fields]
        names = [it["name"] for it in fields]
        if len(set(names)) < len(names) or head.GetGeomFieldCount() > 1:
            raise Fault("the layer has two fields of one name, or more than one of geometry")
        if id_field is not None and id_field not in names:
            raise Fault(f"the layer has no field {id_field}; it has {', '.join(names)}")
        kind, crs = ogr.GeometryTypeToName(layer.GetGeomType()), crs_to_text(layer.GetSpatialRef())
        self.described = {"name": layer.GetName(), "crs": crs, "geometry": kind, "fields": fields, "id": id_field}

    def count(self) -> int:
        return max(self.layer.GetFeatureCount(), 0)

    def features(self, fields: Fields, bad: Callable[[str], None]) -> Iterator[Feature]:
        """The features: id, attributes as `fields` writes them, geometry, and the bounds of its points. One that cannot
        be in a store is told to `bad`."""
        quick = Quick(self.opened, self.layer, self.described, fields)
        for number, attributes, course in quick.features() if quick.can() else self._slowly(fields, bad):
            number = id_of(number, self.described["id"])
            if attributes is None:
                bad(f"feature {number} has a text that is not UTF-8")
                continue
            try:
                bounds = None if course is None else geometry.bounds_of(course)
            except geometry.Bad as fault:
                bad(f"feature {number}: its geometry is bad: {fault}")
                continue
            yield number, attributes, course, bounds

    def _wrong(self) -> dict:
        """What GDAL would not tell of: by fid, the features of a GeoPackage that have a value of another type."""
        fid = self.layer.GetFIDColumn()
        if self.opened.GetDriver().ShortName != "GPKG" or not fid:
            return {}
        return wrong_values(self.opened.GetDescription(), self.layer.GetName(), fid, self.described["fields"])

    def _told(self):
        """The features, each with what GDAL has said while it read it: that a value is not what its field says."""
        said = []
        gdal.PushErrorHandler(lambda kind, number, text: said.append(text) if WRONG_VALUE.search(text) else None)
        try:
            for feature in self.layer:
                yield feature, said[:1]
                said.clear()
        finally:
            gdal.PopErrorHandler()

    def _slowly(self, fields: Fields, bad):
        """The features one by one, whatever their types are. Attributes are None if they have a text that is not
        UTF-8."""
        described = self.described
        names = [it["name"] for it in described["fields"]]
        id_at = None if described["id"] is None else names.index(described["id"])
        reads = list(readers(described["fields"], described["id"], self.is_csv))
        wrong = self._wrong()
        for feature, said in self._told():
            if said and self.is_csv:  # Of further ones in that field GDAL says nothing.
                raise Fault(f"{said[0].partition('. ')[0]}, and maybe in others: mend them, or the type in the .csvt")
            if said or feature.GetFID() in wrong:
                bad(wrong.get(feature.GetFID()) or f"feature {feature.GetFID()}: {said[0]}")
                continue
            number = str(feature.GetFID()) if id_at is None else feature.GetFieldAsString(id_at)
            found = {name: read(feature, at) for at, name, read in reads if feature.IsFieldSetAndNotNull(at)}
            try:
                attributes = fields.packed(found)
            except (TypeError, UnicodeError):
                attributes = None
            course = feature.GetGeometryRef()
            yield number, attributes, None if course is None else bytes(course.ExportToIsoWkb(ogr.wkbNDR))


def id_of(text: str, field: Optional[str]) -> int:
    if not re.fullmatch(r"0|[1-9][0-9]{0,18}", text) or int(text) > MOST_ID:
        where = "as its fid" if field is None else f"in the field {field}"
        raise Fault(f"an id must be 0 to {MOST_ID}, and a feature has {text or 'none'} {where}")
    return int(text)
