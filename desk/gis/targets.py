"""The files that are written: layers of features, there under their name once they are whole."""
import contextlib
import os
import sqlite3
import tempfile
from pathlib import Path

from osgeo import gdal, ogr

import maps
from gis import interrupts
from gis.formats import FORMATS, OPTIONS, WITH_LAYERS
from gis.quick_target import NotPlain, QuickLayer, is_quick, tell_unknown
from gis.values import SUBTYPES, TYPES, WRITE, guarded, set_guarded
from maps import Fault, geometry
from maps.systems import crs_from_text

KINDS = [(it, ogr.GT_SetZ(it), ogr.GT_SetM(it), ogr.GT_SetModifier(it, True, True)) for it in range(18)]
SHAPES = {ogr.GeometryTypeToName(it): it for it in (ogr.wkbNone, *sum(KINDS, ()))}


def create_layer(source, described, name, is_plain, more=()):
    """A new layer, and for each of its fields its place and what writes it. A type that the format lacks becomes a
    text."""
    driver = source.GetDriver()
    kinds = driver.GetMetadataItem(gdal.DMD_CREATIONFIELDDATATYPES).split()
    subtypes = (driver.GetMetadataItem(gdal.DMD_CREATIONFIELDDATASUBTYPES) or "").split()
    shape = SHAPES.get(described["geometry"])
    if shape is None or not all(it["type"] in TYPES for it in described["fields"]):
        raise Fault(f"the layer {described['name']} has a type of geometry or of fields that GDAL does not know")
    options = [*OPTIONS.get(driver.ShortName, ()), *more]
    if driver.ShortName == "CSV" and shape != ogr.wkbNone:
        options.append("GEOMETRY=AS_WKT")
    if driver.ShortName in WITH_LAYERS:
        names = {it: maps.free_name(it, described["fields"]) for it in ("fid", "geom")}
        options += [f"FID={names['fid']}", f"GEOMETRY_NAME={names['geom']}"]
    layer = source.CreateLayer(name, crs_from_text(described["crs"]), shape, options)
    writers = {}
    for at, field in enumerate(described["fields"]):
        kind = TYPES[field["type"]] if field["type"] in kinds else ogr.OFTString
        is_guarded = driver.ShortName == "CSV" and not is_plain
        made = ogr.FieldDefn(guarded(field["name"]) if is_guarded else field["name"], kind)
        if field.get("subtype") in subtypes:
            made.SetSubType(SUBTYPES[field["subtype"]])
        if field["type"] in kinds:
            made.SetWidth(field.get("width", 0))
            made.SetPrecision(field.get("precision", 0))
        layer.CreateField(made)
        writers[field["name"]] = at, set_guarded if is_guarded and kind == ogr.OFTString else WRITE[kind]
    return layer, writers


def set_field(feature, at, write, value):
    try:
        feature.SetFieldNull(at) if value is None else write(feature, at, value)
    except (TypeError, ValueError, AttributeError, NotImplementedError, OverflowError, SystemError):
        field = feature.GetFieldDefnRef(at)
        raise Fault(
            f"feature {feature.GetFID()}: {value!r} is no {field.GetTypeName()}, as the field {field.GetName()} is"
        )


def parsed(number, value):
    """The geometry of a feature, from its value."""
    fault = geometry.fault_of(value)
    if not fault:
        try:
            return ogr.CreateGeometryFromWkb(value)
        except RuntimeError as refused:
            fault = refused
    raise Fault(f"feature {number}: its geometry is bad: {fault}")


class Layer:
    """A layer that is being written."""

    def __init__(self, source, described, name, is_plain):
        self._described, self._name, self._unknown, self.count = described, name, set(), 0
        self._layer, self._writers = create_layer(source, described, name, is_plain)
        self._head = self._layer.GetLayerDefn()
        # GeoJSON tells a field that is null from one that is not set. The store does not, and has no nulls.
        self._nulls = list(range(self._head.GetFieldCount())) if source.GetDriver().ShortName == "GeoJSON" else []

    def add(self, number, attributes, geometry):
        """Adds a feature: its fid or None, its attributes as a dict, and its geometry."""
        feature = ogr.Feature(self._head)
        if number is not None:
            feature.SetFID(number)
        for at in self._nulls:
            feature.SetFieldNull(at)
        for field, value in attributes.items():
            if field in self._writers:
                set_field(feature, *self._writers[field], value)
            else:
                self._unknown.add(field)
        if geometry is not None:
            feature.SetGeometryDirectly(parsed(number, geometry))
        self._layer.CreateFeature(feature)
        self.count += 1

    def tell_unknown(self):
        tell_unknown(self._name, self._unknown)


def write_quickly(file, layers, fill, is_plain):
    """Writes a GeoPackage as `write_layers` does, by SQL. GDAL makes it, and its index of places. NotPlain is raised if
    a value has to go through GDAL."""
    source = gdal.GetDriverByName("GPKG").Create(file, 0, 0, 0, gdal.GDT_Unknown)
    for described, name in layers:
        create_layer(source, described, name, is_plain, ["SPATIAL_INDEX=NO"])
    del source
    with contextlib.closing(sqlite3.connect(file)) as database:
        made = [QuickLayer(database, *it) for it in layers]
        told = fill(*made)
        for it in made:
            it.finish()
        database.commit()
    source = gdal.OpenEx(file, gdal.OF_VECTOR | gdal.OF_UPDATE)
    for it in made:
        it.tell_unknown()
        if it.course:
            texts = ("'" + text.replace("'", "''") + "'" for text in (it.name, it.course))
            source.ReleaseResultSet(source.ExecuteSQL(f"SELECT CreateSpatialIndex({', '.join(texts)})"))
    del source
    return told


def write_layers(source, layers, fill, is_plain, made_last="nothing was changed"):
    """Writes layers, each a description and a name: `fill` is given them to add their features, and tells how many they
    are. `made_last` is what an interruption says once a transaction is committed."""
    if source.TestCapability(ogr.ODsCTransactions):
        source.StartTransaction()
    made = [Layer(source, *it, is_plain) for it in layers]
    told = fill(*made)
    for it in made:
        it.tell_unknown()
    if source.TestCapability(ogr.ODsCTransactions):
        with interrupts.held_back(made_last):
            source.CommitTransaction()
    source.FlushCache()
    return told


def write_tables(out, layers, fill, is_plain):
    """Makes tables of a database, all of them in one transaction."""
    source = gdal.OpenEx(out, gdal.OF_VECTOR | gdal.OF_UPDATE, allowed_drivers=["PostgreSQL"])
    for _, name in layers:
        if source.GetLayerByName(name) is not None:
            raise Fault(f"{name} is there already")
    try:
        return write_layers(source, layers, fill, is_plain, "the tables are there as a whole")
    except BaseException:
        with contextlib.suppress(RuntimeError):  # The server may have done so.
            source.RollbackTransaction()
        raise


def write_file(out, layers, fill, is_plain=False, finish=lambda file: None):
    """Makes a file of layers, as `write_layers` does. It is there under its name once it is whole, and `finish` is
    done."""
    if out.startswith("PG:"):
        return write_tables(out, layers, fill, is_plain)
    driver = gdal.GetDriverByName(FORMATS.get(Path(out).suffix.lower(), ""))
    if driver is None:
        raise Fault(f"{out} ends with none of {', '.join(FORMATS)}")
    if len(layers) > 1 and driver.ShortName not in WITH_LAYERS:
        raise Fault(f"{out} takes one layer, and these are {len(layers)}: give --table, or a name that ends with .gpkg")
    folder = Path(out).absolute().parent
    with tempfile.TemporaryDirectory(dir=folder, prefix=".altgis") as made:
        interrupts.remove_at_end(made)
        file = os.path.join(made, Path(out).name)
        told = None
        if driver.ShortName == "GPKG" and all(is_quick(described) for described, _ in layers):
            try:
                told = write_quickly(file, layers, fill, is_plain)
            except NotPlain:
                os.unlink(file)
        if told is None:
            source = driver.Create(file, 0, 0, 0, gdal.GDT_Unknown)
            told = write_layers(source, layers, fill, is_plain)
            del source  # Closes the file.
        finish(file)
        names = os.listdir(made)
        for it in names:
            if (folder / it).exists():
                raise Fault(f"{folder / it} is there already")
        with interrupts.held_back(f"{out} is there as a whole"):
            for it in names:
                os.rename(os.path.join(made, it), folder / it)
    return told
