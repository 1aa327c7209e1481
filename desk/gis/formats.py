"""The formats of maps: which driver of GDAL opens and makes a file, by its name alone, and what it may not do."""
import contextlib
import os
import re
import sqlite3
from pathlib import Path

from osgeo import gdal, ogr, osr

from maps import Fault

FORMATS = {".gpkg": "GPKG", ".geojson": "GeoJSON", ".json": "GeoJSON", ".shp": "ESRI Shapefile", ".csv": "CSV"}
WITH_LAYERS = ("GPKG", "PostgreSQL")  # The others have one layer a file.
# What each format is told, so that it keeps numbers and names exactly.
OPTIONS = {
    "GeoJSON": ["SIGNIFICANT_FIGURES=17"],
    "CSV": ["CREATE_CSVT=YES"],
    "PostgreSQL": ["LAUNDER=NO", "FID64=YES"],
}
# The tables of a GeoPackage that are no tables of its own, and need no other file: indexes of places and of texts.
NAME = r'(\w+|"([^"]|"")+")'
OWN_TABLE = re.compile(rf"\s*CREATE VIRTUAL TABLE {NAME} USING (rtree|fts[345])\s*\([^()]*\)\s*", re.I)


def set_up():
    """Sets GDAL up: its faults are exceptions, it writes numbers in full, and it fetches nothing."""
    for it in (gdal, ogr, osr):
        it.UseExceptions()
    shut_off()
    gdal.SetConfigOption("OGR_WKT_PRECISION", "17")
    gdal.SetConfigOption("OGR_PG_DEFERRED_CREATION", "NO")  # Else a table is made behind a rollback.


def shut_off():
    """Keeps GDAL from fetching what a file names, such as the address of a coordinate system: all that it fetches goes
    by way of a proxy that cannot be there."""
    for it in ("no_proxy", "NO_PROXY", "SPATIALITE_SECURITY"):
        os.environ.pop(it, None)
    for it in ("GDAL_HTTP_PROXY", "GDAL_HTTPS_PROXY"):
        gdal.SetConfigOption(it, "http://127.0.0.1:0")
    osr.SetPROJEnableNetwork(False)


def refuse_virtual_tables(file):
    """Refuses a GeoPackage that has tables by which SQLite reads other files."""
    with contextlib.closing(sqlite3.connect(f"{Path(file).absolute().as_uri()}?mode=ro", uri=True)) as database:
        for name, made in database.execute("SELECT name, sql FROM sqlite_master WHERE sql IS NOT NULL"):
            if re.search(r"\bVIRTUAL\b.*\bUSING\b", str(made), re.I | re.S) and not OWN_TABLE.fullmatch(str(made)):
                raise Fault(f"{file}: the table {name} reads what is not in the file")


def open_source(file):
    """A file that GDAL has opened by the one driver that its name tells: a file of another kind, which may lead
    elsewhere, is not opened."""
    if file.startswith("PG:"):
        return gdal.OpenEx(file, gdal.OF_VECTOR, allowed_drivers=["PostgreSQL"])
    driver = FORMATS.get(Path(file).suffix.lower())
    if driver is None:
        raise Fault(f"{file} ends with none of {', '.join(FORMATS)}")
    if not os.path.isfile(file):
        raise Fault(f"{file}: No such file")
    if driver == "GPKG":
        refuse_virtual_tables(file)
    options = ["KEEP_GEOM_COLUMNS=NO"] if driver == "CSV" else []
    return gdal.OpenEx(file, gdal.OF_VECTOR, allowed_drivers=[driver], open_options=options)


def names_of(source):
    return [source.GetLayer(it).GetName() for it in range(source.GetLayerCount())]


def open_layer(file, name=None):
    """A layer of a file: the one of this name, or its only one."""
    source = open_source(file)
    names = names_of(source)
    if name is None and len(names) != 1:
        raise Fault(f"{file} has {len(names)} layers: name one of {', '.join(names)}, or give --all")
    layer = source.GetLayerByName(names[0] if name is None else name)
    if layer is None:
        raise Fault(f"{file} has no layer {name}; it has {', '.join(names)}")
    return source, layer


def is_of_maps(file):
    """Whether a name is that of a file of maps, and of no store."""
    return file.startswith("PG:") or Path(file).suffix.lower() in FORMATS
