#!/usr/bin/env python3
"""Measures maps at the size of a utility: `tools/measure/measure_maps.py [--features N] [--kinds] [--keep FOLDER]`. It
makes a network of 220,000 features (30,000 chambers, 60,000 ducts, 80,000 cables, 50,000 service points of 13 to 15
fields) as a GeoPackage, brings it into a store, takes it out again, and tells the times, the sizes, and by GDAL's SQL
how many features differ: the status is 1 if any does. Times are looked at, never tested."""
import argparse
import os
import random
import resource
import subprocess
import sys
import tempfile
import time
from pathlib import Path

sys.dont_write_bytecode = True
TOP = Path(__file__).resolve().parents[2]
DEBIAN = "/usr/bin/python3"  # The Python that Debian's python3-gdal is installed for.
try:
    from osgeo import gdal, ogr, osr
except ImportError:
    if os.path.exists(DEBIAN) and sys.executable != DEBIAN:
        os.execv(DEBIAN, [DEBIAN, *sys.argv])
    sys.exit("measure_maps: GDAL is not there for Python: install it by `apt install python3-gdal`")

sys.path.insert(0, str(TOP / "clients" / "python"))
from altctl import Store

ALTCTL = os.environ.get("ALTCTL", str(TOP / "altctl"))
WHOLE, BLOCKS = 220000, 2**19
EAST, NORTH = 2600000, 1200000
KINDS = {"i": ogr.OFTInteger, "r": ogr.OFTReal, "s": ogr.OFTString, "d": ogr.OFTDate}
# Of each layer: its share of the features, its type of geometry, and its fields with their kinds.
LAYERS = {
    "chambers": (
        30000,
        ogr.wkbPoint,
        "chamber_no:s kind:s cover:s width:r depth:r owner:s street:s house:s built:d "
        "condition:s inspected:d drawing:s remark:s",
    ),
    "ducts": (
        60000,
        ogr.wkbLineString,
        "duct_no:s mat:s dn:i ways:i length:r depth:r owner:s street:s built:d condition:s "
        "project:s inspected:d from_no:i to_no:i remark:s",
    ),
    "cables": (
        80000,
        ogr.wkbLineString,
        "cable_no:s kind:s voltage:r cores:i section:r length:r owner:s route:s built:d "
        "condition:s project:s duct:i tested:d remark:s",
    ),
    "points": (
        50000,
        ogr.wkbPoint,
        "point_no:s address:s zip:i town:s customer:s meter:s phase:i fuse:i built:d state:s "
        "cable:i read:d remark:s",
    ),
}
TEXTS = {
    "mat": ("PVC", "HDPE", "steel", "clay"),
    "kind": ("pull box", "joint", "transition", "NAYY 4x150", "N2XS"),
    "cover": ("B125", "D400"),
    "owner": ("Stadtwerke Nord", "Netz AG", "Gemeinde"),
    "state": ("active", "planned", "off"),
    "condition": ("good", "fair", "to be renewed"),
    "town": ("Muttenz", "Birsfelden", "Pratteln"),
    "street": ("Hauptstrasse", "Bahnhofstrasse", "Rütiweg", "Im Grund", "Seestrasse"),
}


def value_of(name, kind, fid, chance):
    """A value as a field of this name has it. One in eight is missing."""
    if chance.random() < 0.125 and not name.endswith("_no"):
        return None
    if kind == "d":
        return f"{chance.randint(1962, 2024)}-{chance.randint(1, 12):02}-{chance.randint(1, 28):02}"
    if kind == "i":
        return chance.choice((50, 110, 125, 160)) if name == "dn" else chance.randrange(60000)
    if kind == "r":
        return chance.randrange(100000) / 100
    if name.endswith("_no"):
        return f"{name[:2].upper()}-{fid:06}"
    return chance.choice(TEXTS[name]) if name in TEXTS else f"{name} {chance.randrange(10**6)}"


def place(chance):
    return EAST + chance.randrange(8000000) / 1000, NORTH + chance.randrange(8000000) / 1000


def geometry_of(shape, chance):
    x, y = place(chance)
    made = ogr.Geometry(shape)
    if shape == ogr.wkbPoint:
        made.AddPoint_2D(x, y)
        return made
    for _ in range(chance.randint(2, 6)):
        made.AddPoint_2D(x, y)
        x, y = round(x + chance.uniform(-40, 40), 3), round(y + chance.uniform(-40, 40), 3)
    return made


def make_network(file, features):
    chance, system = random.Random(11), osr.SpatialReference()
    system.ImportFromEPSG(2056)
    system.SetAxisMappingStrategy(osr.OAMS_TRADITIONAL_GIS_ORDER)
    source = gdal.GetDriverByName("GPKG").Create(file, 0, 0, 0, gdal.GDT_Unknown)
    source.StartTransaction()
    for layer_name, (share, shape, spelled) in LAYERS.items():
        layer = source.CreateLayer(layer_name, system, shape)
        fields = [it.split(":") for it in spelled.split()]
        for name, kind in fields:
            layer.CreateField(ogr.FieldDefn(name, KINDS[kind]))
        for fid in range(1, share * features // WHOLE + 1):
            feature = ogr.Feature(layer.GetLayerDefn())
            feature.SetFID(fid)
            for at, (name, kind) in enumerate(fields):
                value = value_of(name, kind, fid, chance)
                if value is not None:
                    feature.SetField(at, value)
            feature.SetGeometryDirectly(geometry_of(shape, chance))
            layer.CreateFeature(feature)
    source.CommitTransaction()


def processor():
    """The seconds that ended processes have taken of a processor."""
    used = resource.getrusage(resource.RUSAGE_CHILDREN)
    return used.ru_utime + used.ru_stime


def timed(what, *words):
    """What a program tells, and two times: as people wait, and of the processors."""
    begun, before = time.monotonic(), processor()
    ran = subprocess.run(words, env={**os.environ, "ALTCTL": ALTCTL}, capture_output=True, text=True)
    if ran.returncode:
        sys.exit(f"measure_maps: {what}: status {ran.returncode}: {ran.stderr}")
    return f"{time.monotonic() - begun:.1f} s ({processor() - before:.1f} s of the processors)", ran.stdout


def used_bytes(store):
    """How many bytes of a store are in use, without what a reclaim frees."""
    subprocess.run([ALTCTL, "do", store, "reclaim", "commit"], check=True, stdout=subprocess.DEVNULL)
    return (BLOCKS - int(timed("free", ALTCTL, "do", store, "free")[1].split()[1])) * 4096


def tell_kinds(altgis, source, store):
    """How many bytes a feature of each layer takes, its values alone and in the store."""
    for name in LAYERS:
        Path(store).unlink(missing_ok=True)
        subprocess.run([ALTCTL, "create", store, str(BLOCKS)], check=True, stdout=subprocess.DEVNULL)
        timed("import", *altgis, "import", store, source, name, "--alt", "top", "--table", "1")
        subprocess.run([ALTCTL, "do", store, "drop .places", "commit"], check=True, stdout=subprocess.DEVNULL)
        with Store(store, ALTCTL) as opened:
            sizes = {it: [len(row.value) for row in opened.scan("top", it)] for it in (1, 101)}
        count = len(sizes[1])
        attributes, courses = (sum(it) / count for it in sizes.values())
        told = f"attributes {attributes:.0f} bytes, geometry {courses:.0f}"
        print(f"{name}: {told}: {used_bytes(store) / count:.0f} bytes a feature in the store")
    Path(store).unlink()


def different(one, other):
    """How many features one file has that the other lacks, layer by layer, as GDAL's SQL counts them."""
    source, count = gdal.OpenEx(one, gdal.OF_VECTOR), 0
    source.ExecuteSQL(f"ATTACH DATABASE '{other}' AS other")
    for name in LAYERS:
        for a, b in ((name, f"other.{name}"), (f"other.{name}", name)):
            found = source.ExecuteSQL(f"SELECT count(*) FROM (SELECT * FROM {a} EXCEPT SELECT * FROM {b})")
            count += found.GetNextFeature().GetField(0)
            source.ReleaseResultSet(found)
    return count


def main():
    parser = argparse.ArgumentParser(prog="measure_maps")
    parser.add_argument("--features", type=int, default=WHOLE, help=f"how many in all, {WHOLE} by default")
    parser.add_argument("--kinds", action="store_true", help="tell how many bytes a feature of each layer takes")
    parser.add_argument("--keep", help="a folder for the files, which stay there")
    words = parser.parse_args()
    gdal.UseExceptions()
    with tempfile.TemporaryDirectory() as made:
        folder = words.keep or made
        source, store, out = (os.path.join(folder, it) for it in ("network.gpkg", "network.alt", "out.gpkg"))
        if not os.path.exists(source):
            make_network(source, words.features)
        for it in (store, out):
            Path(it).unlink(missing_ok=True)
        subprocess.run([ALTCTL, "create", store, str(BLOCKS)], check=True, stdout=subprocess.DEVNULL)
        altgis = [sys.executable, str(TOP / "desk" / "altgis")]
        imports, _ = timed("import", *altgis, "import", store, source, "--all", "--alt", "top")
        exports, _ = timed("export", *altgis, "export", store, "top", out)
        print(f"import {imports}, export {exports}")
        used, size = used_bytes(store), os.path.getsize(source)
        print(f"store {used / 1e6:.0f} MB, GeoPackage {size / 1e6:.0f} MB: {used / size:.2f} times")
        if words.kinds:
            tell_kinds(altgis, source, os.path.join(folder, "kind.alt"))
        wrong = different(source, out)
        print(f"{wrong} features differ")
    return 1 if wrong else 0


if __name__ == "__main__":
    sys.exit(main())
