"""What the tests of `altgis` stand on: files that GDAL makes, a store in a folder of its own, and `altgis` as a
program. That two layers are equal is told by GDAL: it copies both into one GeoPackage, and SQL there compares all
columns."""
import importlib.util
import os
import shutil
import sqlite3
import subprocess
import sys
import tempfile
import time
import unittest
from importlib.machinery import SourceFileLoader
from pathlib import Path

from osgeo import gdal, ogr, osr

DESK = Path(__file__).resolve().parents[1]
from altctl import Store

ALTCTL = os.path.abspath(os.environ.get("ALTCTL", DESK.parent / "altctl"))
gdal.PushErrorHandler("CPLQuietErrorHandler")  # Its warnings. Errors are exceptions.
gdal.UseExceptions()
ogr.UseExceptions()
osr.UseExceptions()


def program(name):
    """A program of this folder, as a module."""
    loader = SourceFileLoader(name, str(DESK / name))
    module = importlib.util.module_from_spec(importlib.util.spec_from_loader(name, loader))
    loader.exec_module(module)
    return module


def field(name, kind, subtype=ogr.OFSTNone):
    made = ogr.FieldDefn(name, kind)
    made.SetSubType(subtype)
    return made


def system(code):
    made = osr.SpatialReference()
    made.ImportFromEPSG(code)
    made.SetAxisMappingStrategy(osr.OAMS_TRADITIONAL_GIS_ORDER)
    return made


def write(file, name, fields, features, shape=ogr.wkbUnknown, code=2056):
    """A layer of a file, of features that are each a fid, a dict of what is set, and a geometry as text or as GDAL has
    it."""
    kinds = {".gpkg": "GPKG", ".geojson": "GeoJSON", ".csv": "CSV", ".shp": "ESRI Shapefile"}
    source = gdal.GetDriverByName(kinds[Path(file).suffix]).Create(file, 0, 0, 0, gdal.GDT_Unknown)
    layer = source.CreateLayer(name, system(code) if code else None, shape)
    for it in fields:
        layer.CreateField(it)
    for fid, values, geometry in features:
        feature = ogr.Feature(layer.GetLayerDefn())
        feature.SetFID(fid)
        for key, value in values.items():
            at = feature.GetFieldIndex(key)
            if isinstance(value, bytes):
                feature.SetFieldBinaryFromHexString(at, value.hex())
            elif isinstance(value, tuple):
                feature.SetField(at, *value)
            elif isinstance(value, list):
                feature[key] = value
            else:
                feature.SetField(at, value)
        if geometry is not None:
            feature.SetGeometry(ogr.CreateGeometryFromWkt(geometry) if isinstance(geometry, str) else geometry)
        layer.CreateFeature(feature)
    source.FlushCache()


def change(file, *statements):
    """Changes a GeoPackage by SQL."""
    source = gdal.OpenEx(file, gdal.OF_VECTOR | gdal.OF_UPDATE)
    for it in statements:
        source.ExecuteSQL(it)
    source.FlushCache()


def polygon(points, east=0):
    """A polygon of so many points."""
    ring = ogr.Geometry(ogr.wkbLinearRing)
    for it in range(points):
        ring.AddPoint_2D(2600000.1 + east + it / 7, 1200000 + (it * it) % 1009 / 3)
    ring.CloseRings()
    made = ogr.Geometry(ogr.wkbPolygon)
    made.AddGeometry(ring)
    return made


DUCTS = [field("dn", ogr.OFTInteger), field("mat", ogr.OFTString)]
THREE = [
    (1, {"dn": 110, "mat": "PVC"}, "LINESTRING (1 2,3 4)"),
    (2, {"dn": 160, "mat": "Straße"}, "LINESTRING (1 2,3 5)"),
    (12, {"dn": None, "mat": ""}, None),
]


class AltgisCase(unittest.TestCase):
    """A folder with a store, and `altgis` as a program over it."""

    def setUp(self):
        folder = tempfile.TemporaryDirectory()
        self.addCleanup(folder.cleanup)
        self.folder, self.store = folder.name, os.path.join(folder.name, "map.alt")
        self.create(16384)

    def create(self, blocks):
        Path(self.store).unlink(missing_ok=True)
        subprocess.run([ALTCTL, "create", self.store, str(blocks)], check=True, stdout=subprocess.DEVNULL)

    def file(self, name):
        return os.path.join(self.folder, name)

    def ask(self, do):
        with Store(self.store, ALTCTL) as store:
            result = do(store)
            store.commit()
            return result

    def start(self, words, **how):
        environment = {**os.environ, "ALTCTL": ALTCTL, **how}
        return subprocess.run(words, capture_output=True, text=True, env=environment, cwd=self.folder, timeout=120)

    def start_altgis(self, *words, **how):
        return self.start([sys.executable, str(DESK / "altgis"), *map(str, words)], **how)

    def altgis(self, *words):
        """What altgis tells on its output. It has no other words but warnings of GDAL."""
        ran = self.start_altgis(*words)
        faults = [it for it in ran.stderr.splitlines() if not it.startswith("Warning ")]
        self.assertEqual((0, []), (ran.returncode, faults), words)
        return ran.stdout

    def bring(self, file, layer, *words, alt="top", table=7):
        return self.altgis("import", self.store, file, layer, "--alt", alt, "--table", table, *words)

    def refused(self, told, *words):
        """A refusal is a line, or two, leaves the store as it is, byte for byte, and no file."""
        before, files = Path(self.store).read_bytes(), sorted(os.listdir(self.folder))
        ran = self.start_altgis(*words)
        self.assertEqual((1, ""), (ran.returncode, ran.stdout), words)
        self.assertRegex("\n".join(ran.stderr.splitlines()[-2:]), f"(?m)^altgis: .*{told}")
        self.assertTrue(Path(self.store).read_bytes() == before, words)
        self.assertEqual(files, sorted(os.listdir(self.folder)))

    def left_out(self, count, told, *words):
        """So many features are named as bad, and left out; the others go out."""
        before = Path(self.store).read_bytes()
        ran = self.start_altgis(*words)
        self.assertEqual(3, ran.returncode, ran.stderr)
        self.assertRegex(ran.stderr, f"(?m)^altgis: left out .*{told}")
        self.assertIn(f"altgis: {count} features are left out, as they are bad", ran.stderr)
        self.assertTrue(Path(self.store).read_bytes() == before, words)

    def service(self):
        """Starts a service of the store, and gives the words that name it."""
        words = [sys.executable, str(DESK / "altserve"), "--program", ALTCTL, self.store]
        self.serving = subprocess.Popen(words, stderr=subprocess.DEVNULL)
        self.addCleanup(self.stop)
        late = time.monotonic() + 60
        while not os.path.exists(f"{self.store}.sock") and time.monotonic() < late:
            time.sleep(0.05)
        return f"unix:{self.store}.sock"

    def stop(self):
        """Ends the service."""
        self.serving.terminate()
        self.serving.wait()

    def count(self, sql, *layers):
        """The answer to SQL over layers that GDAL has copied from their files, as a and b. None is a file's only
        layer."""
        self.copies = getattr(self, "copies", 0) + 1
        whole = self.file(f"compared{self.copies}.gpkg")
        for name, (file, layer) in zip("ab", layers):
            how = {"format": "GPKG", "layerName": name, "accessMode": "update" if os.path.exists(whole) else None}
            options = ["KEEP_GEOM_COLUMNS=NO"] if file.endswith(".csv") else []
            source = gdal.OpenEx(file, gdal.OF_VECTOR, open_options=options)
            layer = layer or source.GetLayer(0).GetName()
            names = ["GEOMETRY_NAME=geom", "FID=fid"]
            gdal.VectorTranslate(
                whole, source, layers=[layer], options=["-preserve_fid"], layerCreationOptions=names, **how
            )
        found = gdal.OpenEx(whole, gdal.OF_VECTOR).ExecuteSQL(sql)
        return found.GetNextFeature().GetField(0)

    def equal(self, count, a, b, columns="*"):
        """Two layers have so many features, and the same ones."""
        for one, other in (("a", "b"), ("b", "a")):
            self.assertEqual(count, self.count(f"SELECT count(*) FROM {one}", a, b))
            sql = f"SELECT count(*) FROM (SELECT {columns} FROM {one} EXCEPT SELECT {columns} FROM {other})"
            self.assertEqual(0, self.count(sql, a, b), (a, b))

    def opens(self, file):
        """QGIS's reader opens a file."""
        if not shutil.which("ogrinfo"):
            self.skipTest("ogrinfo is not there (apt install gdal-bin)")
        ran = subprocess.run(["ogrinfo", "-al", "-ro", file], capture_output=True, text=True)
        faults = [it for it in ran.stderr.splitlines() if not it.startswith("Warning ")]
        self.assertEqual((0, []), (ran.returncode, faults), file)
        return ran.stdout

    def there_and_back(self, file, layer, out, *words, count, columns="*"):
        """A layer into a store of its own and out of it again."""
        self.create(16384)
        self.bring(file, layer, *words)
        self.altgis("export", self.store, "top", self.file(out), "--layer", layer)
        self.equal(count, (file, layer), (self.file(out), None), columns)
        self.opens(self.file(out))
        Path(self.file(out)).unlink()

    def lines(self, name, **how):
        """A layer of lines whose numbers each of the formats keeps."""
        features = [
            (it, {"dn": it * 10, "mat": f"m{it}", "x": it / 8}, f"LINESTRING ({it} 0.1,{it / 7} {it / 3},-1e-7 9)")
            for it in range(1, 40)
        ]
        fields = [*DUCTS, field("x", ogr.OFTReal)]
        write(self.file(name), "ducts", fields, features, ogr.wkbLineString, how.get("code", 2056))

    def rows(self, file, layer, columns):
        with sqlite3.connect(file) as it:
            return it.execute(f"SELECT {columns} FROM {layer} ORDER BY fid").fetchall()
