"""PostGIS as FILE, over a server of the test's own at a Unix socket."""
import os
import pwd
import shutil
import subprocess
import tempfile
import unittest
from pathlib import Path

from gis_tests.cases import DUCTS, THREE, AltgisCase, field, write
from osgeo import gdal, ogr

import maps

PROGRAMS = sorted(Path("/usr/lib/postgresql").glob("*/bin/initdb"))
EXTENSIONS = sorted(Path("/usr/share/postgresql").glob("*/extension/postgis.control"))


def there_is():
    names = {it.pw_name for it in pwd.getpwall()}
    return PROGRAMS and EXTENSIONS and gdal.GetDriverByName("PostgreSQL") and (os.getuid() or "postgres" in names)


@unittest.skipUnless(there_is(), "PostGIS is not there (apt install postgresql postgis postgresql-postgis)")
class PostgisTests(AltgisCase):
    @classmethod
    def setUpClass(cls):
        cls.place = tempfile.mkdtemp(prefix="pg")
        cls.addClassCleanup(shutil.rmtree, cls.place, ignore_errors=True)
        if os.getuid() == 0:
            shutil.chown(cls.place, "postgres")
        data = os.path.join(cls.place, "data")
        cls.run_program("initdb", "-D", data, "-A", "trust", "-N", "-U", "planner")
        how = f"-c listen_addresses= -c unix_socket_directories={cls.place} -c fsync=off"
        cls.run_program("pg_ctl", "-D", data, "-l", f"{data}/log", "-o", how, "-w", "-t", "120", "start")
        cls.addClassCleanup(cls.run_program, "pg_ctl", "-D", data, "-m", "immediate", "stop")
        cls.address = f"PG:host={cls.place} user=planner dbname=postgres"
        cls.sql("CREATE EXTENSION postgis")

    @classmethod
    def run_program(cls, name, *words):
        """A program of PostgreSQL. None of them runs as root."""
        words, user = [str(PROGRAMS[-1].parent / name), *words], {}
        if os.getuid() == 0:
            user = {"user": "postgres", "group": "postgres", "extra_groups": []}
        subprocess.run(words, check=True, stdout=subprocess.DEVNULL, cwd="/", **user)

    @classmethod
    def sql(cls, *lines):
        source = gdal.OpenEx(cls.address, gdal.OF_VECTOR | gdal.OF_UPDATE)
        for it in lines:
            source.ExecuteSQL(it)

    def hard(self):
        """Values at their limits, fids beyond 32 bits, names of all kinds, and geometries of each type."""
        kinds = {"I": "Integer", "Long Name": "Integer64", "real": "Real", "straße": "String", "d": "Date"}
        kinds.update({"t": "DateTime", "b": "Binary"})
        fields = [field(name, getattr(ogr, f"OFT{kind}")) for name, kind in kinds.items()]
        fields += [field("yes", ogr.OFTInteger, ogr.OFSTBoolean), field("short", ogr.OFTInteger, ogr.OFSTInt16)]
        moment = (2024, 2, 29, 23, 59, 59.999, 100)
        values = [
            {"I": -(2**31), "Long Name": -(2**63), "real": 0.1, "straße": "'\"\\\n\tß\U0001f600", "b": b"\x00\xff"},
            {"I": 2**31 - 1, "Long Name": 2**63 - 1, "real": 123456789.123456, "straße": "x" * 9000},
            {"d": (1999, 12, 31, 0, 0, 0.0, 0), "t": moment, "yes": 1, "short": -(2**15)},
            {"d": (1, 1, 1, 0, 0, 0.0, 0), "real": 1e-300, "straße": "", "yes": 0},
            {},
        ]
        shapes = ["POINT (0.1 1e-300)", "LINESTRING (0 0,-1 5,3 -2)", None, "POLYGON ((0 0,0 9,9 9,0 0))"]
        shapes += ["MULTIPOINT (1 2,3 4)", "CIRCULARSTRING (0 0,1 1,2 0)", "LINESTRING EMPTY"]
        shapes += ["GEOMETRYCOLLECTION (POINT (1 2),LINESTRING (0 0,1 1))"]
        features = [(at + 2**31 * (at == 4), values[at % len(values)], it) for at, it in enumerate(shapes, 1)]
        write(self.file("a.gpkg"), "Hard Layer", fields, features)
        return len(features)

    def test_a_layer_there_and_back(self):
        count = self.hard()
        self.bring(self.file("a.gpkg"), "Hard Layer")
        self.altgis("export", self.store, "top", self.address)
        self.equal(count, (self.file("a.gpkg"), "Hard Layer"), (self.address, "Hard Layer"))
        told = self.bring(self.address, "Hard Layer", "--sync")
        self.assertIn(f"0 added, 0 changed, 0 removed, {count} same", told)
        self.assertIn(f"Hard Layer: {count} features, ", self.altgis("layers", self.address))
        lines = [(5, {"dn": 1}, "LINESTRING ZM (0 0 1 2,-1 5 2 3)"), (6, {"dn": 2}, "LINESTRING ZM EMPTY")]
        write(self.file("z.gpkg"), "lines", DUCTS, lines, ogr.wkbLineStringZM)
        self.bring(self.file("z.gpkg"), "lines", table=8)
        self.altgis("export", self.store, "top", self.address, "--table", 8)
        self.assertIn("2 same", self.bring(self.address, "lines", table=8))

    def test_what_others_have_made_there(self):
        """A table of SQL, with types that GDAL knows as others."""
        self.sql("CREATE TABLE pipes (id serial PRIMARY KEY, dn numeric(6,2), mat varchar(10), built date)")
        self.sql("ALTER TABLE pipes ADD COLUMN course geometry(LineString, 2056)")
        made = "ST_GeomFromText('LINESTRING (0 0,1 1)', 2056)"
        self.sql(f"INSERT INTO pipes (dn, mat, built, course) VALUES (110.5, 'PVC', '2024-02-29', {made})")
        self.assertIn("1 added", self.bring(self.address, "pipes"))
        layer = self.ask(lambda store: maps.layers(store, "top"))[7]
        self.assertEqual(("EPSG:2056", "Line String"), (layer["crs"], layer["geometry"]))
        value = self.ask(lambda store: maps.Fields(layer).named(store.get("top", 7, 1)))
        self.assertEqual({"dn": 110.5, "mat": "PVC", "built": "2024-02-29"}, value)
        self.sql("UPDATE pipes SET dn = 125")
        self.assertIn("0 added, 1 changed", self.bring(self.address, "pipes"))

    def test_what_is_there_is_not_written_over(self):
        """Nor is anything left if an export ends before it is whole."""
        write(self.file("a.gpkg"), "ducts", DUCTS, THREE)
        self.bring(self.file("a.gpkg"), "ducts")
        self.altgis("export", self.store, "top", self.address)
        self.refused("ducts is there already", "export", self.store, "top", self.address)
        self.equal(3, (self.file("a.gpkg"), "ducts"), (self.address, "ducts"))
        self.ask(lambda store: store.put("top", 107, 1, b"duct"))
        self.left_out(1, "geometry is bad", "export", self.store, "top", self.address, "--layer", "more")
        self.assertEqual(2, self.count("SELECT count(*) FROM a", (self.address, "more")))
        layer = {**maps.NO_LAYER, "name": "none", "crs": "EPSG:1"}
        self.ask(lambda store: store.put("top", 0, 8, maps.to_text(layer).encode()))
        self.ask(lambda store: store.put("top", 0, 6, maps.to_text({**layer, "name": "first", "crs": None}).encode()))
        self.sql("DROP TABLE ducts")
        self.refused("no coordinate system is known as 'EPSG:1'", "export", self.store, "top", self.address)
        self.assertNotIn("first", self.altgis("layers", self.address))
