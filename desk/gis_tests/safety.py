"""Files and records that are made to hurt: what leads elsewhere is not opened, what no program can use is named, and
all else goes its way."""
import csv
import io
import json
import math
import random
import socket
import sqlite3
import struct
import threading
from pathlib import Path

from gis_tests.cases import DUCTS, THREE, AltgisCase, polygon, system, write
from osgeo import ogr

import designs
import maps
import places
from maps import geometry
from maps.systems import crs_from_text, crs_to_text

LINE = struct.pack("<BIIdddd", 1, 2, 2, 1, 2, 3, 4)


def course(*numbers):
    """A line as WKB, of these coordinates as they are."""
    return struct.pack(f"<BII{len(numbers)}d", 1, 2, len(numbers) // 2, *numbers)


class SafetyTests(AltgisCase):
    def secret(self):
        """A file that no other file is to lead to."""
        Path(self.file("secret.csv")).write_text("a,b\nsecret,2\n")
        return self.file("secret.csv")

    def test_a_vrt_is_not_opened_whatever_its_name_is(self):
        source = f"<SrcDataSource>{self.secret()}</SrcDataSource>"
        vrt = f'<OGRVRTDataSource><OGRVRTLayer name="secret">{source}</OGRVRTLayer></OGRVRTDataSource>'
        for suffix in ("gpkg", "geojson", "json", "shp", "vrt"):
            file = self.file(f"a.{suffix}")
            Path(file).write_text(vrt)
            told = (
                "ends with none of" if suffix == "vrt" else "not recognized|GDAL|Unable to open|file is not a database"
            )
            self.refused(told, "import", self.store, file, "secret", "--alt", "top", "--table", 7)
        self.refused(
            "No such file", "import", self.store, f"/vsizip/{self.file('a.gpkg')}", "x", "--alt", "top", "--table", 7
        )

    def test_a_geopackage_whose_table_is_another_file_is_refused(self):
        self.secret()
        for spelled in ("CREATE VIRTUAL TABLE t USING", "create /* */ virtual\ntable t using"):
            write(self.file("a.gpkg"), "ducts", DUCTS, THREE)
            made = f"{spelled} VirtualText('{self.file('secret.csv')}', 'UTF-8', 1, POINT, NONE, ',')"
            database = sqlite3.connect(self.file("a.gpkg"))
            database.execute("PRAGMA writable_schema = 1")
            database.execute("INSERT INTO sqlite_master VALUES ('table', 't', 't', 0, ?)", (made,))
            columns = "table_name, identifier, data_type, srs_id"
            database.execute(f"INSERT INTO gpkg_contents ({columns}) VALUES ('t', 't', 'attributes', 0)")
            database.commit()
            database.close()
            told = "the table t reads what is not in the file"
            self.refused(told, "import", self.store, self.file("a.gpkg"), "t", "--alt", "top", "--table", 7)
            Path(self.file("a.gpkg")).unlink()

    def test_a_geopackage_whose_layer_has_any_name_comes_in(self):
        """Its index of places has that name, too."""
        for name in ("Hard Layer", 'a "b" USING (c)', "straße", "it's"):
            write(self.file("a.gpkg"), name, DUCTS, THREE)
            self.create(1024)
            self.assertIn("3 added", self.bring(self.file("a.gpkg"), name))
            self.altgis("export", self.store, "top", self.file("out.gpkg"))
            self.assertIn("3 same", self.bring(self.file("out.gpkg"), name))
            for it in ("a.gpkg", "out.gpkg"):
                Path(self.file(it)).unlink()

    def test_no_address_is_fetched(self):
        """The address is that of a coordinate system, in a file and in a layer's record."""
        asked, listener = [], socket.create_server(("127.0.0.1", 0))
        self.addCleanup(listener.close)
        address = f"http://127.0.0.1:{listener.getsockname()[1]}/crs"

        def serve():
            while True:
                try:
                    connection, _ = listener.accept()
                except OSError:
                    return
                asked.append(connection.recv(100))
                connection.sendall(b"HTTP/1.0 404 no\r\n\r\n")
                connection.close()

        threading.Thread(target=serve, daemon=True).start()
        feature = {
            "type": "Feature",
            "id": 1,
            "properties": {"dn": 1},
            "geometry": {"type": "Point", "coordinates": [1, 2]},
        }
        for crs in (
            {"type": "link", "properties": {"href": address}},
            {"type": "name", "properties": {"name": address}},
        ):
            whole = {"type": "FeatureCollection", "crs": crs, "features": [feature]}
            Path(self.file("a.geojson")).write_text(json.dumps(whole))
            where = ("import", self.store, self.file("a.geojson"), "a", "--alt", "top", "--table", 7)
            self.start_altgis(*where, no_proxy="*", NO_PROXY="*")
        layer = {**maps.NO_LAYER, "name": "ducts", "crs": address}
        self.ask(lambda store: store.put("top", 0, 8, maps.to_text(layer).encode()))
        self.refused("EPSG:CODE or WKT", "export", self.store, "top", self.file("x.gpkg"), "--table", 8)
        self.assertEqual([], asked)

    def test_a_coordinate_system_is_a_code_or_wkt(self):
        for text in (
            "EPSG:2056",
            "ESRI:102100",
            system(2056).ExportToWkt(["FORMAT=WKT2_2019"]),
            system(4326).ExportToWkt(),
        ):
            self.assertTrue(crs_from_text(text))
        lambert = crs_from_text("ESRI:102100")
        self.assertTrue(crs_to_text(lambert).startswith("PROJCRS["))
        self.assertTrue(crs_from_text(crs_to_text(lambert)).IsSame(lambert))
        self.assertEqual("EPSG:2056", crs_to_text(system(2056)))
        Path(self.file("a.prj")).write_text(system(2056).ExportToWkt())
        for text in (
            self.file("a.prj"),
            "http://x/",
            "+proj=utm +zone=32",
            "urn:ogc:def:crs:EPSG::2056",
            "EPSG:2056\n",
            "",
            "a[",
            "EPSG:1",
            "ABC[]",
        ):
            self.assertRaises(maps.Fault, crs_from_text, text)

    def test_a_spreadsheet_sees_no_formula(self):
        texts = ["=1+2", "+1", "-1", "@SUM(A1)", "\t=1", "\r=1", "'=1", "''-x", "'quoted'", "", "a=1", None]
        head = [*DUCTS, ogr.FieldDefn("=cmd()", ogr.OFTString)]
        rows = [(it, {"dn": -it, "mat": text, "=cmd()": "a"}, None) for it, text in enumerate(texts, 1)]
        write(self.file("a.gpkg"), "ducts", head, rows, ogr.wkbNone, None)
        self.bring(self.file("a.gpkg"), "ducts")
        self.altgis("export", self.store, "top", self.file("out.csv"))
        written = Path(self.file("out.csv")).read_bytes().decode()
        self.assertTrue(written.startswith("dn,mat,'=cmd()"), written)
        due = ["'=1+2", "'+1", "'-1", "'@SUM(A1)", "'\t=1", "'\r=1", "''=1", "'''-x", "'quoted'", "", "a=1", ""]
        cells = [it[1] for it in csv.reader(io.StringIO(written, newline=""))][1:]
        self.assertEqual(due, cells)
        self.bring(self.file("out.csv"), "out", table=8)
        names = [it["name"] for it in self.ask(lambda store: maps.layers(store, "top"))[8]["fields"]]
        self.assertEqual(["dn", "mat", "=cmd()"], names)
        self.altgis("export", self.store, "top", self.file("back.gpkg"), "--table", 8)
        texts[5] = "\n=1"  # GDAL reads CR as LF.
        self.assertEqual(
            [it or "" for it in texts], [it or "" for it, in self.rows(self.file("back.gpkg"), "out", "mat")]
        )
        self.altgis("export", self.store, "top", self.file("plain.csv"), "--table", 7, "--plain")
        self.assertIn("=1+2", Path(self.file("plain.csv")).read_text().split("\n")[1].split(",")[1])

    def test_geometry_that_is_bad(self):
        """What GDAL has written is good, and it stays bad however its bytes are cut or changed to what is no place."""
        shapes = ["POINT EMPTY", "POINT (1 2)", "LINESTRING EMPTY", "POINT ZM (1 2 3 4)", "LINESTRING M (1 2 3,4 5 6)"]
        shapes += [
            "POLYGON ((0 0,0 9,9 9,0 0),(1 2,1 3,2 3,1 2))",
            "MULTIPOINT (1 2,3 4)",
            "CIRCULARSTRING (0 0,1 1,2 0)",
        ]
        shapes += [
            "COMPOUNDCURVE ((0 0,1 1),CIRCULARSTRING (1 1,2 2,3 1))",
            "GEOMETRYCOLLECTION (POINT (1 2),LINESTRING (0 0,1 1))",
        ]
        shapes += [
            "MULTIPOLYGON Z (((0 0 1,0 9 1,9 9 1,0 0 1)))",
            "TIN (((0 0,0 1,1 0,0 0)))",
            "MULTICURVE ((0 0,1 1))",
        ]
        chance = random.Random(5)
        for it in shapes:
            for order in (ogr.wkbNDR, ogr.wkbXDR):
                value = bytes(ogr.CreateGeometryFromWkt(it).ExportToIsoWkb(order))
                self.assertIsNone(geometry.fault_of(value), it)
                for size in range(len(value)):
                    self.assertIsNotNone(geometry.fault_of(value[:size]), (it, size))
            for _ in range(300):
                spoiled = bytearray(value)
                for _ in range(chance.randint(1, 4)):
                    spoiled[chance.randrange(len(spoiled))] = chance.choice((0, 1, 255, chance.randrange(256)))
                if geometry.fault_of(bytes(spoiled)) is None:
                    box = places.box_of(bytes(spoiled))
                    self.assertTrue(box is None or all(abs(it) <= 1e38 for it in box), spoiled)
        self.assertIsNone(geometry.fault_of(bytes(polygon(30000).ExportToIsoWkb(ogr.wkbNDR))))
        nan, inf = math.nan, math.inf
        for numbers in (
            (0, nan, 1, 1),
            (nan, 0, 1, 1),
            (1, 1, nan, nan),
            (inf, 0, 0, 0),
            (0, -inf, 1, 1),
            (1e39, 0, 0, 0),
            (0, 0, 0, -1e39),
        ):
            self.assertIsNotNone(geometry.fault_of(course(*numbers)), numbers)
            self.assertIsNone(places.box_of(course(*numbers)))
        for value in (
            b"",
            b"\1",
            b"duct",
            struct.pack("<BII", 1, 2, 2**32 - 1),
            struct.pack("<BII", 1, 7, 2**32 - 1),
            struct.pack("<BII", 1, 3, 2**32 - 1),
            struct.pack("<BII", 1, 7, 1) * 5000,
        ):
            self.assertIsNotNone(geometry.fault_of(value))

    def spoil(self, file, fid, value):
        """Gives a feature of a GeoPackage another geometry, past all that GDAL would see to."""
        with sqlite3.connect(file) as database:
            for (name,) in database.execute("SELECT name FROM sqlite_master WHERE type = 'trigger'").fetchall():
                database.execute(f"DROP TRIGGER {name}")
            (old,) = database.execute("SELECT geom FROM ducts WHERE fid = ?", (fid,)).fetchone()
            at = old.index(course(0, 0, 1, 1))
            database.execute("UPDATE ducts SET geom = ? WHERE fid = ?", (old[:at] + value, fid))

    def test_bad_geometry_does_not_come_in(self):
        for numbers in ((0, math.nan, 1, 1), (0, 0, 1e39, 0), (0, 0, -1e39, math.inf)):
            write(
                self.file("a.gpkg"),
                "ducts",
                DUCTS,
                [(1, {"dn": 1}, "LINESTRING (0 0,1 1)"), (2, {"dn": 1}, "LINESTRING (0 0,1 1)")],
            )
            self.spoil(self.file("a.gpkg"), 2, course(*numbers))
            self.refused(
                "feature 2: its geometry is bad",
                "import",
                self.store,
                self.file("a.gpkg"),
                "ducts",
                "--alt",
                "top",
                "--table",
                7,
            )
            Path(self.file("a.gpkg")).unlink()

    HEADS = (
        b"long 2000000000000 0",
        b"long 4001 0",
        b"long x y",
        b"long ",
        b"long 0 0",
        b"long -5 0",
        b"long 5000 1",
        b"long 5000 99999999999999999999",
        b"long 5000 3 4",
        b"long 5000 \xb2",
    )

    def test_a_head_that_leads_nowhere(self):
        for head in self.HEADS:
            self.assertLessEqual(len(maps.part_keys(7, head)), 1000)
            self.assertRaises(maps.Fault, maps.value_at, {(7, 1): head}, 7, 1)
            self.assertIsNone(places.safe_value({(7, 1): head}, (7, 1)))

    def test_bad_records_stop_nothing(self):
        """Beside three good features there is one of each kind of bad record. Each is named, and the others go out."""
        write(self.file("a.gpkg"), "ducts", DUCTS, THREE)
        self.bring(self.file("a.gpkg"), "ducts")
        courses = [
            course(0, math.nan, 1, 1),
            course(0, 0, 1e39, 0),
            b"duct",
            struct.pack("<BII", 1, 2, 2**32 - 1),
            *self.HEADS,
        ]
        texts = [b"duct", b"[1]", b'{"dn":"wide"}', b'{"dn":' * 600, b"\xff", *self.HEADS]
        bad = {(107, 100 + at): it for at, it in enumerate(courses)}
        bad.update({(7, 100 + at): b"{}" for at in range(len(courses))})
        bad.update({(7, 200 + at): it for at, it in enumerate(texts)})
        bad[7, 2**63] = b"{}"
        layers = {
            1: b"duct",
            2: b"[1]",
            3: b'{"fields":[{}]}',
            4: b'{"name":5}',
            5: b'{"crs":[]}',
            200: b"{}",
            6: b"[" * 3999,
            8: b"long x y",
        }
        self.ask(lambda store: store.put_many("top", [(*key, it) for key, it in bad.items()]))
        self.ask(lambda store: store.put_many("top", [(0, it, value) for it, value in layers.items()]))
        ran = self.start_altgis("export", self.store, "top", self.file("x.gpkg"))
        self.assertEqual((3, "ducts of top, table 7: 3 features\n"), (ran.returncode, ran.stdout), ran.stderr)
        named = [it for it in ran.stderr.splitlines() if it.startswith("altgis: ")]
        count = len(courses) + len(texts) + 1
        self.assertIn(f"altgis: {count} features are left out, as they are bad", named)
        self.assertTrue(any("left out 7:100: feature 100: its geometry is bad" in it for it in named), named)
        self.assertEqual(len(layers), len([it for it in named if "is no layer" in it or "0:8 is no head" in it]), named)
        self.assertFalse([it for it in ran.stderr.splitlines() if "Traceback" in it])
        self.equal(3, (self.file("a.gpkg"), "ducts"), (self.file("x.gpkg"), "ducts"))
        self.altgis("index", self.store)

        def look(store):
            return (
                places.scanned(store, "top", 7).numbers.tolist(),
                places.Index(store, 7).window(-1e38, -1e38, 1e38, 1e38)[0].tolist(),
            )

        self.assertEqual(([1, 2], [1, 2]), self.ask(look))

        def show(store):
            """What the desk shows of the design: those on the map, and of each bad one its record."""
            design = designs.Design(store, "top", None, lambda table: None)
            shown = [it["properties"]["number"] for it in design.window((-9e37, -9e37, 9e37, 9e37))["features"]]
            return shown, [design.sides(key if key[0] == 7 else (7, key[1]), "top") for key in bad]

        shown, sides = self.ask(show)
        self.assertEqual(["1", "2"], sorted(shown))
        for key, side in zip(bad, sides):
            self.assertIsNone(side["course"])
            if key[0] == 7 and 200 <= key[1] < 2**63 and bad[key] != b'{"dn":"wide"}':
                # Of a value that cannot be put together the desk says why.
                is_head = bad[key].startswith(b"long ")
                due = {} if is_head else {"value": bad[key].decode("utf-8", "backslashreplace")}
                self.assertEqual((due, is_head), (side["attributes"], bool(side["bad"])), key)
        whole = ogr.CreateGeometryFromWkb(LINE)
        self.assertEqual(whole.ExportToWkt(), places.parsed(LINE).ExportToWkt())
