#!/usr/bin/env python3
"""Tests of `altgis` and `demo` over real stores, with the program's path in the variable ALTCTL, or else with the one
that `./altctl` at the top builds. They run in a Python that has GDAL; where none is there, a line says that they are
skipped. gis_tests/ has those of what attackers and bad records do, and what all of them stand on."""
import json
import os
import shutil
import struct
import subprocess
import sys
import time
import unittest
import unittest.mock
from pathlib import Path

sys.dont_write_bytecode = True
HERE = Path(__file__).resolve().parent
DEBIAN = "/usr/bin/python3"
try:
    from osgeo import gdal, ogr, osr
except ImportError:
    if os.path.exists(DEBIAN) and sys.executable != DEBIAN:
        os.execv(DEBIAN, [DEBIAN, *sys.argv])
    print("test_altgis: skipped, for GDAL is not there for Python (`apt install python3-gdal`)")
    sys.exit(0)
sys.path.insert(0, str(HERE))
import maps
from altctl import Change, Record, Store
from gis.exporting import export
from gis.words import read_words
from gis_tests.batches import BatchesTests
from gis_tests.cases import ALTCTL, DUCTS, THREE, AltgisCase, change, field, polygon, program, system, write
from gis_tests.bringing import BringingTests
from gis_tests.filling import FillingTests
from gis_tests.interrupting import InterruptionTests
from gis_tests.planning import PlanningTests
from gis_tests.postgis import PostgisTests
from gis_tests.safety import SafetyTests
from gis_tests.telling import HistoryTests
from gis_tests.versions import VersionTests


class AltgisTests(AltgisCase):
    def test_records_of_a_layer(self):
        write(self.file("a.gpkg"), "ducts", DUCTS, THREE)
        told = self.bring(self.file("a.gpkg"), "ducts")
        self.assertEqual("ducts into top, table 7: 3 added, 0 changed, 0 removed, 0 same\n", told)
        fields = '[{"name":"dn","number":1,"type":"Integer"},{"name":"mat","number":2,"type":"String"}]'
        layer = f'{{"crs":"EPSG:2056","fields":{fields},"geometry":"Unknown (any)","id":null,"name":"ducts","next":3}}'
        due = [
            Record(0, 7, layer.encode()),
            Record(7, 1, b'{"1":110,"2":"PVC"}'),
            Record(7, 2, '{"1":160,"2":"Straße"}'.encode()),
            Record(7, 12, b'{"2":""}'),
            Record(107, 1, struct.pack("<BIIdddd", 1, 2, 2, 1, 2, 3, 4)),
            Record(107, 2, struct.pack("<BIIdddd", 1, 2, 2, 1, 2, 3, 5)),
        ]
        self.assertEqual(due, self.ask(lambda store: list(store.list("top"))))

    def test_values_of_each_type(self):
        # Lists come from GeoJSON, a time from CSV, all others from a GeoPackage.
        kinds = [("i", ogr.OFTInteger), ("l", ogr.OFTInteger64), ("r", ogr.OFTReal), ("s", ogr.OFTString)]
        kinds += [("d", ogr.OFTDate), ("t", ogr.OFTDateTime), ("b", ogr.OFTBinary)]
        fields = [field(*it) for it in kinds] + [field("yes", ogr.OFTInteger, ogr.OFSTBoolean)]
        moment = (2024, 2, 29, 23, 59, 59.999, 100)
        one = {
            "i": -(2**31),
            "l": -(2**63),
            "r": 0.1,
            "s": 'a "b"\n\t\\',
            "d": (1999, 12, 31, 0, 0, 0.0, 0),
            "t": moment,
        }
        write(self.file("a.gpkg"), "all", fields, [(1, {**one, "b": b"\x00\xff", "yes": 1}, None)])
        self.bring(self.file("a.gpkg"), "all")
        due = {"i": -(2**31), "l": -(2**63), "r": 0.1, "s": 'a "b"\n\t\\', "d": "1999-12-31", "yes": True}
        due = {**due, "t": "2024-02-29T23:59:59.999+00", "b": "00ff"}
        value = self.ask(lambda store: store.get("top", 7, 1))
        self.assertEqual({str(at): due[it] for at, it in enumerate("ilrsdtb", 1)} | {"8": True}, json.loads(value))
        self.assertEqual([str(it) for it in range(1, 9)], list(json.loads(value)))
        self.ask(lambda store: store.put("top", 7, 1, b'{"d":"yesterday"}'))
        self.left_out(1, "'yesterday' is no Date", "export", self.store, "top", self.file("b.gpkg"))
        point = {"type": "Point", "coordinates": [1.5, 2]}
        lists = {"il": [1, -2], "ll": [2**40], "rl": [0.1, -0.0], "sl": ["a", ""], "n": None}
        feature = {"type": "Feature", "id": 4, "properties": lists, "geometry": point}
        Path(self.file("a.geojson")).write_text(json.dumps({"type": "FeatureCollection", "features": [feature]}))
        self.bring(self.file("a.geojson"), "a", table=8)
        feature["properties"] = {"a": float("nan"), "b": float("-inf"), "c": 0.5}
        Path(self.file("i.geojson")).write_text(json.dumps({"type": "FeatureCollection", "features": [feature]}))
        self.bring(self.file("i.geojson"), "i", table=10)
        self.assertEqual(b'{"1":"nan","2":"-inf","3":0.5}', self.ask(lambda store: store.get("top", 10, 4)))
        self.altgis("export", self.store, "top", self.file("i.gpkg"), "--table", 10)
        self.assertEqual([(float("-inf"), 0.5)], self.rows(self.file("i.gpkg"), "i", "b, c"))
        Path(self.file("c.csv")).write_text("at,n\n12:34:56,1\n")
        Path(self.file("c.csvt")).write_text("Time,Integer\n")
        self.bring(self.file("c.csv"), "c", table=9)
        value = self.ask(lambda store: store.get("top", 8, 4))
        self.assertEqual(b'{"1":[1,-2],"2":[1099511627776],"3":[0.1,-0.0],"4":["a",""]}', value)
        self.assertEqual({"1": "12:34:56", "2": 1}, json.loads(self.ask(lambda store: store.get("top", 9, 1))))
        self.altgis("export", self.store, "top", self.file("b.geojson"), "--table", 8)
        self.assertEqual(lists, json.loads(Path(self.file("b.geojson")).read_text())["features"][0]["properties"])
        self.altgis("export", self.store, "top", self.file("d.csv"), "--table", 9)
        self.assertEqual(["at,n", '12:34:56,"1"'], Path(self.file("d.csv")).read_text().split())

    def test_hard_layers_there_and_back(self):
        kinds = [("i", ogr.OFTInteger), ("l", ogr.OFTInteger64), ("r", ogr.OFTReal), ("s", ogr.OFTString)]
        kinds += [("d", ogr.OFTDate), ("t", ogr.OFTDateTime), ("b", ogr.OFTBinary)]
        subtypes = [("yes", ogr.OFTInteger, ogr.OFSTBoolean), ("short", ogr.OFTInteger, ogr.OFSTInt16)]
        fields = [field(*it) for it in (*kinds, *subtypes, ("f", ogr.OFTReal, ogr.OFSTFloat32))]
        reals = [0.1, 1 / 3, 5e-324, 1.7976931348623157e308, -1e-7, 2.0**53 + 2, 1e22, 123456789.123456789]
        values = [{"r": it, "l": 2**63 - 1 - at, "i": at} for at, it in enumerate(reals)]
        texts = ["", " ", "%41", "~", "null", '"', "\\u0041", "naïve 日本 \U0001f600"]
        texts += ["a\nb\r\n", "x" * 5000, "é" * 4000]
        values += [{"s": it} for it in texts]
        zones = (0, 100, 104, 90, 122)
        values += [{"t": (1, 1, 1, 0, 0, 0.0, 0)}, {"d": (9999, 12, 31, 0, 0, 0.0, 0)}, {"f": 0.25, "short": -32768}]
        values += [{"t": (2024, 5, 6, 7, 8, 9.123, zone)} for zone in zones]
        values += [{"b": it, "yes": 1} for it in (b"", b"\x00", bytes(range(256)), bytes(9000))] + [{}]
        shapes = ["POINT EMPTY", "LINESTRING EMPTY", "POLYGON EMPTY", "MULTIPOLYGON EMPTY", "GEOMETRYCOLLECTION EMPTY"]
        shapes += ["POINT Z (1 2 3)", "POINT M (1 2 3)", "LINESTRING ZM (1 2 3 4,5 6 7 8)", "POINT (0.1 1e-300)", None]
        shapes += ["MULTILINESTRING ((0 0,1 1),(2 2,3 3))", "MULTIPOLYGON (((0 0,0 9,9 9,0 0),(1 2,1 3,2 3,1 2)))"]
        shapes += [
            "CIRCULARSTRING (0 0,1 1,2 0)",
            "GEOMETRYCOLLECTION (POINT (1 2),LINESTRING (0 0,1 1))",
            polygon(30000),
        ]
        features = [(at * 7, it, shapes[at % len(shapes)]) for at, it in enumerate(values)]
        write(self.file("hard.gpkg"), "hard", fields, features)
        self.there_and_back(self.file("hard.gpkg"), "hard", "out.gpkg", count=len(features))
        self.bring(self.file("hard.gpkg"), "hard", "--sync")
        told = self.bring(self.file("hard.gpkg"), "hard", "--sync")
        self.assertIn(f"0 added, 0 changed, 0 removed, {len(features)} same", told)
        write(self.file("none.gpkg"), "none", DUCTS, [], code=None)
        self.there_and_back(self.file("none.gpkg"), "none", "out.gpkg", count=0)
        write(self.file("table.gpkg"), "table", [], [(0, {}, None), (5, {}, None)], ogr.wkbNone, None)
        self.there_and_back(self.file("table.gpkg"), "table", "out.gpkg", count=2)

    def test_each_format_there_and_back(self):
        self.lines("ducts.gpkg")
        columns = "dn, mat, x, geom"  # The fid is a row's number in a Shapefile and in CSV.
        for suffix in (".gpkg", ".geojson", ".shp", ".csv"):
            self.there_and_back(
                self.file("ducts.gpkg"), "ducts", f"{suffix[1:]}_out{suffix}", count=39, columns=columns
            )

    def test_each_format_comes_in(self):
        self.lines("ducts.gpkg")
        for table, suffix in enumerate((".gpkg", ".geojson", ".shp", ".csv"), 1):
            gdal.VectorTranslate(
                self.file(f"in{suffix}"),
                self.file("ducts.gpkg"),
                layerName="in",
                options=[
                    *(["-lco", "GEOMETRY=AS_WKT", "-lco", "CREATE_CSVT=YES"] if suffix == ".csv" else []),
                    *(["-lco", "SIGNIFICANT_FIGURES=17"] if suffix == ".geojson" else []),
                ],
            )
            self.assertIn("39 added", self.bring(self.file(f"in{suffix}"), "in", table=table))
            self.altgis("export", self.store, "top", self.file(f"{table}.gpkg"), "--table", table, "--layer", "back")
            self.equal(39, (self.file(f"in{suffix}"), "in"), (self.file(f"{table}.gpkg"), "back"), "dn, mat, x, geom")
        told = self.altgis("export", self.store, "top", self.file("whole.gpkg"), "--table", 1)
        self.assertEqual("in of top, table 1: 39 features\n", told)

    def test_several_layers_go_into_one_file(self):
        self.lines("ducts.gpkg")
        write(self.file("more.gpkg"), "chambers", DUCTS, THREE, code=4326)
        self.bring(self.file("ducts.gpkg"), "ducts")
        self.bring(self.file("more.gpkg"), "chambers", table=8)
        self.refused("takes one layer", "export", self.store, "top", self.file("a.csv"))
        self.refused("give --table", "export", self.store, "top", self.file("a.gpkg"), "--layer", "a")
        self.altgis("export", self.store, "top", self.file("a.gpkg"))
        self.equal(39, (self.file("ducts.gpkg"), "ducts"), (self.file("a.gpkg"), "ducts"))
        self.equal(3, (self.file("more.gpkg"), "chambers"), (self.file("a.gpkg"), "chambers"))
        for name, code in (("ducts", 2056), ("chambers", 4326)):
            layer = gdal.OpenEx(self.file("a.gpkg"), gdal.OF_VECTOR).GetLayerByName
            source = gdal.OpenEx(self.file("a.gpkg"), gdal.OF_VECTOR)
            self.assertTrue(source.GetLayerByName(name).GetSpatialRef().IsSame(system(code)))

    def test_a_second_import_puts_only_what_differs(self):
        write(self.file("a.gpkg"), "ducts", DUCTS, THREE)
        self.bring(self.file("a.gpkg"), "ducts")
        before = Path(self.store).read_bytes()
        told = self.bring(self.file("a.gpkg"), "ducts")
        self.assertEqual("ducts into top, table 7: 0 added, 0 changed, 0 removed, 3 same\n", told)
        self.assertTrue(Path(self.store).read_bytes() == before)
        self.ask(lambda store: store.new("north", "top"))
        change(self.file("a.gpkg"), "UPDATE ducts SET dn = 125 WHERE fid = 2", "DELETE FROM ducts WHERE fid = 1")
        told = self.bring(self.file("a.gpkg"), "ducts", alt="north")
        checkpoint = "checkpoint before-import-{} of north has what was there before\n"
        self.assertEqual(
            checkpoint.format(1) + "ducts into north, table 7: 0 added, 1 changed, 0 removed, 1 same\n", told
        )
        old = '{"1":160,"2":"Straße"}'.encode()
        due = [Change(7, 2, old, old.replace(b"160", b"125"))]
        self.assertEqual(due, self.ask(lambda store: list(store.changes("north"))))
        told = self.bring(self.file("a.gpkg"), "ducts", "--sync", alt="north")
        self.assertEqual(
            checkpoint.format(2) + "ducts into north, table 7: 0 added, 0 changed, 1 removed, 2 same\n", told
        )
        gone = [Change(7, 1, b'{"1":110,"2":"PVC"}', None), *due]
        gone += [Change(107, 1, struct.pack("<BIIdddd", 1, 2, 2, 1, 2, 3, 4), None)]
        self.assertEqual(gone, self.ask(lambda store: list(store.changes("north"))))
        self.altgis("export", self.store, "north", self.file("b.gpkg"))
        self.equal(2, (self.file("a.gpkg"), "ducts"), (self.file("b.gpkg"), "ducts"))

    def test_a_geometry_that_goes(self):
        write(self.file("a.gpkg"), "ducts", DUCTS, THREE)
        self.bring(self.file("a.gpkg"), "ducts")
        change(self.file("a.gpkg"), "UPDATE ducts SET geom = NULL WHERE fid = 1")
        self.assertIn("0 added, 1 changed, 0 removed, 2 same", self.bring(self.file("a.gpkg"), "ducts"))
        keys = self.ask(lambda store: [it[:2] for it in store.list("top")])
        self.assertEqual([(0, 7), (7, 1), (7, 2), (7, 12), (107, 2)], keys)

    def test_fields_come_and_go(self):
        write(self.file("a.gpkg"), "ducts", DUCTS, THREE)
        write(self.file("b.gpkg"), "ducts", [field("depth", ogr.OFTReal)], [(2, {"depth": 1.5}, None)])
        write(self.file("c.gpkg"), "ducts", [field("dn", ogr.OFTString)], [])
        write(self.file("d.gpkg"), "ducts", DUCTS, THREE, code=4326)
        self.bring(self.file("a.gpkg"), "ducts")
        where = ("--alt", "top", "--table", 7)
        self.refused("the field dn is Integer", "import", self.store, self.file("c.gpkg"), "ducts", *where)
        self.refused("crs EPSG:2056", "import", self.store, self.file("d.gpkg"), "ducts", *where)
        self.bring(self.file("b.gpkg"), "ducts")
        names = lambda: [it["name"] for it in json.loads(self.ask(lambda store: store.get("top", 0, 7)))["fields"]]
        self.assertEqual(["dn", "mat", "depth"], names())
        self.bring(self.file("b.gpkg"), "ducts", "--sync")
        self.assertEqual(["depth"], names())
        self.altgis("export", self.store, "top", self.file("out.gpkg"))
        self.equal(1, (self.file("b.gpkg"), "ducts"), (self.file("out.gpkg"), "ducts"))

    def parts(self, alt="top"):
        return self.ask(lambda store: [it for it in store.list(alt) if it.table == 207])

    def test_what_is_long_lies_in_parts(self):
        # 30,000 points, and the first once more: 4 + 5 + 4 + 16 * 30,001 bytes are 121 parts of 4,000. A text: 2 parts.
        write(self.file("a.gpkg"), "a", DUCTS, [(5, {"mat": "x" * 5000}, polygon(30000)), (5000, {}, "POINT (1 2)")])
        write(self.file("b.gpkg"), "a", DUCTS, [(5, {"mat": "x"}, polygon(5))])
        write(self.file("c.gpkg"), "a", DUCTS, [(5, {}, polygon(300)), (6, {}, polygon(300))])
        self.bring(self.file("a.gpkg"), "a")
        self.assertEqual(123, len(self.parts()))
        self.assertEqual({4000, 29, 1008}, {len(it.value) for it in self.parts()})
        self.altgis("export", self.store, "top", self.file("out.gpkg"))
        self.equal(2, (self.file("a.gpkg"), "a"), (self.file("out.gpkg"), "a"))
        self.assertIn("1 changed", self.bring(self.file("b.gpkg"), "a"))
        self.assertEqual([], self.parts())
        self.bring(self.file("c.gpkg"), "a")
        self.assertEqual(4, len(self.parts()))
        self.bring(self.file("b.gpkg"), "a")
        self.assertEqual(2, len(self.parts()))
        self.bring(self.file("b.gpkg"), "a", "--sync")
        self.assertEqual([], self.parts())
        self.assertIn("1 added, 1 changed", self.bring(self.file("a.gpkg"), "a"))
        self.altgis("export", self.store, "top", self.file("out2.gpkg"))
        self.equal(2, (self.file("a.gpkg"), "a"), (self.file("out2.gpkg"), "a"))

    def test_the_bounds_of_a_value(self):
        for size, count in ((4000, 0), (4001, 2), (4000000, 1000)):
            records = maps.records_of(107, 2**63 - 1, b"\1" * size)
            self.assertEqual(count, len(records) - 1 if size > 4000 else 0)
            self.assertEqual(b"\1" * size, maps.value_at(records, 107, 2**63 - 1))
            self.assertTrue(all(0 <= number < 2**64 and len(it) <= 4000 for (_, number), it in records.items()))
        self.assertRaises(maps.Fault, maps.records_of, 107, 1, bytes(4000001))
        records = maps.records_of(107, 1, bytes(9000))
        for key in list(records)[1:]:
            spoiled = [{it: value for it, value in records.items() if it != key}, {**records, key: b"x" * 4000}]
            for it in spoiled:
                self.assertRaises(maps.Fault, maps.value_at, it, 107, 1)

    def test_two_designs_that_change_one_long_course(self):
        """Each settlement leaves one of the two courses, and no mixture, also where the courses differ in different
        parts."""
        course = lambda *moved: [[it, it * it % 97 + (0.5 if it in moved else 0)] for it in range(1000)]
        text = lambda points: f"LINESTRING ({','.join(f'{x} {y}' for x, y in points)})"
        versions = {"top": course(5), "north": course(990), "south": course(5, 500)[:700]}
        for alt, points in {"base": course(), **versions}.items():
            write(self.file(f"{alt}.gpkg"), "a", DUCTS, [(5, {}, text(points))])
        for side in ("mine", "theirs"):
            for alt in ("north", "south"):
                self.create(1024)
                self.bring(self.file("base.gpkg"), "a")
                self.ask(lambda store: store.new(alt, "top"))
                self.bring(self.file("top.gpkg"), "a")
                self.bring(self.file(f"{alt}.gpkg"), "a", alt=alt)
                conflicts = self.ask(lambda store: list(store.conflicts(alt)))
                self.assertEqual([(107, 5)], [it[:2] for it in conflicts])
                self.ask(lambda store: store.merge(alt, {(107, 5): side}))
                out, due = self.file(f"{alt}{side}.gpkg"), alt if side == "mine" else "top"
                self.altgis("export", self.store, alt, out)
                self.equal(1, (self.file(f"{due}.gpkg"), "a"), (out, "a"))
                # The next import takes out the parts that the merge has left for nobody.
                self.bring(self.file(f"{due}.gpkg"), "a", alt=alt)
                self.assertEqual(5 if due == "north" else 5 if due == "top" else 3, len(self.parts(alt)))

    def test_ids_from_a_field(self):
        fields = [field("name", ogr.OFTString), field("number", ogr.OFTInteger64)]
        ids = (0, 7, 2**63 - 1)
        write(
            self.file("a.gpkg"), "a", fields, [(it + 1, {"name": "a", "number": id}, None) for it, id in enumerate(ids)]
        )
        self.bring(self.file("a.gpkg"), "a", "--id", "number")
        keys = self.ask(lambda store: [it[1:] for it in store.list("top") if it.table == 7])
        self.assertEqual([(it, b'{"1":"a"}') for it in ids], keys)
        self.altgis("export", self.store, "top", self.file("out.gpkg"))
        self.equal(3, (self.file("a.gpkg"), "a"), (self.file("out.gpkg"), "a"), "name, number")
        self.assertIn("3 same", self.bring(self.file("out.gpkg"), "a", "--id", "number"))
        # By way of CSV, which has no fids, and whose rows are in another order.
        self.altgis("export", self.store, "top", self.file("out.csv"))
        head, *rows = Path(self.file("out.csv")).read_text().splitlines(keepends=True)
        Path(self.file("out.csv")).write_text(head + "".join(rows[::-1]))
        told = self.bring(self.file("out.csv"), "out", "--id", "number", "--sync", "--name", "a")
        self.assertIn("0 added, 0 changed, 0 removed, 3 same", told)

    def test_what_is_refused_leaves_all_as_it_was(self):
        write(self.file("a.gpkg"), "ducts", DUCTS, THREE)
        self.bring(self.file("a.gpkg"), "ducts")
        where = ("ducts", "--alt", "top", "--table", 7)
        bring = lambda told, file, *words: self.refused(told, "import", self.store, self.file(file), *words)
        bring("has no layer pipes; it has ducts", "a.gpkg", "pipes", "--alt", "top", "--table", 7)
        bring("no field number; it has dn, mat", "a.gpkg", *where, "--id", "number")
        bring("in the field mat", "a.gpkg", *where, "--id", "mat", "--sync")
        bring("has none in the field dn", "a.gpkg", *where, "--id", "dn", "--sync")
        bring("1 NoSuchAlternative", "a.gpkg", "ducts", "--alt", "north", "--table", 7)
        bring("words of a line", "a.gpkg", "ducts", "--alt", "a b", "--table", 7)
        bring("No such file", "none.gpkg", *where)
        write(self.file("b.gpkg"), "ducts", DUCTS, [(1, {"dn": 1}, None), (-3, {"dn": 2}, None)])
        bring("a feature has -3 as its fid", "b.gpkg", *where)
        write(self.file("c.gpkg"), "ducts", DUCTS, [(1, {"dn": 5}, None), (2, {"dn": 5}, None)])
        bring("two features have the id 5", "c.gpkg", *where, "--id", "dn", "--sync")
        for id in ("-1", "9223372036854775808", "18446744073709551616", "007", "1.5", "x"):
            Path(self.file("d.csv")).write_text(f"id,n\n1,1\n{id},2\n")
            bring(f"a feature has {id} in the field id", "d.csv", "d", "--alt", "top", "--table", 8, "--id", "id")
        Path(self.file("f.csv")).write_bytes(b"id,n\n1,caf\xe9\n")
        bring("feature 1 has a text that is not UTF-8", "f.csv", "f", "--alt", "top", "--table", 8)
        write(self.file("e.gpkg"), "e", DUCTS, [(1, {}, "POINT (1 2)"), (2, {}, polygon(250001))])
        bring(
            "107:2 has 4000045 bytes, and 4000000 are the most",
            "e.gpkg",
            "e",
            "--alt",
            "top",
            "--table",
            7,
            "--sync",
            "--rename",
        )
        self.refused("ends with none of", "import", self.store, str(HERE / "places.py"), *where)
        self.refused("already", "export", self.store, "top", self.file("a.gpkg"))
        self.refused("ends with none of", "export", self.store, "top", self.file("a.xyz"))
        self.refused("no layer", "export", self.store, "top", self.file("x.gpkg"), "--table", 8)
        self.refused("3 NoSuchCheckpoint", "export", self.store, "top@before", self.file("x.gpkg"))
        self.refused("no layer", "export", self.store, "top@", self.file("x.gpkg"))
        self.ask(lambda store: store.put("top", 9, 1, b"duct"))
        bring("table 9 has records, and they are no layer", "a.gpkg", "ducts", "--alt", "top", "--table", 9)
        for value, told in (
            (b'{"dn":"wide"}', "'wide' is no Integer"),
            (b"duct", "feature 1: "),
            (b"[1]", "feature 1: "),
        ):
            self.ask(lambda store: store.put("top", 7, 1, value))
            self.left_out(1, told, "export", self.store, "top", self.file("x.gpkg"))
            self.assertEqual([(2,), (12,)], self.rows(self.file("x.gpkg"), "ducts", "fid"))
            Path(self.file("x.gpkg")).unlink()
        self.ask(lambda store: store.remove("top", 7, 1))
        self.ask(lambda store: store.put("top", 7, 2**63, b"{}"))
        self.left_out(1, "feature 9223372036854775808 ", "export", self.store, "top", self.file("x.gpkg"))
        Path(self.file("x.gpkg")).unlink()
        for value in (b"duct", b"[1]"):
            self.ask(lambda store: store.put("top", 0, 1, value))
            bring("table 0 has a record that is no layer", "a.gpkg", "ducts", "--alt", "top", "--table", 1)
            told = "table 0 has a record that is no layer"
            self.refused(
                "has no layer, or none in table 1", "export", self.store, "top", self.file("x.gpkg"), "--table", 1
            )
            ran = self.start_altgis("export", self.store, "top", self.file("x.gpkg"))
            self.assertIn(told, ran.stderr)
            Path(self.file("x.gpkg")).unlink()
        for words in (["--table", "0"], ["--table", "100"], ["--table", "x"], []):
            ran = self.start(
                [sys.executable, str(HERE / "altgis"), "import", self.store, "a", "b", "--alt", "top", *words]
            )
            self.assertEqual(2, ran.returncode)

    def test_a_store_that_is_too_small_is_as_it_was(self):
        self.create(64)
        self.lines("ducts.gpkg")
        write(self.file("many.gpkg"), "a", DUCTS, [(it, {"dn": it}, "POINT (1 2)") for it in range(3000)])
        self.bring(self.file("ducts.gpkg"), "ducts")
        where = ("import", self.store, self.file("many.gpkg"), "a", "--alt", "top", "--table", 8)
        self.refused("13 Full .* of 3000 features had room, and the rest takes about .* blocks more: .* 'grow ", *where)
        self.altgis("export", self.store, "top", self.file("out.gpkg"))
        self.equal(39, (self.file("ducts.gpkg"), "ducts"), (self.file("out.gpkg"), "ducts"))

    def test_a_field_that_the_layer_lacks_is_told(self):
        write(self.file("a.gpkg"), "ducts", DUCTS, THREE)
        self.bring(self.file("a.gpkg"), "ducts")
        self.ask(lambda store: store.put("top", 7, 1, b'{"depth":1,"dn":5}'))
        ran = self.start([sys.executable, str(HERE / "altgis"), "export", self.store, "top", self.file("x.gpkg")])
        self.assertEqual((0, "altgis: left out, as ducts has no such fields: depth\n"), (ran.returncode, ran.stderr))
        self.assertEqual([(1, 5, None)], self.rows(self.file("x.gpkg"), "ducts", "fid, dn, mat")[:1])

    def test_a_geometry_without_attributes_goes_out(self):
        """As a merge may leave it, where one side removed the feature and the other one moved it."""
        write(self.file("a.gpkg"), "ducts", DUCTS, THREE)
        self.bring(self.file("a.gpkg"), "ducts")
        self.ask(lambda store: store.remove("top", 7, 1))
        self.altgis("export", self.store, "top", self.file("x.gpkg"))
        self.assertEqual([(1, None, 0)], self.rows(self.file("x.gpkg"), "ducts", "fid, dn, geom IS NULL")[:1])

    def test_a_store_that_is_in_use(self):
        with Store(self.store, ALTCTL):
            self.refused("is in use", "export", self.store, "top", self.file("x.gpkg"))

    def test_a_service_takes_an_import_as_one_batch(self):
        write(self.file("a.gpkg"), "ducts", DUCTS, THREE)
        write(self.file("b.gpkg"), "b", DUCTS, [(1, {}, polygon(300)), (2, {}, None)])
        words, socket = [sys.executable, str(HERE / "altserve")], self.file("map.alt.sock")
        service = subprocess.Popen([*words, "--program", ALTCTL, self.store], stderr=subprocess.DEVNULL)
        self.addCleanup(service.wait)
        self.addCleanup(service.terminate)
        late = time.monotonic() + 30
        while not os.path.exists(socket) and time.monotonic() < late:
            time.sleep(0.05)
        for file, layer in (("a.gpkg", "ducts"), ("b.gpkg", "b")):
            where = ("--alt", "top", "--table", 7, "--sync", "--rename")
            self.altgis("import", f"unix:{socket}", self.file(file), layer, *where)
        self.altgis("export", f"unix:{socket}", "top", self.file("out.gpkg"))
        self.equal(2, (self.file("b.gpkg"), "b"), (self.file("out.gpkg"), "b"))
        entries = [it.split() for it in self.start([*words, "log", self.store]).stdout.splitlines()]
        self.assertEqual(
            2, len({it[1] for it in entries if it[4:7] == ["put", "top", "7"]})
        )  # The numbers of the batches.

        there = Store(f"unix:{socket}")
        self.addCleanup(there.close, quietly=True)
        pages = maps.scan_features

        def with_others(store, at, table, bad):
            yield from pages(store, at, table, bad)
            store.put(at, table, 1, b"{}")

        words = read_words(["export", f"unix:{socket}", "top", self.file("half.gpkg"), "--table", "7"])
        with unittest.mock.patch("maps.scan_features", with_others):
            with self.assertRaisesRegex(maps.Fault, "top has changed meanwhile"):
                export(there, words)
        self.assertFalse(os.path.exists(self.file("half.gpkg")))

    def test_rivers_and_coasts_there_and_back(self):
        if not shutil.which("gmt"):
            self.skipTest("gmt is not there (apt install gmt gmt-gshhg-low)")
        demo = program("demo")
        fields = [field("name", ogr.OFTString), field("level", ogr.OFTInteger), field("condition", ogr.OFTString)]
        fields += [field("length", ogr.OFTReal), field("points", ogr.OFTInteger64)]
        for name, what in (("rivers", "-Ia"), ("coasts", "-W")):
            features = []
            for fid, (attributes, points) in enumerate(demo.segments(what), 1):
                geometry = ogr.CreateGeometryFromWkb(demo.line(points))
                features.append((fid, {**attributes, "length": geometry.Length(), "points": len(points)}, geometry))
            self.assertGreater(len(features), 900)
            write(self.file(f"{name}.gpkg"), name, fields, features, ogr.wkbLineString, 4326)
            self.there_and_back(self.file(f"{name}.gpkg"), name, "out.gpkg", count=len(features))
            for suffix in (".geojson", ".shp", ".csv"):
                # None of these writes each digit of a real, and two of them have no ids.
                columns = f"{'fid, ' if suffix == '.geojson' else ''}name, level, condition, points, geom"
                out = f"{name}{suffix[1:]}{suffix}"
                self.there_and_back(self.file(f"{name}.gpkg"), name, out, count=len(features), columns=columns)

    def test_the_demonstration(self):
        for words in ([], ["--made-up"]):
            Path(self.store).unlink()
            ran = self.start([sys.executable, str(HERE / "demo"), self.store, *words])
            self.assertEqual((0, ""), (ran.returncode, ran.stderr))
            real = not words and shutil.which("gmt")
            self.assertIn("rivers of Europe" if real else "made-up ducts", ran.stdout)
            told = self.altgis("diff", self.store, "top", "north", self.file(f"north{len(words)}.gpkg"))
            self.assertIn("1 added, 12 changed, 2 removed, 2 conflicts", told)
            self.altgis("export", self.store, "north@before", self.file(f"before{len(words)}.gpkg"))
            self.opens(self.file(f"before{len(words)}.gpkg"))

    def test_without_gdal_a_line_says_what_to_install(self):
        os.mkdir(self.file("osgeo"))
        Path(self.file("osgeo/__init__.py")).write_text("raise ImportError('not there')\n")
        ran = self.start([sys.executable, str(HERE / "altgis"), "--help"], PYTHONPATH=self.folder)
        due = "altgis: GDAL is not there for Python: install it by `apt install python3-gdal`\n"
        self.assertEqual((1, "", due), (ran.returncode, ran.stdout, ran.stderr))


if __name__ == "__main__":
    unittest.main()
