"""Versions of a map: each goes out as it was, differences are layers, and the index of places follows."""
import contextlib
import io
import os
import shutil
import sqlite3
import struct
import unittest.mock
from pathlib import Path

from gis.formats import set_up
from gis.words import carry_out, read_words
from gis_tests.cases import ALTCTL, DUCTS, THREE, AltgisCase, change, field, write
from osgeo import ogr

import places


class VersionTests(AltgisCase):
    def carry_out(self, *words):
        """Does a job of altgis in this process."""
        with unittest.mock.patch.dict(os.environ, ALTCTL=ALTCTL), contextlib.redirect_stdout(io.StringIO()):
            return carry_out(read_words(list(map(str, words))))

    def hard(self, file):
        """A layer of the types that SQL is quick with, and of values that are at their limits."""
        kinds = [
            ("i", ogr.OFTInteger),
            ("l", ogr.OFTInteger64),
            ("r", ogr.OFTReal),
            ("s", ogr.OFTString),
            ("d", ogr.OFTDate),
        ]
        values = [{"i": it} for it in (0, -(2**31), 2**31 - 1)] + [{"l": it} for it in (-(2**63), 2**63 - 1)]
        values += [{"r": it} for it in (0.1, 1 / 3, 5e-324, -1.7976931348623157e308, 1e22, 2.0, 123456789.123456789)]
        values += [{"s": it} for it in ("", " ", '"', "\\", "a\nb\tc", "Straße \U0001f600", "x" * 9000, "\x7f", "null")]
        values += [{"d": (year, 2, 28, 0, 0, 0.0, 0)} for year in (1, 1582, 1969, 1970, 2024, 9999)] + [{}]
        shapes = ["POINT (0.1 1e-300)", "LINESTRING (0 0,-1 5,3 -2)", "POLYGON ((0 0,0 9,9 9,0 0),(1 2,1 3,2 3,1 2))"]
        shapes += ["MULTIPOINT (1 2,3 4)", "GEOMETRYCOLLECTION (POINT (1 2),LINESTRING (0 0,1 1))", None, "POINT EMPTY"]
        shapes += ["LINESTRING EMPTY", "MULTIPOLYGON (((0 0,0 9,9 9,0 0)))"]
        features = [(at * 3 + 1, it, shapes[at % len(shapes)]) for at, it in enumerate(values)]
        write(file, "hard", [field(*it) for it in kinds], features)
        return len(features)

    def test_sql_reads_and_writes_what_gdal_does(self):
        """A GeoPackage that is read by SQL gives the records that GDAL gives, and one that is written by SQL is the
        same to GDAL; what SQL is not for goes through GDAL."""
        count = self.hard(self.file("a.gpkg"))
        set_up()
        records = []
        for way in (None, "gis.quick.Quick.can"):
            self.create(4096)
            with unittest.mock.patch(way, return_value=False) if way else contextlib.nullcontext():
                self.carry_out("import", self.store, self.file("a.gpkg"), "--alt", "top", "--table", 7)
            records.append(self.ask(lambda store: list(store.list("top", 7)) + list(store.list("top", 107))))
        self.assertEqual(*records)
        out = {"gis.targets.write_layers": "quick.gpkg", "gis.targets.write_quickly": "slow.gpkg"}
        for never, name in out.items():
            with unittest.mock.patch("gis.targets.is_quick", return_value=name == "quick.gpkg"):
                with unittest.mock.patch(never, side_effect=AssertionError):
                    self.carry_out("export", self.store, "top", self.file(name))
            self.equal(count, (self.file("a.gpkg"), "hard"), (self.file(name), "hard"))
            self.opens(self.file(name))
        tables = {}
        for name in out.values():
            with contextlib.closing(sqlite3.connect(self.file(name))) as it:
                found = [it.execute("SELECT * FROM hard ORDER BY fid").fetchall()]
                found.append(it.execute("SELECT min_x, min_y, max_x, max_y FROM gpkg_contents").fetchall())
                found.append(it.execute("SELECT feature_count FROM gpkg_ogr_contents").fetchall())
                found.append(sorted(it.execute("SELECT type, name FROM sqlite_master").fetchall()))
                found.append(
                    it.execute("SELECT id, minx, maxx, miny, maxy FROM rtree_hard_geom ORDER BY id").fetchall()
                )
                tables[name] = found
        self.assertEqual(*tables.values())

    def test_what_sql_is_not_for_goes_through_gdal(self):
        for shape in ("POINT Z (1 2 3)", "LINESTRING M (1 2 3,4 5 6)", "CIRCULARSTRING (0 0,1 1,2 0)"):
            write(self.file("z.gpkg"), "ducts", DUCTS, [(1, {"dn": 1}, "POINT (1 2)"), (2, {"dn": 2}, shape)])
            self.there_and_back(self.file("z.gpkg"), "ducts", "z_out.gpkg", count=2)
            Path(self.file("z.gpkg")).unlink()

    def test_each_version_goes_out(self):
        """Four states of the map, each written down when it was: top, and north at its base, at a checkpoint, and
        now."""
        write(self.file("base.gpkg"), "ducts", DUCTS, THREE)
        self.bring(self.file("base.gpkg"), "ducts")
        self.ask(lambda store: store.new("north", "top"))
        states = {"top": "base", "north@": "base"}
        steps = {"north@before": "UPDATE ducts SET dn = 50 WHERE fid = 2", "north": "DELETE FROM ducts WHERE fid = 1"}
        shutil.copy(self.file("base.gpkg"), self.file("now.gpkg"))
        for at, statement in steps.items():
            change(self.file("now.gpkg"), statement, "INSERT INTO ducts (dn) VALUES (9)")
            states[at] = f"{at}_due"
            shutil.copy(self.file("now.gpkg"), self.file(f"{at}_due.gpkg"))
            self.bring(self.file("now.gpkg"), "ducts", "--sync", alt="north")
            if at == "north@before":
                self.ask(lambda store: store.checkpoint("north", "before"))
        before = Path(self.store).read_bytes()
        for at, due in states.items():
            self.altgis("export", self.store, at, self.file(f"{at}_out.gpkg"))
            count = self.count("SELECT count(*) FROM a", (self.file(f"{due}.gpkg"), "ducts"))
            self.equal(count, (self.file(f"{due}.gpkg"), "ducts"), (self.file(f"{at}_out.gpkg"), "ducts"))
        self.assertTrue(Path(self.store).read_bytes() == before)

    def test_the_index_has_each_feature_where_it_is(self):
        """After an import, a second one and an edit by hand, a window finds what reading all of the geometry finds."""
        boxes = {it: (it % 50 * 100.1, it // 50 * 70.3, 5.0 * (it % 7 + 1)) for it in range(1, 701)}
        line = "LINESTRING ({0} {1},{2} {3})"
        features = {it: (it, {"dn": 1}, line.format(x, y, x + size, y + size)) for it, (x, y, size) in boxes.items()}
        features[701] = (701, {"dn": 1}, "LINESTRING (-50 -50,9000 9000)")  # A big one, which each window is to have.
        write(self.file("a.gpkg"), "ducts", DUCTS, features.values())
        self.bring(self.file("a.gpkg"), "ducts")

        def look(store):
            moved = places.moved(store, places.OWN, "top", 7)
            index, whole = places.Index(store, 7), places.scanned(store, "top", 7)
            for window in (
                (0, 0, 300, 300),
                (4000, 500, 4100, 600),
                (-99, -99, 9999, 9999),
                (-9, -9, -5, -5),
                (8e4, 0, 9e4, 1),
            ):
                found = {it for it in index.window(*window)[0].tolist() if it not in moved}
                found |= set(places.Places.of(moved).window(*window)[0].tolist())
                self.assertEqual(set(whole.window(*window)[0].tolist()), found)
            return len(moved), len(whole.numbers), len(index.pages)

        self.assertEqual((0, 701, 5), self.ask(look))
        change(self.file("a.gpkg"), "DELETE FROM ducts WHERE fid < 100", "UPDATE ducts SET geom = NULL WHERE fid = 300")
        self.bring(self.file("a.gpkg"), "ducts", "--sync")
        self.assertEqual((0, 601, 4), self.ask(look))
        self.ask(lambda store: store.put("top", 107, 5, struct.pack("<BIIdddd", 1, 2, 2, 4050, 550, 4051, 551)))
        self.ask(lambda store: store.remove("top", 107, 400))
        self.assertEqual((2, 601, 4), self.ask(look))
        self.altgis("index", self.store)
        self.assertEqual((0, 601, 4), self.ask(look))
        self.assertEqual(["before-import-1"], self.ask(lambda store: list(store.checkpoints("top"))))

    def test_an_import_finds_the_places_that_a_scan_finds(self):
        """Of geometries of each kind, and of one that is too far away to be drawn. A scan reads what the store has."""
        shapes = ["POINT (1 2)", "POINT EMPTY", None, "CIRCULARSTRING (0 0,1 1,2 0)", "LINESTRING Z (1 2 3,4 5 6)"]
        shapes += ["LINESTRING (0 0,1e13 1)", "POLYGON ((0 0,0 9,9 9,0 0))", "MULTIPOINT (1 2,3 4)"]
        write(self.file("a.gpkg"), "ducts", DUCTS, [(at, {"dn": 1}, it) for at, it in enumerate(shapes, 1)])
        set_up()
        with unittest.mock.patch("places.scanned", side_effect=AssertionError):
            self.carry_out("import", self.store, self.file("a.gpkg"), "--alt", "top", "--table", 7)
            self.carry_out("import", self.store, self.file("a.gpkg"), "--alt", "top", "--table", 8, "--new")
        pages = self.ask(lambda store: list(store.list(places.OWN)))
        self.assertTrue({places.PAGES + 7, places.PAGES + 8} <= {it.table for it in pages})
        self.ask(lambda store: store.drop(places.OWN))
        self.altgis("index", self.store)
        self.assertEqual(pages, self.ask(lambda store: list(store.list(places.OWN))))

    def test_a_difference_is_four_layers(self):
        write(self.file("a.gpkg"), "ducts", DUCTS, THREE)
        self.bring(self.file("a.gpkg"), "ducts")
        self.ask(lambda store: store.new("north", "top"))
        mine = ["UPDATE ducts SET dn = 1 WHERE fid = 2", "UPDATE ducts SET mat = 'a' WHERE fid = 12"]
        mine += ["DELETE FROM ducts WHERE fid = 1", "INSERT INTO ducts (fid, dn) VALUES (20, 9)"]
        shutil.copy(self.file("a.gpkg"), self.file("b.gpkg"))
        change(self.file("a.gpkg"), *mine)
        change(self.file("b.gpkg"), "UPDATE ducts SET dn = 2, geom = NULL WHERE fid = 2")
        self.bring(self.file("a.gpkg"), "ducts", "--sync", alt="north")
        self.bring(self.file("b.gpkg"), "ducts", "--sync")
        told = self.altgis("diff", self.store, "top", "north", self.file("d.gpkg"))
        self.assertEqual("top to north, table 7: 1 added, 2 changed, 1 removed, 1 conflicts\n", told)
        columns = "alt_id, alt_side, alt_what, dn, mat, geom IS NULL"
        due = {
            "added": [(20, "after", "", 9, None, 1)],
            "removed": [(1, "before", "", 110, "PVC", 0)],
            "changed": [
                (2, "before", "dn, geometry", 2, "Straße", 1),
                (2, "after", "dn, geometry", 1, "Straße", 0),
                (12, "before", "mat", None, "", 1),
                (12, "after", "mat", None, "a", 1),
            ],
            "conflicts": [
                (2, "base", "dn", 160, "Straße", 0),
                (2, "parent", "dn", 2, "Straße", 1),
                (2, "mine", "dn", 1, "Straße", 0),
            ],
        }
        self.assertEqual(due, {it: self.rows(self.file("d.gpkg"), it, columns) for it in due})
        self.opens(self.file("d.gpkg"))
        told = self.altgis("diff", self.store, "north@", "north", self.file("e.gpkg"))
        self.assertEqual("north@ to north, table 7: 1 added, 2 changed, 1 removed, 0 conflicts\n", told)
        told = self.altgis("diff", self.store, "north", "top", self.file("f.gpkg"))
        self.assertEqual("north to top, table 7: 1 added, 2 changed, 1 removed, 1 conflicts\n", told)
        self.assertEqual(due["conflicts"], self.rows(self.file("f.gpkg"), "conflicts", columns))
        self.refused("give two versions", "diff", self.store, "top", "top", self.file("g.gpkg"))
        self.refused("takes one layer", "diff", self.store, "top", "north", self.file("g.geojson"))

    def test_a_field_of_the_map_with_a_name_of_ours(self):
        fields = [field(it, ogr.OFTInteger) for it in ("FID_", "Geom_", "ALT_ID")]
        write(self.file("a.gpkg"), "a", fields, [(1, {"FID_": 5, "ALT_ID": 6}, "POINT (1 2)")])
        self.bring(self.file("a.gpkg"), "a")
        Path(self.file("b.csv")).write_text("fid,geom\n5,6\n")
        self.bring(self.file("b.csv"), "b", table=8)
        self.altgis("export", self.store, "top", self.file("out.gpkg"))
        self.equal(1, (self.file("a.gpkg"), "a"), (self.file("out.gpkg"), "a"))
        self.assertEqual([("5", "6")], self.rows(self.file("out.gpkg"), "b", "fid, geom"))
        self.ask(lambda store: store.new("north", "top"))
        self.ask(lambda store: store.remove("north", 7, 1))
        self.ask(lambda store: store.remove("north", 107, 1))
        self.altgis("diff", self.store, "top", "north", self.file("d.gpkg"), "--table", 7)
        self.assertEqual([(1, 6, 5)], self.rows(self.file("d.gpkg"), "removed", "ALT_ID_, ALT_ID, FID_"))
