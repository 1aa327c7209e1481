"""Imports and exports that cannot hurt: another layer's table, values of a wrong type, a store that is full, Ctrl-C and
a pipe without a reader."""
import os
import re
import subprocess
import sys
import threading
from pathlib import Path

from gis_tests.cases import ALTCTL, DESK, DUCTS, THREE, AltgisCase, change, field, write
from osgeo import gdal, ogr

import designs
import joining
import maps
from altctl import Refusal, Store
from maps import Fields, numbers, types
from values import typed

POINT = "POINT (1 2)"


def points(count):
    return [(it, {"dn": it % 200, "mat": "PVC"}, POINT) for it in range(1, count + 1)]


class BringingTests(AltgisCase):
    def test_another_layers_table_is_refused(self):
        write(self.file("a.gpkg"), "ducts", DUCTS, THREE)
        write(self.file("b.gpkg"), "cables", DUCTS, THREE)
        self.bring(self.file("a.gpkg"), "ducts")
        where = ("--alt", "top", "--table", 7)
        told = "table 7 of top has the layer ducts, and this one is cables"
        self.refused(told, "import", self.store, self.file("b.gpkg"), *where)
        self.refused(told, "import", self.store, self.file("b.gpkg"), *where, "--sync", "--dry-run")
        self.assertIn("3 same", self.altgis("import", self.store, self.file("b.gpkg"), *where, "--name", "ducts"))
        self.assertIn("cables into top", self.altgis("import", self.store, self.file("b.gpkg"), *where, "--rename"))
        self.assertEqual("cables", self.ask(lambda store: maps.layers(store, "top"))[7]["name"])

    def test_a_dry_run_tells_what_an_import_does(self):
        write(self.file("a.gpkg"), "ducts", DUCTS, points(10))
        for words in ([], ["--sync"]):
            before = Path(self.store).read_bytes()
            told = self.bring(self.file("a.gpkg"), "ducts", "--dry-run", *words)
            self.assertTrue(Path(self.store).read_bytes() == before)
            self.assertTrue(told.startswith("a dry run, which changes nothing:\n"))
            due = self.bring(self.file("a.gpkg"), "ducts", *words)
            self.assertEqual(due.splitlines()[-1], told.splitlines()[-1])
            change(self.file("a.gpkg"), "DELETE FROM ducts WHERE fid < 3", "UPDATE ducts SET dn = 0 WHERE fid = 4")

    def test_a_checkpoint_is_made_before_records_are_changed(self):
        write(self.file("a.gpkg"), "ducts", DUCTS, THREE)
        checks = lambda alt="top": self.ask(lambda store: list(store.checkpoints(alt)))
        self.assertNotIn("checkpoint", self.bring(self.file("a.gpkg"), "ducts"))
        self.assertNotIn("checkpoint", self.bring(self.file("a.gpkg"), "ducts"))
        self.assertEqual([], checks())
        for name in ("before-import-1", "before-import-2"):
            change(self.file("a.gpkg"), "UPDATE ducts SET dn = dn + 1")
            self.assertIn(f"checkpoint {name} of top has", self.bring(self.file("a.gpkg"), "ducts"))
        self.assertEqual(["before-import-1", "before-import-2"], checks())
        self.ask(lambda store: store.uncheck("top", "before-import-1"))
        change(self.file("a.gpkg"), "UPDATE ducts SET dn = dn + 1")
        self.bring(self.file("a.gpkg"), "ducts", "--no-checkpoint")
        self.assertEqual(["before-import-2"], checks())
        change(self.file("a.gpkg"), "UPDATE ducts SET dn = dn + 1")
        self.bring(self.file("a.gpkg"), "ducts")
        self.ask(lambda store: store.back("top", "before-import-1"))
        self.assertEqual(
            113, self.ask(lambda store: Fields(maps.layers(store, "top")[7]).named(store.get("top", 7, 1)))["dn"]
        )

        def fill(store):
            for it in range(600):
                store.checkpoint("top", f"c{it}")

        with Store(self.store, ALTCTL) as store:
            self.assertRaisesRegex(Refusal, "12 TooMany", fill, store)
            store.commit()
        change(self.file("a.gpkg"), "UPDATE ducts SET dn = dn + 1")
        self.refused(
            "no place for the checkpoint", "import", self.store, self.file("a.gpkg"), "--alt", "top", "--table", 7
        )

    def test_a_layer_is_named_only_where_there_are_several(self):
        write(self.file("a.gpkg"), "ducts", DUCTS, THREE)
        self.assertIn("3 added", self.altgis("import", self.store, self.file("a.gpkg"), "--alt", "top", "--table", 7))
        gdal.VectorTranslate(self.file("two.gpkg"), self.file("a.gpkg"), layerName="ducts")
        gdal.VectorTranslate(self.file("two.gpkg"), self.file("a.gpkg"), layerName="more", accessMode="update")
        told = "has 2 layers: name one of ducts, more, or give --all"
        self.refused(told, "import", self.store, self.file("two.gpkg"), "--alt", "top", "--table", 8)
        for name, told in (("two.gpkg", "ducts: 3 features, "), (self.store, "table 7: ducts, ")):
            self.assertTrue(self.altgis("layers", self.file(name)).startswith(told))
        self.assertRegex(self.altgis("--version"), r"^altgis beside altctl \d+\.\d+\.\d+, GDAL \d.*, Python \d.*\n$")

    def test_all_layers_of_a_file_come_in_at_once_and_are_compared_in_one_file(self):
        kinds = {"ducts": 39, "chambers": 3, "points": 5}
        write(self.file("a.gpkg"), "chambers", DUCTS, THREE)
        self.bring(self.file("a.gpkg"), "chambers", table=5)
        self.lines("all.gpkg")
        for name, count in (("chambers", 3), ("points", 5)):
            write(self.file(f"{name}.gpkg"), name, DUCTS, THREE if count == 3 else points(count))
            gdal.VectorTranslate(
                self.file("all.gpkg"),
                self.file(f"{name}.gpkg"),
                layerName=name,
                accessMode="update",
                options=["-preserve_fid"],
            )
        write(self.file("two.gpkg"), "x", DUCTS, [])
        gdal.VectorTranslate(self.file("two.gpkg"), self.file("a.gpkg"), layerName="y", accessMode="update")
        words = ("import", self.store, self.file("all.gpkg"), "--alt", "top", "--all", "--first-table", 5)
        told = self.altgis(*words)
        for due in (
            "ducts into top, table 6: 39 added",
            "chambers into top, table 5: 0 added, 0 changed, 0 removed, 3 same",
            "points into top, table 7: 5 added",
        ):
            self.assertIn(due, told)
        self.altgis("export", self.store, "top", self.file("out.gpkg"))
        for name, count in kinds.items():
            self.equal(count, (self.file("all.gpkg"), name), (self.file("out.gpkg"), name))
        self.ask(lambda store: store.new("north", "top"))
        change(self.file("all.gpkg"), "DELETE FROM ducts WHERE fid = 1", "UPDATE points SET dn = 7 WHERE fid = 2")
        self.altgis("import", self.store, self.file("all.gpkg"), "--alt", "north", "--all", "--sync")
        told = self.altgis("diff", self.store, "top", "north", self.file("d.gpkg"))
        self.assertIn("table 6: 0 added, 0 changed, 1 removed, 0 conflicts", told)
        self.assertEqual([(1,)], self.rows(self.file("d.gpkg"), "ducts_removed", "alt_id"))
        self.assertEqual([("dn",), ("dn",)], self.rows(self.file("d.gpkg"), "points_changed", "alt_what"))
        self.refused(
            "not so many free tables",
            "import",
            self.store,
            self.file("two.gpkg"),
            "--alt",
            "top",
            "--all",
            "--first-table",
            99,
        )

    def test_a_value_of_another_type_does_not_come_in(self):
        """What the desk takes goes out again, whatever a person has typed."""

        def one(kind, subtype=None):
            return {"name": "x", "type": kind, **({"subtype": subtype} if subtype else {})}

        good = {"Date": "2024-02-29", "Time": "23:59:59.5", "DateTime": "2024-02-29T23:59:59.999+00", "Binary": "00fF"}
        good.update(
            {"Integer": 5, "Integer64": -(2**63), "Real": 0.5, "String": "", "IntegerList": [1], "StringList": ["a"]}
        )
        bad = {
            "Date": "yesterday",
            "Time": "25:00:00",
            "DateTime": "2024-13-01T00:00:00",
            "Binary": "0",
            "Integer": 2**31,
        }
        bad.update(
            {"Integer64": 2**63, "Real": "much", "String": 5, "IntegerList": ["a"], "StringList": [1], "RealList": 1}
        )
        for kind, value in good.items():
            self.assertIsNone(types.fault_of(one(kind), value), kind)
        for kind, value in bad.items():
            self.assertIn(f"is no {kind}, as the field x is", types.fault_of(one(kind), value))
        for kind, text in (
            ("Date", "yesterday"),
            ("Date", "2024-02-30"),
            ("DateTime", "now"),
            ("Integer", "4000000000"),
            ("Binary", "x"),
        ):
            self.assertRaises(maps.Fault, typed, text, one(kind), None)
        self.assertIsNone(typed("", one("Date"), None))
        kinds = {it: getattr(ogr, f"OFT{it}") for it in good}
        write(self.file("a.gpkg"), "a", [field("x", ogr.OFTString)], [])
        for table, (kind, value) in enumerate(good.items(), 1):
            layer = {**maps.NO_LAYER, "name": kind, "fields": [{**one(kind), "number": 1}], "next": 2}
            self.ask(lambda store: store.put("top", 0, table, maps.to_text(layer).encode()))
            self.ask(lambda store: store.put("top", table, 1, Fields(layer).packed({"x": value})))
            self.assertEqual(len(kinds), len(good))
        told = self.altgis("export", self.store, "top", self.file("all.gpkg"))
        self.assertEqual(len(good), len([it for it in told.splitlines() if it.endswith(": 1 features")]))

    def test_a_file_whose_values_are_not_what_its_fields_say(self):
        """GDAL would read 0 or null. The values are named, and nothing comes in but what is as it says."""
        kinds = {
            "Integer": "'many'",
            "Integer64": "1.5",
            "Real": "'wide'",
            "Date": "'yesterday'",
            "DateTime": "'now then'",
        }
        for kind, value in kinds.items():
            write(self.file("a.gpkg"), "a", [field("x", getattr(ogr, f"OFT{kind}"))], [(1, {}, None), (2, {}, None)])
            change(self.file("a.gpkg"), f"UPDATE a SET x = {value} WHERE fid = 2")
            words = ("import", self.store, self.file("a.gpkg"), "--alt", "top", "--table", 7)
            self.refused(f"feature 2: .* is no {kind}, as the field x is", *words)
            ran = self.start_altgis(*words, "--skip-bad", "--dry-run")
            self.assertIn("a into top, table 7: 1 added", ran.stdout)
            Path(self.file("a.gpkg")).unlink()
        Path(self.file("b.csv")).write_text("n,d\n1,2024-02-29\nmany,2024-02-29\n3,yesterday\n")
        Path(self.file("b.csvt")).write_text("Integer,Date\n")
        words = ("import", self.store, self.file("b.csv"), "--alt", "top", "--table", 7)
        self.refused("Invalid value type found in record 2 for field n", *words, "--skip-bad")

    def test_bad_features_are_left_out_if_that_is_asked_for(self):
        Path(self.file("a.csv")).write_bytes(b"id,n\n1,caf\xe9\n2,good\n")
        words = ("import", self.store, self.file("a.csv"), "--alt", "top", "--table", 7, "--id", "id")
        self.refused("feature 1 has a text that is not UTF-8", *words)
        ran = self.start_altgis(*words, "--skip-bad")
        self.assertEqual(
            (3, "a into top, table 7: 1 added, 0 changed, 0 removed, 0 same\n"), (ran.returncode, ran.stdout)
        )
        self.assertIn("altgis: left out: feature 1 has a text that is not UTF-8\n", ran.stderr)

    def test_how_much_room_the_rest_needs(self):
        self.create(64)
        write(self.file("many.gpkg"), "a", DUCTS, points(6000))
        words = ("import", self.store, self.file("many.gpkg"), "--alt", "top", "--table", 8)
        ran = self.start_altgis(*words)
        blocks = int(re.search(r"altctl do .* 'grow (\d+)' commit", ran.stderr)[1])
        self.assertLess(blocks, 5000)
        self.ask(lambda store: store.grow(blocks))
        self.assertIn("6000 added", self.altgis(*words))
        self.create(64)
        self.assertIn("6000 added", self.altgis(*words, "--grow"))

    def take_at_once(self, service):
        """Four planners take numbers at the same time: none gets those of another one."""
        found = []

        def take():
            with Store(service) as store:
                found.extend(numbers.take(store, 8, 1, True)[0] for _ in range(5))

        planners = [threading.Thread(target=take) for _ in range(4)]
        for it in planners:
            it.start()
        for it in planners:
            it.join(120)
        self.assertEqual(list(range(1, 20001, 1000)), sorted(found))

    def test_a_clone_gives_only_the_numbers_of_its_range(self):
        """Also when its alternative for numbers is made anew, as after an import into top."""
        self.create(64)
        with Store(self.store, ALTCTL) as store:
            store.new(numbers.OWN, "top")
            store.put(numbers.OWN, numbers.STATE, 1, b'{"7": 5001}')
            store.put(numbers.OWN, numbers.ENDS, 0, b'{"7": 5011}')
            store.commit()
            self.assertEqual(range(5001, 5009), numbers.take(store, 7, 8, False))
            with self.assertRaisesRegex(maps.Fault, "altcarry pull --numbers 7"):
                numbers.take(store, 7, 3, False)
            numbers.renew(store, False)
            self.assertEqual(range(5009, 5011), numbers.take(store, 7, 2, False))
            with self.assertRaisesRegex(maps.Fault, "altcarry pull --numbers 7"):
                numbers.take(store, 7, 1, False)
            self.assertEqual(range(1, 1001), numbers.take(store, 8, 1, False))

    def test_through_a_service(self):
        """An import that is full and grows, numbers, and a merge by field."""
        self.create(80)
        write(self.file("a.gpkg"), "ducts", DUCTS, points(3000))
        service = self.service()
        words = ("import", service, self.file("a.gpkg"), "--alt", "top", "--table", 7)
        ran = self.start_altgis(*words)
        self.assertEqual((1, ""), (ran.returncode, ran.stdout))
        self.assertRegex(ran.stderr, "13 Full: the import takes about .* blocks more: .*; nothing was changed")
        self.assertIn("3000 added", self.altgis(*words, "--grow"))
        with Store(service) as store:
            store.new("north", "top")
            self.assertEqual(
                [range(3001, 4001), range(4001, 5001)], [numbers.take(store, 7, 1, True) for _ in range(2)]
            )
            fields = Fields(maps.layers(store, "top")[7])
            store.put("top", 7, 1, fields.packed({"dn": 5, "mat": "PVC"}))
            store.put("north", 7, 1, fields.packed({"dn": 1, "mat": "clay"}))
        self.assertIn("1 of them joined by field", self.altgis("merge", service, "north"))
        self.take_at_once(service)
        with Store(service) as store:
            self.assertEqual({"dn": 5, "mat": "clay"}, fields.named(store.get("north", 7, 1)))

    def test_the_desk_merges_by_field(self):
        """What both sides changed in other fields needs no choice; a choice is for a record's clashes alone."""
        write(self.file("a.gpkg"), "ducts", DUCTS, points(3))
        self.bring(self.file("a.gpkg"), "ducts")
        with Store(self.service()) as store:
            store.new("north", "top")
            fields = Fields(maps.layers(store, "top")[7])
            for number, theirs, mine in ((1, (5, "PVC"), (1, "clay")), (2, (5, "steel"), (6, "PVC"))):
                for alt, (dn, mat) in (("top", theirs), ("north", mine)):
                    store.put(alt, 7, number, fields.packed({"dn": dn, "mat": mat}))
            seen = designs.Designs(store)
            seen.refresh()
            clashes = seen.design("north").clashes
            self.assertEqual(["7:2.dn"], list(clashes.by_key))
            with self.assertRaisesRegex(maps.Fault, "1 conflicts have no choice yet"):
                joining.merge(store, "north", clashes, {}, {"north": seen.batch})
            joining.merge(store, "north", clashes, {"7:2.dn": "mine"}, {"north": seen.batch})
            found = [fields.named(store.get("north", 7, it)) for it in (1, 2)]
        self.assertEqual([{"dn": 5, "mat": "clay"}, {"dn": 6, "mat": "steel"}], found)

    def test_a_pipe_that_nobody_reads(self):
        fields = [field(f"f{it}", ogr.OFTString) for it in range(3000)]
        write(self.file("a.geojson"), "a", fields, [(1, {it.GetName(): "x" for it in fields}, POINT)], code=None)
        command = f"{sys.executable} {DESK}/altgis layers {self.file('a.geojson')} | head -c 1"
        ran = subprocess.run(
            ["bash", "-c", f"{command}; echo ${{PIPESTATUS[0]}}"],
            capture_output=True,
            text=True,
            env={**os.environ, "ALTCTL": ALTCTL},
        )
        self.assertEqual("", ran.stderr)
        self.assertTrue(ran.stdout.endswith("141\n") or ran.stdout.endswith("0\n"), ran.stdout)
