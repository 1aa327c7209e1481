"""Two designs of one map: fields by number, merges by field, and numbers that nobody else has."""
import shutil
import sqlite3
from pathlib import Path

from gis_tests.cases import DUCTS, AltgisCase, change, field, write
from osgeo import gdal, ogr

import maps
from maps import Fields, numbers
from maps.merged_layer import MergedLayer

LINE = "LINESTRING ({0} 0,{0} 9)"


def ducts(count):
    return [(it, {"dn": 110, "mat": "PVC"}, LINE.format(it)) for it in range(1, count + 1)]


def layer(**numbered):
    """A layer with these fields, each a text, by their numbers."""
    fields = [{"name": name, "type": "String", "number": number} for name, number in numbered.items()]
    return {**maps.NO_LAYER, "name": "ducts", "fields": fields, "next": max(numbered.values(), default=0) + 1}


class PlanningTests(AltgisCase):
    def begin(self, features, *alts, fields=DUCTS):
        """The map in `top`, and designs of it."""
        write(self.file("top.gpkg"), "ducts", fields, features)
        self.bring(self.file("top.gpkg"), "ducts")
        for alt in alts:
            self.ask(lambda store: store.new(alt, "top"))

    def draw(self, file, count, east):
        """Draws ducts in a GeoPackage as QGIS does, which leaves the fid to the file. Gives the fids."""
        source = gdal.OpenEx(file, gdal.OF_VECTOR | gdal.OF_UPDATE)
        drawn, found = source.GetLayerByName("ducts"), []
        for it in range(count):
            feature = ogr.Feature(drawn.GetLayerDefn())
            feature.SetField("dn", 50)
            feature.SetGeometry(ogr.CreateGeometryFromWkt(LINE.format(east + it)))
            drawn.CreateFeature(feature)
            found.append(feature.GetFID())
        return found

    def merged(self, alt, *choices, status=0):
        ran = self.start_altgis("merge", self.store, alt, *choices)
        self.assertEqual(status, ran.returncode, ran.stderr + ran.stdout)
        return ran.stdout

    def attributes(self, alt, number, table=7):
        def read(store):
            value = store.get(alt, table, number)
            return None if value is None else Fields(maps.layers(store, alt)[table]).named(value)

        return self.ask(read)

    def test_two_designs_that_draw_add_a_field_and_change_the_same_ducts(self):
        """Each draws 100 ducts, adds a field, and changes a field of the same 1,000: they come together with no
        conflict."""
        self.begin(ducts(1200), "north", "south")
        drawn = {}
        for alt, east, added, what in (("north", 5000, "depth", "dn = 160"), ("south", 6000, "owner", "mat = 'HDPE'")):
            file = self.file(f"{alt}.gpkg")
            told = self.altgis("export", self.store, alt, file, "--numbers")
            self.assertIn("new ones get the numbers", told)
            drawn[alt] = self.draw(file, 100, east)
            kind = "REAL" if added == "depth" else "TEXT"
            value = "1.5" if added == "depth" else "'Netz AG'"
            change(file, f"ALTER TABLE ducts ADD COLUMN {added} {kind}")
            change(file, f"UPDATE ducts SET {what}, {added} = {value} WHERE fid <= 1000")
            told = self.bring(file, "ducts", alt=alt)
            self.assertIn("100 added, 1000 changed, 0 removed, 200 same", told)
        self.assertFalse(set(drawn["north"]) & set(drawn["south"]))
        for alt in ("north", "south"):
            told = self.merged(alt)
            self.ask(lambda store: store.post(alt))
        self.assertIn("1001 records that both changed, 1001 of them joined by field, 0 chosen", told)
        self.altgis("export", self.store, "top", self.file("all.gpkg"))
        columns = "dn, mat, depth, owner, count(*)"
        with sqlite3.connect(self.file("all.gpkg")) as it:
            rows = it.execute(f"SELECT {columns} FROM ducts GROUP BY dn, mat, depth, owner ORDER BY dn").fetchall()
        self.assertEqual(
            [(50, None, None, None, 200), (110, "PVC", None, None, 200), (160, "HDPE", 1.5, "Netz AG", 1000)], rows
        )
        self.opens(self.file("all.gpkg"))

    def test_the_same_fields_are_shown_and_nothing_is_merged(self):
        self.begin(ducts(10), "north")
        shutil.copy(self.file("top.gpkg"), self.file("north.gpkg"))
        change(
            self.file("top.gpkg"),
            "UPDATE ducts SET dn = 125 WHERE fid <= 3",
            "UPDATE ducts SET mat = 'clay' WHERE fid = 3",
        )
        change(
            self.file("north.gpkg"),
            "UPDATE ducts SET dn = 160 WHERE fid <= 2",
            "UPDATE ducts SET mat = 'HDPE' WHERE fid <= 4",
        )
        self.bring(self.file("top.gpkg"), "ducts")
        self.bring(self.file("north.gpkg"), "ducts", alt="north")
        before = Path(self.store).read_bytes()
        told = self.merged("north", status=4).splitlines()
        due = [f"7:{it}.dn: base 110, parent 125, mine 160" for it in (1, 2)]
        self.assertEqual([*due, '7:3.mat: base "PVC", parent "clay", mine "HDPE"'], told)
        self.assertEqual(due + told[2:], self.merged("north", "--dry-run", status=4).splitlines())
        self.merged("north", "7:1=mine", "7:2=theirs", "7:3=mine", "--dry-run")
        self.assertTrue(Path(self.store).read_bytes() == before)
        self.refused("7:9 is no clash", "merge", self.store, "north", "all=mine", "7:9=mine")
        self.refused("a choice is", "merge", self.store, "north", "7:1=ours")
        self.refused("was not added by both", "merge", self.store, "north", "7:1=both", "all=mine")
        self.merged("north", "7:1=mine", "7:2=theirs", "7:3.mat=mine")
        found = [self.attributes("north", it) for it in (1, 2, 3, 4)]
        self.assertEqual(
            [(160, "HDPE"), (125, "HDPE"), (125, "HDPE"), (110, "HDPE")], [(it["dn"], it["mat"]) for it in found]
        )
        self.assertEqual([], self.ask(lambda store: list(store.conflicts("north"))))
        self.ask(lambda store: store.post("north"))

    def clash(self, top, north):
        """Both sides change the ducts 1 and 2, each by its statements."""
        self.begin(ducts(3), "north")
        shutil.copy(self.file("top.gpkg"), self.file("north.gpkg"))
        for alt, statements in (("top", top), ("north", north)):
            change(self.file(f"{alt}.gpkg"), *statements)
            self.bring(self.file(f"{alt}.gpkg"), "ducts", "--sync", alt=alt)

    def test_geometry_is_a_field_and_goes_with_the_attributes(self):
        move = lambda x: f"UPDATE ducts SET geom = (SELECT geom FROM ducts WHERE fid = {x})"
        for choices, dn, east in (
            (["all=mine"], 1, 2),
            (["7:1=theirs"], 9, 3),
            (["7:1=mine", "7:1.geometry=theirs"], 1, 3),
        ):
            self.create(16384)
            Path(self.file("top.gpkg")).unlink(missing_ok=True)
            self.clash([f"{move(3)}, dn = 9 WHERE fid = 1"], [f"{move(2)}, dn = 1 WHERE fid = 1"])
            told = self.merged("north", status=4).splitlines()
            self.assertEqual(["7:1.dn", "7:1.geometry"], [it.split(":", 2)[0] + ":" + it.split(":")[1] for it in told])
            self.merged("north", *choices)
            out = self.file(f"{dn}{east}.gpkg")
            self.altgis("export", self.store, "north", out)
            self.assertEqual(1, self.count(f"SELECT count(*) FROM a WHERE fid = 1 AND dn = {dn}", (out, "ducts")))
            source = gdal.OpenEx(out, gdal.OF_VECTOR)
            feature = source.GetLayerByName("ducts").GetFeature(1)
            self.assertEqual(LINE.format(east), feature.GetGeometryRef().ExportToWkt())

    def test_a_feature_that_one_side_removed_stays_or_goes_as_a_whole(self):
        """Also if the other side changed its attributes alone, and its geometry is long."""
        for side in ("mine", "theirs"):
            self.create(16384)
            Path(self.file("top.gpkg")).unlink(missing_ok=True)
            self.clash(["DELETE FROM ducts WHERE fid = 1"], ["UPDATE ducts SET dn = 1 WHERE fid = 1"])
            self.assertIn("7:1: removed by the parent", self.merged("north", status=4))
            self.merged("north", f"7:1={side}")
            keys = self.ask(lambda store: [it[:2] for it in store.list("north") if it.number == 1])
            self.assertEqual([(7, 1), (107, 1)] if side == "mine" else [], keys)

    def test_both_are_kept_and_links_follow(self):
        """Both designs drew duct 601. Cables of the design that gets a new number follow it, those of the other one do
        not."""
        cables = [field("no", ogr.OFTString), field("duct", ogr.OFTInteger)]
        self.begin(ducts(3))
        write(self.file("cables.gpkg"), "cables", cables, [(1, {"no": "a", "duct": 1}, None)])
        self.bring(self.file("cables.gpkg"), "cables", "--link", "duct=7", table=9)
        self.ask(lambda store: store.new("north", "top"))
        fields = self.ask(lambda store: Fields(maps.layers(store, "top")[7]))
        links = self.ask(lambda store: Fields(maps.layers(store, "top")[9]))
        for alt, dn in (("top", 50), ("north", 60)):
            self.ask(lambda store: store.put(alt, 7, 601, fields.packed({"dn": dn})))
            self.ask(
                lambda store: store.put(
                    alt, 107, 601, bytes(ogr.CreateGeometryFromWkt(LINE.format(dn)).ExportToWkb(ogr.wkbNDR))
                )
            )
            self.ask(lambda store: store.put(alt, 9, dn, links.packed({"no": alt, "duct": 601})))
        self.assertIn("7:601: added by both", self.merged("north", status=4))
        told = self.merged("north", "7:601=both")
        self.assertIn("7:601 of north is 7:602 now", told)
        self.assertEqual([{"dn": 50}, {"dn": 60}], [self.attributes("north", it) for it in (601, 602)])
        found = [self.attributes("north", it, 9)["duct"] for it in (1, 50, 60)]
        self.assertEqual([1, 601, 602], found)
        keys = self.ask(lambda store: [it[:2] for it in store.list("north") if it.number in (601, 602)])
        self.assertEqual([(7, 601), (7, 602), (107, 601), (107, 602)], keys)
        self.ask(lambda store: store.post("north"))

    def test_numbers_are_given_once(self):
        def take(store, count=1, table=7):
            return numbers.take(store, table, count, False)

        self.begin(ducts(3))
        self.assertEqual(
            [range(4, 1004), range(1004, 2004), range(2004, 5004)],
            self.ask(lambda store: [take(store), take(store), take(store, 2001)]),
        )
        self.assertEqual(range(1, 1001), self.ask(lambda store: take(store, table=8)))
        write(self.file("far.gpkg"), "ducts", DUCTS, [(7000, {}, None)])
        self.bring(self.file("far.gpkg"), "ducts")
        # An import into `top` lets go of the version that the numbers were made of.
        rows = self.ask(lambda store: [(it.table, it.number) for it in store.diff("top", numbers.OWN)])
        self.assertEqual([numbers.STATE], [it for it, _ in rows])
        self.assertEqual(range(7001, 8001), self.ask(take))
        self.ask(lambda store: store.put("top", 7, 2**63 - 500, b"{}"))
        self.ask(lambda store: numbers.pass_over(store, 7, 2**63 - 500, False))
        self.assertRaises(maps.Fault, self.ask, take)
        self.ask(lambda store: store.put("top", 9, 2**64 - 1, b"{}"))
        self.assertEqual(range(1, 1001), self.ask(lambda store: take(store, table=9)))

    def test_an_import_of_new_features_gets_numbers(self):
        self.begin(ducts(3))
        Path(self.file("drawn.csv")).write_text("dn,mat\n1,PVC\n2,PVC\n")
        Path(self.file("drawn.csvt")).write_text("Integer,String\n")
        write(self.file("more.gpkg"), "ducts", DUCTS, [(1, {"dn": 1}, None), (2, {"dn": 2}, None)])
        for first in (4, 1004):
            self.assertIn("2 added, 0 changed", self.bring(self.file("more.gpkg"), "ducts", "--new"))
            self.assertEqual([{"dn": 1}, {"dn": 2}], [self.attributes("top", it) for it in (first, first + 1)])
        with sqlite3.connect(self.file("more.gpkg")) as it:  # A file that tells of less than it has.
            it.execute("UPDATE gpkg_ogr_contents SET feature_count = 0")
        words = ("import", self.store, self.file("more.gpkg"), "--alt", "top", "--table", 7, "--new")
        self.refused("more features than the 0", *words)
        with sqlite3.connect(self.file("more.gpkg")) as it:
            it.execute("UPDATE gpkg_ogr_contents SET feature_count = 2")
        before = Path(self.store).read_bytes()
        self.assertIn("2 added", self.bring(self.file("more.gpkg"), "ducts", "--new", "--dry-run"))
        self.assertTrue(Path(self.store).read_bytes() == before)

    def test_a_new_field_changes_the_layer_alone(self):
        self.begin(ducts(50), "north")
        change(
            self.file("top.gpkg"),
            "ALTER TABLE ducts ADD COLUMN depth REAL",
            "UPDATE ducts SET depth = 1.5 WHERE fid = 1",
        )
        self.assertIn("0 added, 1 changed, 0 removed, 49 same", self.bring(self.file("top.gpkg"), "ducts", alt="north"))
        self.assertEqual([(0, 7), (7, 1)], self.ask(lambda store: [it[:2] for it in store.changes("north")]))

    def test_old_values_are_read_as_they_are(self):
        """A store of an older altgis, with names in its values: a difference, an export and an import see the same map,
        and what an import changes it writes with numbers."""
        fields = [{"name": "dn", "type": "Integer"}, {"name": "2", "type": "String"}, {"name": "mat", "type": "String"}]
        old = {**maps.NO_LAYER, "name": "ducts", "crs": "EPSG:2056", "fields": fields}
        values = {1: {"dn": 110, "2": "two", "mat": None}, 2: {"dn": None, "mat": "PVC"}}
        self.ask(lambda store: store.put("top", 0, 7, maps.to_text(old).encode()))
        for number, it in values.items():
            self.ask(lambda store: store.put("top", 7, number, maps.to_text(it).encode()))
        self.altgis("export", self.store, "top", self.file("a.gpkg"))
        self.assertEqual(
            [(1, 110, "two", None), (2, None, None, "PVC")],
            self.rows(self.file("a.gpkg"), "ducts", 'fid, dn, "2", mat'),
        )
        self.ask(lambda store: store.new("north", "top"))
        told = self.bring(self.file("a.gpkg"), "ducts", alt="north")
        self.assertIn("0 added, 0 changed, 0 removed, 2 same", told)
        change(self.file("a.gpkg"), "UPDATE ducts SET mat = 'clay' WHERE fid = 1")
        self.assertIn("0 added, 1 changed, 0 removed, 1 same", self.bring(self.file("a.gpkg"), "ducts", alt="north"))
        self.assertEqual(b'{"1":110,"3":"two","4":"clay"}', self.ask(lambda store: store.get("north", 7, 1)))
        self.ask(lambda store: store.put("top", 7, 1, b'{"2":"two","dn":125,"mat":null}'))
        self.merged("north")
        self.assertEqual({"dn": 125, "2": "two", "mat": "clay"}, self.attributes("north", 1))

    def test_layers_that_both_changed(self):
        """Fields that one side added, removed or renamed; one that both added; and a number that both have given."""
        nobody = lambda *_: self.fail("nobody has to choose")
        base = layer(dn=1, mat=2)
        found = MergedLayer(base, layer(dn=1, mat=2, depth=3), layer(dn=1, mat=2, owner=4), nobody)
        self.assertEqual(
            [("dn", 1), ("mat", 2), ("depth", 3), ("owner", 4)],
            [(it["name"], it["number"]) for it in found.layer["fields"]],
        )
        found = MergedLayer(base, layer(size=1, mat=2), layer(dn=1), nobody)
        self.assertEqual([("size", 1)], [(it["name"], it["number"]) for it in found.layer["fields"]])
        found = MergedLayer(base, layer(dn=1, mat=2, depth=3), layer(dn=1, mat=2, depth=4), nobody)
        self.assertEqual([3, 4], maps.layer.numbers_of(found.layer["fields"][2]))
        found = MergedLayer(base, layer(dn=1, mat=2, depth=3), layer(dn=1, mat=2, owner=3), nobody)
        self.assertEqual([("depth", 3), ("owner", 4)], [(it["name"], it["number"]) for it in found.layer["fields"][2:]])
        self.assertEqual(({"3": "4"}, 5), (found.renumbered, found.layer["next"]))
        asked = []
        MergedLayer(base, layer(wide=1, mat=2), layer(size=1, mat=2), lambda what, *_: asked.append(what))
        self.assertEqual(["size"], asked)

    def test_a_number_of_a_field_that_both_have_given(self):
        """As two imports at once may do: own values get another number, also those that are in no conflict."""
        self.begin(ducts(4), "north")
        layers = {"top": layer(dn=1, mat=2, depth=3), "north": layer(dn=1, mat=2, owner=3)}
        for alt, its in layers.items():
            self.ask(lambda store: store.put(alt, 0, 7, maps.to_text({**its, "crs": "EPSG:2056"}).encode()))
        self.ask(lambda store: store.put("top", 7, 1, b'{"1":"1","3":"deep"}'))
        for number in (1, 2):
            self.ask(lambda store: store.put("north", 7, number, b'{"1":"1","3":"Netz AG"}'))
        self.merged("north")
        self.assertEqual({"dn": "1", "depth": "deep", "owner": "Netz AG"}, self.attributes("north", 1))
        self.assertEqual({"dn": "1", "owner": "Netz AG"}, self.attributes("north", 2))

    def test_values_that_look_alike_are_not_the_same(self):
        fields = [{"name": it, "type": "Real", "number": at} for at, it in enumerate("abc", 1)]
        self.ask(
            lambda store: store.put("top", 0, 7, maps.to_text({**maps.NO_LAYER, "fields": fields, "next": 4}).encode())
        )
        self.ask(lambda store: store.put("top", 7, 1, b'{"1":1,"2":2,"3":0}'))
        self.ask(lambda store: store.new("north", "top"))
        self.ask(lambda store: store.put("top", 7, 1, b'{"1":1.0,"2":2,"3":1}'))
        self.ask(lambda store: store.put("north", 7, 1, b'{"1":true,"2":5,"3":1}'))
        self.assertEqual(["7:1.a: base 1, parent 1.0, mine true"], self.merged("north", status=4).splitlines())
