"""Tests of the desk: what is read of designs after a batch."""

import maps
import places
from altctl import Store
from designs import Designs
from desk_tests.support import DeskTest, attributes, course, duct, layer
from values import typed


class NotingStore(Store):
    """Notes the words of the lines that are asked."""

    asked = []

    def _write(self, lines):
        self.asked += [it.split() for it in lines]
        super()._write(lines)


class DesignsTests(DeskTest):
    """What the desk knows, without a browser."""

    def setUp(self):
        super().setUp()
        self.serve()
        self.noting = NotingStore(f"unix:{self.socket}")
        self.addCleanup(self.noting.close, quietly=True)
        self.designs, self.other = Designs(self.noting), self.store()
        self.designs.refresh()

    def same_as_read_anew(self, *alts):
        """Looks whether what is known is what a new desk reads."""
        self.designs.refresh()
        anew = Designs(self.other)
        anew.refresh()
        for alt in alts:
            self.assertEqual(anew.about(alt), {**self.designs.about(alt), "stamp": anew.stamp(alt)})
            self.assertEqual(anew.parent_changes(alt), self.designs.parent_changes(alt))
            window = anew.design(alt).bounds()
            known, new = (sorted(map(repr, it.design(alt).window(window)["features"])) for it in (self.designs, anew))
            self.assertEqual(new, known)
        self.assertEqual([{**it, "stamp": 0} for it in anew.tree()], [{**it, "stamp": 0} for it in self.designs.tree()])

    def test_after_a_batch_only_what_it_names_is_read(self):
        alts = "top", "north", "south"
        for alt in alts:
            self.designs.design(alt)
        with self.other.batch():
            self.other.put("north", 7, 1, attributes(dn=50))
            self.other.put("north", 107, 2, course((0, 0), (9, 9)))
            self.other.remove("north", 107, 3)
            self.other.remove_many("north", [(7, 4), (107, 4)])
            self.other.put_many("north", duct(99))
            self.other.put("top", 7, 1, attributes(dn=60))
            self.other.remove("top", 107, 6)
        long = attributes(mat="x" * 9000)
        records = maps.records_of(7, 5, long)
        with self.other.batch():
            self.other.put_many("south", ((*key, value) for key, value in records.items()))
        self.designs.refresh()
        self.noting.asked.clear()
        for alt in alts:
            self.designs.design(alt)
        # Of differences only those of one number are asked for.
        self.assertEqual({"get", "diff"}, {it[0] for it in self.noting.asked})
        self.assertEqual({6}, {len(it) for it in self.noting.asked if it[0] == "diff"})
        self.same_as_read_anew(*alts)
        side = self.designs.feature("south", (7, 5))["now"]
        self.assertEqual({"mat": "x" * 9000}, side["attributes"])

    def test_a_merge_a_post_a_back_and_a_drop_are_followed(self):
        self.other.put("north", 7, 1, attributes(dn=50))
        self.other.checkpoint("north", "before")
        self.same_as_read_anew("top", "north")
        self.other.put("north", 7, 2, attributes(dn=50))
        self.same_as_read_anew("top", "north")
        self.other.put("top", 7, 2, attributes(dn=60))
        self.same_as_read_anew("top", "north")
        self.assertEqual(
            ["conflict"], [it["status"] for it in self.designs.about("north")["changes"] if it["number"] == "2"]
        )
        self.other.merge("north", {(7, 2): "theirs"})
        self.same_as_read_anew("top", "north")
        self.other.post("north")
        self.same_as_read_anew("top", "north", "south")
        self.other.back("north", "before")
        self.same_as_read_anew("top", "north")
        self.other.merge("north")
        self.other.put("north", 7, 4, attributes(dn=80))
        self.same_as_read_anew("top", "north", "south")
        self.other.post("north")
        self.other.drop("north")
        self.other.new("north", "south")
        self.same_as_read_anew("top", "north", "south")

    def test_the_layers_of_a_map_may_change(self):
        self.designs.design("top")
        self.other.put("top", 0, 7, layer("pipes"))
        self.other.put("top", 0, 8, layer("elsewhere", "EPSG:4326"))
        self.same_as_read_anew("top")
        told = [(it["name"], it["is_on_map"]) for it in self.designs.about("top")["layers"]]
        self.assertEqual([("pipes", True), ("elsewhere", False)], told)

    def test_what_the_parent_has_changed(self):
        self.other.put("top", 7, 1, attributes(dn=50))
        self.other.remove_many("top", [(7, 2), (107, 2)])
        self.other.put_many("top", duct(20))
        self.other.put("north", 7, 3, attributes(dn=50))
        self.designs.refresh()
        found = [(it["number"], it["status"], it["what"]) for it in self.designs.parent_changes("north")]
        both = ["attributes", "course"]
        self.assertEqual([("1", "changed", ["attributes"]), ("2", "removed", both), ("20", "added", both)], found)

    def test_texts_of_a_form(self):
        fields = {it: {"type": it} for it in ("Integer", "Real", "String", "StringList")}
        good = [("12", "Integer", 12), ("", "Integer", None), ("-1.5", "Real", -1.5), ("12", "String", "12")]
        good += [('["a"]', "StringList", ["a"])]
        for text, kind, value in good:
            self.assertEqual(value, typed(text, fields[kind], None))
        for text, kind in (("1.5", "Integer"), ("x", "Integer"), ("NaN", "Real"), ("7", "StringList"), ('"7"', "Real")):
            with self.assertRaises(maps.Fault):
                typed(text, fields[kind], None)
        self.assertEqual(["7", 7], [typed("7", None, "6"), typed("7", None, 6)])


class IndexedDesignsTests(DesignsTests):
    """The same with an index of places, and what designs share by it."""

    def setUp(self):
        super().setUp()
        places.renew(self.other, True)
        self.designs.refresh()

    def test_courses_that_designs_share_are_not_mixed_up(self):
        alts = "top", "north", "south"
        self.same_as_read_anew(*alts)
        self.noting.asked.clear()
        window = self.designs.design("south").bounds()
        self.designs.design("south").window(window)
        self.assertEqual([], self.noting.asked)  # Another design has drawn all of it.
        before = dict(zip((2, 3, 4), self.other.get_many("top", [(107, it) for it in (2, 3, 4)])))
        self.other.put("north", 107, 2, course((2600000, 1200000), (2600009, 1200009)))
        self.other.put("top", 107, 3, course((2600000, 1200000), (2600005, 1200005)))
        self.other.remove("top", 107, 4)
        self.other.put("top", 7, 5, attributes(dn=75))
        self.same_as_read_anew(*alts)
        self.other.merge("south")
        self.same_as_read_anew(*alts)
        self.other.put("north", 107, 2, before[2])
        self.other.put("top", 107, 4, before[4])
        self.same_as_read_anew(*alts)
        places.renew(self.other, True)
        self.same_as_read_anew(*alts)
        design = self.designs.design("south")
        drawn = {it["properties"]["number"]: it["geometry"] for it in design.window(design.bounds())["features"]}
        self.assertEqual({"type": "LineString", "coordinates": [[2600000, 1200000], [2600005, 1200005]]}, drawn["3"])
