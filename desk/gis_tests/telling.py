"""The history of a feature: who changed which field, when, and from what to what."""
import re

from gis_tests.cases import DUCTS, AltgisCase, write
from osgeo import ogr

import maps
from altctl import Entry, Store
from maps import Fields, geometry
from maps.following import Followed, Unknown

LINE = "LINESTRING (0 0,0 9,5 9)"


def wkb(text, order=ogr.wkbNDR):
    return bytes(ogr.CreateGeometryFromWkt(text).ExportToIsoWkb(order))


class HistoryTests(AltgisCase):
    def begin(self):
        """A map that came in through a service, and designs of it."""
        self.address = self.service()
        write(self.file("a.gpkg"), "ducts", DUCTS, [(it, {"dn": 110, "mat": "PVC"}, LINE) for it in (1, 2, 3)])
        self.altgis("import", self.address, self.file("a.gpkg"), "--alt", "top", "--table", 7)
        self.planner = Store(self.address)
        self.addCleanup(self.planner.close, quietly=True)
        self.fields = Fields(maps.layers(self.planner, "top")[7])
        for alt in ("north", "south"):
            self.planner.new(alt, "top")
        return self.planner

    def put(self, alt, number, **values):
        self.planner.put(alt, 7, number, self.fields.packed(values))

    def told(self, feature, store=None):
        """What altgis tells of a feature, without batch, time and planner."""
        found = self.altgis("history", store or self.address, feature).splitlines()
        self.assertTrue(all(re.match(r"\d+ \d{4}-\d\d-\d\d \d\d:\d\d:\d\d UTC [^ ,]+, ", it) for it in found), found)
        batches = [int(it.split()[0]) for it in found]
        self.assertEqual(sorted(batches, reverse=True), batches)
        return [it.split(", ", 1)[1] for it in found]

    def test_each_field_that_changed_with_both_values(self):
        """Edits, a merge by field and posts of two designs, told by the service, and by the journal beside the file."""
        store = self.begin()
        self.put("north", 1, dn=160, mat="PVC")
        self.put("south", 1, dn=110, mat="HDPE")
        store.put("south", 107, 1, wkb("LINESTRING (0 0,1 9,5 9)"))
        store.post("north")
        self.assertIn("1 of them joined by field", self.altgis("merge", self.address, "south"))
        store.post("south")
        self.put("top", 1, dn=160, mat="HDPE")  # It was so.
        store.remove("top", 107, 1)
        with store.batch():
            self.put("north", 2, dn=1)
            store.remove("north", 7, 2)
            store.remove("north", 107, 2)
        store.merge("north")
        one = [
            'merge north: mat: "PVC" to "HDPE"; geometry: line of 3 vertices to none',
            "edited top: geometry: line of 3 vertices to none",
            'post south: mat: "PVC" to "HDPE"; geometry: moved, 1 of 3 vertices',
            "merge south: dn: 110 to 160",
            "post north: dn: 110 to 160",
            "edited south: geometry: moved, 1 of 3 vertices",
            'edited south: mat: "PVC" to "HDPE"',
            "edited north: dn: 110 to 160",
        ]
        begun = 'edited top: dn: 110; mat: "PVC"; geometry: line of 3 vertices; what it was before is not known'
        due = {"7:1": [*one, begun], "7:2": ["removed from north: removed", begun], "7:3": [begun]}
        self.assertEqual(due, {it: self.told(it) for it in due})
        self.assertIn("nobody has changed 7:4", self.altgis("history", self.address, "7:4"))
        self.stop()
        self.assertEqual(due, {it: self.told(it, self.store) for it in due})

    def test_what_was_there_before_the_journal(self):
        """It is read in the store if a design or its base still has it; else the change tells what it has made."""
        write(self.file("a.gpkg"), "ducts", DUCTS, [(it, {"dn": 110, "mat": "PVC"}, LINE) for it in (1, 2)])
        self.bring(self.file("a.gpkg"), "ducts")
        self.ask(lambda store: store.new("north", "top"))
        self.assertRegex(self.start_altgis("history", self.store, "7:1").stderr, "has no journal")
        self.address = self.service()
        with Store(self.address) as self.planner:
            self.fields = Fields(maps.layers(self.planner, "top")[7])
            self.planner.new("south", "north")
            self.put("north", 1, dn=160, mat="PVC")
            self.put("south", 1, dn=160)
            self.put("top", 2, dn=50, mat="PVC")
            self.planner.put("top", 107, 2, wkb("LINESTRING (7 7,7 16,12 16)"))
            self.planner.merge("north")
            due = ['edited south: dn: 110 to 160; mat: "PVC" to none', "edited north: dn: 110 to 160"]
            self.assertEqual(due, self.told("7:1"))
            unknown = "what it was before is not known"
            due = [f"edited top: geometry: line of 3 vertices; {unknown}", f'edited top: dn: 50; mat: "PVC"; {unknown}']
            self.assertEqual(due, self.told("7:2")[1:])
            # North was as it is in the base of south.
            self.assertEqual(["merge north: dn: 110 to 50; geometry: moved, 3 vertices"], self.told("7:2")[:1])

    def follow(self, *lines, parents=("north", "south")):
        """A record of the key 7:1, followed through lines, each of a batch of its own unless it begins with a space."""
        found, batch = Followed((7, 1), {"top": None, **dict.fromkeys(parents, "top")}), 0
        for line in lines:
            batch += not line.startswith(" ")
            found.take(Entry(batch, "", "anna", line.strip()))
        values = lambda change: ("?" if isinstance(it, Unknown) else it for it in change[2:])
        return [(batch, alt, *values(change)) for (batch, alt), change in found.changes.items()]

    def test_a_record_is_followed(self):
        """Of each line what it has changed, whatever was there before the journal began."""
        put = lambda alt, value: f"put {alt} 7 1 {value}"
        west = put("top", "a"), "new west top", put("west", "b"), put("top", "c")
        so_far = [(1, "top", "?", b"a"), (3, "west", b"a", b"b"), (4, "top", b"a", b"c")]
        open_changes = [(1, "top", "?", "?"), (2, "top", "?", "?"), (3, "north", "?", "?")]
        again = "new west top", "drop west", "new west north", put("west", "a"), "remove west 7 1", "post west"
        cases = {
            ("merge north", "merge south"): [],
            ("merge north", "post south", "merge south"): [(2, "top", "?", "?")],
            ("post north", "post south", "merge north"): open_changes,
            (put("north", "a"), "merge north", "post north"): [(1, "north", "?", b"a"), (3, "top", "?", b"a")],
            (put("top", "a"), "merge north", "merge north"): [(1, "top", "?", b"a"), (2, "north", "?", b"a")],
            (*west, "merge west 7:1=theirs"): [*so_far, (5, "west", b"b", b"c")],
            (*west, "merge west all=mine", "post west"): [*so_far, (5, "west", b"b", b"b"), (6, "top", b"c", b"b")],
            (*west, "merge west 7:1=mine", " " + put("west", "d")): [*so_far, (5, "west", b"b", b"d")],
            (put("north", "a"), "back north before"): [(1, "north", "?", b"a"), (2, "north", b"a", "?")],
            again: [(4, "west", "?", b"a"), (5, "west", b"a", None), (6, "north", "?", None)],
        }
        for lines, due in cases.items():
            self.assertEqual(due, self.follow(*lines), lines)

    def test_a_geometry_in_words(self):
        shapes = {
            "POINT (1 2)": ("point", 1),
            "LINESTRING Z (1 2 3,4 5 6)": ("line", 2),
            "LINESTRING EMPTY": ("line", 0),
            "POLYGON ((0 0,0 9,9 9,0 0),(1 2,1 3,2 3,1 2))": ("polygon", 8),
            "MULTIPOINT (1 2,3 4)": ("points", 2),
            "MULTILINESTRING ((0 0,1 1),(2 2,3 3,4 4))": ("lines", 5),
            "TIN (((0 0,0 1,1 0,0 0)))": ("shape", 4),
            "GEOMETRYCOLLECTION (POINT (1 2),LINESTRING ZM (0 0 1 2,1 1 3 4))": ("shape", 3),
        }
        for text, due in shapes.items():
            for order in (ogr.wkbNDR, ogr.wkbXDR):
                name, found = geometry.vertices_of(wkb(text, order))
                self.assertEqual(due, (name, len(found)), text)
        self.assertEqual([(1, 2, 3), (4, 5, 6)], geometry.vertices_of(wkb("LINESTRING Z (1 2 3,4 5 6)"))[1])
        self.assertRaises(geometry.Bad, geometry.vertices_of, wkb("LINESTRING (1 2,3 4)")[:-1])
