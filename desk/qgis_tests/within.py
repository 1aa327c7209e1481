"""What a planner does in QGIS. QGIS itself runs this file, with the service's socket in the variable ALTQGIS_SOCKET,
and a folder for what is told in ALTQGIS_FOLDER."""
import faulthandler
import json
import os
import struct
import sys
import time
import traceback
import unittest
from pathlib import Path

from qgis.core import QgsApplication, QgsFeature, QgsGeometry, QgsPointXY, QgsProject, QgsRectangle
from qgis.PyQt.QtCore import QDate, Qt
from qgis.PyQt.QtWidgets import QDockWidget
from qgis.utils import iface, plugins

SOCKET, FOLDER = os.environ["ALTQGIS_SOCKET"], Path(os.environ["ALTQGIS_FOLDER"])
HALF = int(os.environ["ALTQGIS_FEATURES"]) // 2
CHAMBERS, DUCTS = 8, 7
DN, MAT, LAID, LIVE, TAGS = 1, 2, 3, 4, 5  # The places of a duct's fields in QGIS; its number is at 0.


def line(*points):
    return struct.pack("<BII", 1, 2, len(points)) + b"".join(struct.pack("<dd", *it) for it in points)


class PlannerTests(unittest.TestCase):
    @classmethod
    def setUpClass(cls):
        from altctl import Store

        cls.dock = plugins["altqgis"].dock
        cls.dock.connect_to(SOCKET)
        cls.other = Store(f"unix:{SOCKET}")

    def setUp(self):
        """A design of this test's own, as layers."""
        self.alt = "north"
        self.other.new(self.alt, "top")
        self.dock.look()
        self.dock.open_design(self.alt)
        QgsApplication.processEvents()  # QGIS shows a first layer as a whole.
        self.ducts, self.chambers = (self.dock.session.open[self.alt, it] for it in (DUCTS, CHAMBERS))
        self.addCleanup(self.leave)

    def leave(self):
        for it in (self.ducts, self.chambers):
            if it.layer.isEditable():
                it.layer.rollBack()
        self.dock.show_choices(None, [], [])
        QgsProject.instance().removeAllMapLayers()
        QgsProject.instance().layerTreeRoot().removeAllChildren()
        self.assertEqual({}, self.dock.session.open)
        for it in (f"{self.alt}-b", self.alt):
            if it in {its.name for its in self.other.alternatives()}:
                self.other.drop(it)

    # --- what is looked at ------------------------------------------------------------------------------

    def stored(self, number, table=DUCTS, at=None):
        """The attributes that the store has, by the numbers of fields."""
        value = self.other.get(at or self.alt, table, number)
        return value and json.loads(value)

    def course(self, number, table=DUCTS):
        value = self.other.get(self.alt, table + 100, number)
        return value and QgsGeometry.fromWkt(wkt_of(value)).asWkt()

    def batches(self):
        return self.other.batches()

    def shown(self, its, number):
        return its.layer.getFeature(its.ids[number])

    def edit(self, its, number, place, value):
        self.assertTrue(its.layer.changeAttributeValue(its.ids[number], place, value))

    def until(self, is_so):
        late = time.monotonic() + 10
        while not is_so():
            self.assertLess(time.monotonic(), late)
            QgsApplication.processEvents()

    # --- tests --------------------------------------------------------------------------------------------

    def test_a_design_is_opened_as_layers(self):
        self.assertEqual([HALF, HALF], [it.layer.featureCount() for it in (self.ducts, self.chambers)])
        self.assertEqual(["number", "dn", "mat", "laid", "live", "tags"], self.ducts.layer.fields().names())
        self.assertEqual("EPSG:2056", self.ducts.layer.crs().authid())
        feature = self.shown(self.ducts, 3)
        self.assertEqual([3, 110, "PVC", QDate(1998, 5, 3), True, '["a"]'], feature.attributes())
        self.assertEqual("LineString (2600021 1200000, 2600028 1200000)", feature.geometry().asWkt())
        self.assertTrue(self.ducts.layer.editFormConfig().readOnly(0))
        group = QgsProject.instance().layerTreeRoot().findGroup(self.alt)
        self.assertEqual({"ducts", "chambers"}, {it.name().split(" of ")[0] for it in group.findLayers()})
        row = next(it for it in self.dock.session.tree() if it.name == self.alt)
        self.assertEqual(("top", 1, 0, 0), row[1:])

    def test_ten_edits_beside_a_second_planner(self):
        self.ducts.layer.startEditing()
        for number in range(1, 11):
            self.edit(self.ducts, number, DN, 200 + number)
        moved = QgsGeometry.fromPolylineXY([QgsPointXY(2600000, 1200000), QgsPointXY(2600005, 1200009)])
        self.ducts.layer.changeGeometry(self.ducts.ids[2], moved)
        # Berta changes one of them before it is saved, in the same field and in another one.
        self.other.put(self.alt, DUCTS, 4, b'{"1":63,"2":"HDPE","3":"1998-05-04","4":true,"5":["a"]}')
        before = self.batches()
        self.assertFalse(self.ducts.layer.commitChanges())
        self.assertEqual(before, self.batches())
        self.assertEqual([110] * 3, [self.stored(it)["1"] for it in (1, 2, 3)])
        self.assertTrue(self.ducts.layer.isEditable())
        table = self.dock.table
        rows = [[table.item(row, column).text() for column in range(5)] for row in range(table.rowCount())]
        self.assertEqual([["ducts 4", "dn", "110", "63", "204"], ["ducts 4", "mat", "PVC", "HDPE", "PVC"]], rows)
        self.assertEqual({(4, "mat"): "theirs"}, table.chosen())
        picture("qgis-late", QgsRectangle(2599995, 1199990, 2600075, 1200030))
        self.assertFalse(self.dock.try_to(self.dock.take_choices))
        table.choose((4, "dn"), "mine")
        self.dock.take_choices()
        self.assertTrue(self.ducts.layer.commitChanges())
        self.assertEqual(before + 1, self.batches())
        self.assertEqual(
            [201, 202, 203, 204, 205, 206, 207, 208, 209, 210], [self.stored(it)["1"] for it in range(1, 11)]
        )
        self.assertEqual({"1": 204, "2": "HDPE", "3": "1998-05-04", "4": True, "5": ["a"]}, self.stored(4))
        self.assertEqual(line((2600000, 1200000), (2600005, 1200009)), self.other.get(self.alt, DUCTS + 100, 2))
        self.assertEqual([204, "HDPE"], self.shown(self.ducts, 4).attributes()[1:3])
        self.assertEqual(["put", "put", "put"], [it.line.split()[0] for it in list(self.other.log(after=before))[:3]])
        self.assertEqual(11, len(list(self.other.log(after=before))))

    def test_theirs_is_taken_for_a_field_that_both_changed(self):
        self.ducts.layer.startEditing()
        self.edit(self.ducts, 1, DN, 300)
        self.edit(self.ducts, 1, MAT, "PE")
        self.other.put(self.alt, DUCTS, 1, b'{"1":63,"2":"PVC"}')
        self.assertFalse(self.ducts.layer.commitChanges())
        for key in list(self.dock.table.boxes):
            self.dock.table.choose(key, "theirs")
        self.dock.take_choices()
        self.assertTrue(self.ducts.layer.commitChanges())
        self.assertEqual({"1": 63, "2": "PE"}, self.stored(1))

    def test_features_are_drawn_and_deleted(self):
        layer = self.ducts.layer
        layer.startEditing()
        made = QgsFeature(layer.fields())
        made.setAttribute(DN, 75)
        made.setAttribute(LAID, QDate(2026, 1, 31))
        made.setGeometry(QgsGeometry.fromPolylineXY([QgsPointXY(2600000, 1200000), QgsPointXY(2600001, 1200001)]))
        layer.addFeature(made)
        layer.deleteFeature(self.ducts.ids[5])
        before = self.batches()
        self.assertTrue(layer.commitChanges())
        self.assertEqual((None, None), (self.stored(5), self.other.get(self.alt, DUCTS + 100, 5)))
        [number] = [it.number for it in self.other.diff("top", self.alt, DUCTS) if it.before is None]
        self.assertGreater(number, HALF)
        self.assertEqual({"1": 75, "3": "2026-01-31"}, self.stored(number))
        self.assertLessEqual(self.batches() - before, 2)  # One for numbers, if none were left, and one for the edits.
        # What was drawn can be edited again.
        layer.startEditing()
        self.edit(self.ducts, number, DN, 90)
        self.assertTrue(layer.commitChanges())
        self.assertEqual({"1": 90, "3": "2026-01-31"}, self.stored(number))

    def test_others_removed_what_was_edited(self):
        self.ducts.layer.startEditing()
        for number in (1, 2):
            self.edit(self.ducts, number, DN, 300)
        self.other.remove_many(self.alt, [(7, 1), (107, 1), (7, 2), (107, 2)])
        self.assertFalse(self.ducts.layer.commitChanges())
        self.dock.table.choose((1, ""), "theirs")
        self.dock.table.choose((2, ""), "mine")
        self.dock.take_choices()
        self.assertTrue(self.ducts.layer.commitChanges())
        self.assertIsNone(self.stored(1))
        self.assertEqual({"1": 300, "2": "PVC", "3": "1998-05-02", "4": True, "5": ["a"]}, self.stored(2))
        self.assertEqual(line((2600014, 1200000), (2600021, 1200000)), self.other.get(self.alt, DUCTS + 100, 2))

    def test_others_edited_what_was_deleted(self):
        for side, due in (("theirs", {"1": 63}), ("mine", None)):
            number = 3 if side == "theirs" else 4
            self.ducts.layer.startEditing()
            self.ducts.layer.deleteFeature(self.ducts.ids[number])
            self.other.put(self.alt, DUCTS, number, b'{"1":63}')
            self.assertFalse(self.ducts.layer.commitChanges())
            for key in list(self.dock.table.boxes):
                self.dock.table.choose(key, side)
            self.dock.take_choices()
            self.assertTrue(self.ducts.layer.commitChanges())
            self.assertEqual(due, self.stored(number))
        self.assertEqual(63, self.shown(self.ducts, 3)[DN])

    def test_values_that_a_field_cannot_have(self):
        self.ducts.layer.startEditing()
        self.edit(self.ducts, 1, TAGS, "no list")
        self.assertFalse(self.ducts.layer.commitChanges())
        self.assertIn("tags", self.dock.said.text())
        self.edit(self.ducts, 1, TAGS, '["a","b"]')
        self.edit(self.ducts, 1, LIVE, False)
        self.edit(self.ducts, 1, MAT, None)
        self.edit(self.ducts, 1, LAID, QDate(2001, 2, 3))
        self.assertTrue(self.ducts.layer.commitChanges())
        self.assertEqual({"1": 110, "3": "2001-02-03", "4": False, "5": ["a", "b"]}, self.stored(1))

    def test_what_others_do_appears_within_two_seconds(self):
        self.other.put(self.alt, DUCTS, 1, b'{"1":63}')
        begun = time.monotonic()
        self.until(lambda: self.shown(self.ducts, 1)[DN] == 63)
        self.assertLess(time.monotonic() - begun, 2.5)
        # A layer that is edited waits until that ends.
        self.ducts.layer.startEditing()
        self.edit(self.ducts, 2, DN, 300)
        self.other.put(self.alt, DUCTS, 1, b'{"1":75}')
        self.dock.look()
        self.assertEqual(63, self.shown(self.ducts, 1)[DN])
        self.assertTrue(self.ducts.layer.commitChanges())
        self.assertEqual([75, 300], [self.shown(self.ducts, it)[DN] for it in (1, 2)])

    def test_layers_of_a_design_are_saved_as_one_batch(self):
        for its, place, value in ((self.ducts, DN, 300), (self.chambers, 1, "RB-9")):
            its.layer.startEditing()
            self.edit(its, 1, place, value)
        self.other.put(self.alt, CHAMBERS, 1, b'{"1":"theirs"}')
        before = self.batches()
        self.assertFalse(self.dock.try_to(self.dock.save_all, self.alt))
        self.assertEqual((before, 110), (self.batches(), self.stored(1)["1"]))
        self.dock.table.choose((1, "name"), "mine")
        self.dock.take_choices()
        self.dock.save_all(self.alt)
        self.assertEqual(before + 1, self.batches())
        self.assertEqual((300, {"1": "RB-9"}), (self.stored(1)["1"], self.stored(1, CHAMBERS)))
        self.assertEqual([False, False], [it.layer.isEditable() for it in (self.ducts, self.chambers)])

    def test_conflicts_are_settled_field_by_field_and_posted(self):
        self.other.new(f"{self.alt}-b", self.alt)
        below = f"{self.alt}-b"
        self.other.put(below, DUCTS, 1, b'{"1":125,"2":"HDPE","4":true}')
        self.other.put(self.alt, DUCTS, 1, b'{"1":160,"2":"PE","3":"1998-05-01","4":true}')
        self.dock.look()
        row = next(it for it in self.dock.session.tree() if it.name == below)
        self.assertEqual((1, 1), (row.changed, row.conflicts))
        self.assertFalse(self.dock.try_to(self.dock.post, below))
        self.assertIn("merge first", self.dock.said.text())
        self.dock.merge(below)
        table = self.dock.table
        rows = {
            table.item(row, 1).text(): [table.item(row, column).text() for column in (2, 3, 4)]
            for row in range(table.rowCount())
        }
        self.assertEqual({"dn": ["110", "160", "125"], "mat": ["PVC", "PE", "HDPE"]}, rows)
        self.dock.zoom(f"{DUCTS}:1.dn")
        self.assertTrue(iface.mapCanvas().extent().contains(QgsRectangle(2600007, 1200000, 2600014, 1200000)))
        self.assertLess(iface.mapCanvas().extent().height(), 200)
        picture("qgis-conflicts")
        table.choose(f"{DUCTS}:1.dn", "theirs")
        table.choose(f"{DUCTS}:1.mat", "mine")
        self.dock.take_choices()
        self.assertEqual({"1": 160, "2": "HDPE", "4": True}, self.stored(1, at=below))
        self.dock.checkpoint(below, "settled")
        self.assertEqual(["settled"], list(self.other.checkpoints(below)))
        self.dock.post(below)
        self.assertEqual({"1": 160, "2": "HDPE", "4": True}, self.stored(1))
        # The layer of the parent shows it.
        self.assertEqual("HDPE", self.shown(self.ducts, 1)[MAT])

    def test_two_designs_are_compared_as_layers(self):
        self.other.put(self.alt, DUCTS, 1, b'{"1":125,"2":"PVC","3":"1998-05-01","4":true,"5":["a"]}')
        self.other.remove_many(self.alt, [(7, 2), (107, 2)])
        self.other.put_many(
            self.alt, [(7, 500000, b'{"1":63}'), (107, 500000, line((2600000, 1200005), (2600009, 1200005)))]
        )
        known = set(QgsProject.instance().mapLayers())
        self.dock.compare("top", self.alt)
        [layer] = [it for name, it in QgsProject.instance().mapLayers().items() if name not in known]
        found = {it["number"]: (it["status"], it["what"]) for it in layer.getFeatures()}
        self.assertEqual({1: ("changed", "dn"), 2: ("removed", ""), 500000: ("added", "")}, found)
        looks = {it.value(): it.symbol().color().name() for it in layer.renderer().categories()}
        self.assertEqual({"added": "#009e73", "changed": "#0072b2", "removed": "#000000"}, looks)
        box = layer.extent()
        box.grow(8)
        picture("qgis-compared", box)


def wkt_of(value):
    found = QgsGeometry()
    found.fromWkb(value)
    return found.asWkt()


def picture(name, box=None):
    """A picture of QGIS as it is, for the documents."""
    if os.environ.get("ALTQGIS_PICTURES"):
        if box is not None:
            iface.mapCanvas().setExtent(box)
        iface.mapCanvas().refresh()
        iface.mapCanvas().waitWhileRendering()
        late = time.monotonic() + 1
        while time.monotonic() < late:
            QgsApplication.processEvents()
        iface.mainWindow().grab().save(str(FOLDER / f"{name}.png"))


def run():
    with open(FOLDER / "told", "w", buffering=1) as told:
        faulthandler.dump_traceback_later(int(os.environ["ALTQGIS_SECONDS"]) - 20, file=told)
        # In place of QGIS's own, which opens a dialog, and waits.
        sys.excepthook = lambda kind, fault, trace: traceback.print_exception(kind, fault, trace, file=told)
        names = [it for it in os.environ.get("ALTQGIS_TESTS", "").split() if it]
        loader = unittest.defaultTestLoader
        tests = (
            unittest.TestSuite(PlannerTests(it) for it in names)
            if names
            else loader.loadTestsFromTestCase(PlannerTests)
        )
        iface.mainWindow().resize(1280, 720)
        for it in iface.mainWindow().findChildren(QDockWidget):
            it.setVisible(it.objectName() in ("Layers", "altqgis"))
        iface.mainWindow().resizeDocks([plugins["altqgis"].dock], [500], Qt.Horizontal)
        ran = unittest.TextTestRunner(told, verbosity=2).run(tests)
        print("all is well" if ran.wasSuccessful() else "something is wrong", file=told)
    sys.stdout.flush()
    os._exit(0)


try:
    run()
except BaseException:
    (FOLDER / "told").write_text(traceback.format_exc())
    os._exit(1)
