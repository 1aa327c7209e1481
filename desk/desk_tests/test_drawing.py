"""Tests of the desk: drawing, and undoing it."""
import json
import time

from osgeo import ogr
from selenium.webdriver.common.keys import Keys

import maps
from designs import Designs
from desk_tests.support import PlanningTest, attributes, course
from edits import carry_out
from people import Person
from features import Late


class DrawingTests(PlanningTest):
    def test_a_duct_from_chamber_to_chamber_is_drawn_undone_and_done_again(self):
        browser = self.opened()
        store = self.store()
        browser.click("#draw")
        # A few pixels beside the chambers, and a bend between them.
        self.press_at(browser, self.chamber(5), (5, -4))
        self.press_at(browser, (2600020, 1200045))
        self.press_at(browser, self.chamber(10), (-4, 5))
        browser.click("#end-drawing")
        browser.one("#view input[name=dn]").send_keys("125")
        self.assertEqual(["PVC"], [it.get_attribute("value") for it in browser.all("#list-mat option")])
        browser.one("#view input[name=mat]").send_keys("HDPE")
        browser.click("#save")
        browser.says("Drew a new feature of ducts.")
        drawn = [it.number for it in store.list("north", 7) if it.number > 6]
        self.assertEqual(1, len(drawn))
        self.assertEqual({"dn": 125, "mat": "HDPE"}, json.loads(store.get("north", 7, drawn[0])))
        points = ogr.CreateGeometryFromWkb(store.get("north", 107, drawn[0])).GetPoints()
        self.assertEqual(
            (self.chamber(5), self.chamber(10)), (points[0], points[-1]), "it ends in the chambers exactly"
        )
        self.assertEqual(3, len(points))
        self.assertLess(abs(points[1][0] - 2600020) + abs(points[1][1] - 1200045), 1)
        browser.until(lambda: browser.all("path.is-added"))
        browser.click("#undo-step")
        browser.says("Undone: drew ducts")
        self.assertEqual([], list(store.changes("north")))
        browser.until(lambda: not browser.all("path.is-added"))
        self.press_with_control(browser, "y")
        browser.says("Done again: drew ducts")
        self.assertEqual(points, ogr.CreateGeometryFromWkb(store.get("north", 107, drawn[0])).GetPoints())
        self.assertEqual([], browser.faults())

    def test_two_designs_do_not_draw_one_number(self):
        browser, store = self.opened(), self.store()
        for design in ("north", "south", "north"):
            browser.choose_design(design)
            browser.click("#draw")
            browser.run("document.getElementById('draw-layer')")
            self.press_at(browser, self.chamber(9))
            self.press_at(browser, self.chamber(12))
            browser.click("#end-drawing")
            browser.click("#save")
            browser.says("Drew a new feature of ducts.")
        numbers = [it.number for alt in ("north", "south") for it in store.changes(alt) if it.table == 7]
        self.assertEqual((3, 3), (len(numbers), len(set(numbers))))

    def test_a_chamber_is_drawn_by_one_click(self):
        browser, store = self.opened(), self.store()
        browser.run("document.getElementById('draw-layer').value = 8")
        browser.click("#draw")
        self.press_at(browser, (2600060, 1200015))
        browser.one("#view input[name=name]").send_keys("RB-9")
        browser.click("#save")
        browser.says("Drew a new feature of chambers.")
        self.assertEqual(b'{"name":"RB-9"}', store.get("north", 8, 13))

    def test_bends_are_moved_and_snap(self):
        browser, store = self.opened(), self.store()
        browser.find(5)
        browser.click("#whole")
        browser.click("#reshape")
        self.drag(browser, "#bend-0-1", self.chamber(10), (4, 3))
        browser.click("#keep-course")
        browser.says("Moved ducts 5.")
        self.assertEqual(course(self.chamber(5), self.chamber(10)), store.get("north", 107, 5))
        self.assertEqual(attributes(dn=110, mat="PVC"), store.get("north", 7, 5))
        browser.until(lambda: browser.all("path.is-changed"))

    def test_a_line_is_split_near_a_click(self):
        browser, store = self.opened(), self.store()
        browser.find(5)
        browser.click("#whole")
        browser.click("#split")
        middle = (self.chamber(5)[0] + 20, self.chamber(5)[1])
        self.press_at(browser, middle, (0, 3))
        browser.says("Split ducts 5.")
        new = max(it.number for it in store.list("north", 7))
        parts = [ogr.CreateGeometryFromWkb(store.get("north", 107, it)).GetPoints() for it in (5, new)]
        self.assertEqual((self.chamber(5), self.chamber(6)), (parts[0][0], parts[1][-1]))
        self.assertEqual(parts[0][-1], parts[1][0])
        self.assertLess(abs(parts[0][-1][0] - middle[0]), 1)
        self.assertEqual(middle[1], parts[0][-1][1])
        self.assertEqual(store.get("north", 7, 5), store.get("north", 7, new))

    def test_a_feature_is_deleted_and_comes_back(self):
        browser, store = self.opened(), self.store()
        browser.find(5)
        browser.click("#delete")
        browser.confirm()
        browser.says("Deleted ducts 5.")
        self.assertEqual([None, None], list(store.get_many("north", [(7, 5), (107, 5)])))
        browser.until(lambda: browser.all("path.is-removed"))
        self.press_with_control(browser, "z")
        browser.says("Undone: removed ducts 5.")
        self.assertEqual([], list(store.changes("north")))

    def test_what_somebody_has_changed_since_is_not_undone(self):
        browser, other = self.opened(), self.store()
        browser.edit(5, dn=125)
        browser.confirm()
        browser.says("Changed ducts 5.")
        other.put("north", 7, 5, attributes(dn=160, mat="PVC"))
        browser.click("#undo-step")
        browser.says("somebody has changed that since")
        self.assertEqual(attributes(dn=160, mat="PVC"), other.get("north", 7, 5))

    def test_what_is_no_value_or_course_is_refused(self):
        self.serve()
        store = self.store()
        designs, person = Designs(store), Person()
        designs.refresh()
        seen = {"at": "north", "epoch": designs.epoch, "seen": designs.batch, "do": "change"}
        line = {"type": "LineString", "coordinates": [[0, 0], [9, 9]]}
        bad = [{"values": {"dn": "1.5"}}, {"values": {"dn": "x"}}, {"course": {"type": "Point", "coordinates": [1, 2]}}]
        bad += [
            {"course": {"type": "LineString", "coordinates": [[0, 0], [1e39, 0]]}},
            {"course": {"type": "Circle"}},
            {"course": "x"},
        ]
        for it in bad:
            with self.assertRaises(maps.Fault, msg=str(it)):
                carry_out(designs, {**seen, "features": [{"table": 7, "course": line, **it}]}, person)
        with self.assertRaises(maps.Fault):
            carry_out(designs, {**seen, "features": [{"table": 9, "course": line}]}, person)
        self.assertEqual([], list(store.changes("north")))
        # Of a batch with two features one of which is late nothing is made.
        late = {"table": 7, "number": "5", "before": {"attributes": {}, "course": None}, "values": {"dn": "1"}}
        with self.assertRaises(Late) as caught:
            carry_out(designs, {**seen, "features": [{"table": 7, "course": line}, late]}, person)
        self.assertEqual("110", caught.exception.now["7:5"]["attributes"]["dn"])
        self.assertEqual([], list(store.changes("north")))

    def test_an_edit_that_changes_nothing_is_no_step(self):
        self.serve()
        store = self.store()
        designs, person = Designs(store), Person()
        designs.refresh()
        batch = store.batches()

        def change(**values):
            designs.refresh()
            before = designs.feature("north", (7, 5))["now"]
            its = {"table": 7, "number": "5", "before": before, "values": values}
            carry_out(designs, {"at": "north", "do": "change", "features": [its]}, person)

        change(dn="110")
        self.assertEqual((batch, {"undo": {}, "redo": {}}), (store.batches(), person.told()))
        # A field without a value is none that is empty.
        change(dn="125", mat=None)
        self.assertEqual(attributes(dn=125), store.get("north", 7, 5))
        self.assertEqual({"undo": {"north": "changed ducts 5"}, "redo": {}}, person.told())

    def test_a_whole_task_by_keyboard(self):
        browser, store = self.opened(), self.store()

        def go(name):
            for _ in range(120):
                if browser.run("return document.activeElement.id") == name:
                    return
                self.press(browser, Keys.TAB)
            self.fail(f"the tabulator doesn't come to {name}")

        browser.run("document.activeElement.blur()")
        # Find a chamber, and draw a duct from it to where the map is moved by arrows.
        go("find-text")
        self.press(browser, "RB-004701", Keys.ENTER)
        browser.until(lambda: browser.text("#view h3").startswith("chambers 1:"))
        go("draw")
        self.press(browser, Keys.ENTER)
        browser.until(lambda: browser.run("return document.activeElement.id") == "map")
        self.press(browser, Keys.ENTER)
        self.press(browser, Keys.ARROW_RIGHT)
        time.sleep(0.5)
        self.press(browser, Keys.ENTER)
        self.press(browser, "f")
        browser.until(lambda: browser.run("return document.activeElement.name") == "dn")
        self.press(browser, "63", Keys.ENTER)
        browser.says("Drew a new feature of ducts.")
        number = max(it.number for it in store.list("north", 7))
        points = ogr.CreateGeometryFromWkb(store.get("north", 107, number)).GetPoints()
        self.assertEqual(
            (self.chamber(1), 2, {"dn": 63}), (points[0], len(points), json.loads(store.get("north", 7, number)))
        )
        # Move its end by keys, and take both back.
        go("find-number")
        self.press(browser, str(number), Keys.ENTER)
        browser.until(lambda: browser.text("#view h3").startswith(f"ducts {number}:"))
        go("reshape")
        self.press(browser, Keys.ENTER)
        browser.until(lambda: browser.run("return document.activeElement.id") == "bend-0-0")
        self.press(browser, Keys.TAB)
        go("bend-0-1")
        self.press(browser, Keys.ARROW_UP, Keys.ARROW_UP)
        self.press(browser, Keys.ENTER)
        browser.says(f"Moved ducts {number}.")
        moved = ogr.CreateGeometryFromWkb(store.get("north", 107, number)).GetPoints()
        self.assertEqual(points[0], moved[0])
        self.assertGreater(moved[1][1], points[1][1])
        browser.run("document.activeElement.blur()")
        self.press_with_control(browser, "z")
        browser.says("Undone: changed ducts")
        self.press_with_control(browser, "z")
        browser.says("Undone: drew ducts")
        self.assertEqual([], list(store.changes("north")))
        # Post by keys.
        go("do-post")
        self.press(browser, Keys.ENTER)
        browser.until(lambda: browser.all("#question-yes")[0].is_displayed())
        self.press(browser, Keys.ENTER)
        browser.says("Posted north into top.")
