"""Tests of the desk: an edit that comes too late is shown beside the other one, and nothing that was drawn is lost."""
import json

from selenium.webdriver.common.by import By

from desk_tests.support import PlanningTest, attributes, course


class LateTests(PlanningTest):
    def setUp(self):
        super().setUp()
        self.service = self.serve()
        self.page, self.other = self.opened(), self.store()
        self.theirs = course(self.chamber(5), (2600020, 1200045))

    def rows(self):
        rows = self.page.until(lambda: self.page.all("#late tbody tr"))
        return sorted([it.text for it in row.find_elements(By.CSS_SELECTOR, "th, td")] for row in rows)

    def chosen(self):
        its = self.page.all("#late input:checked")
        return {it.get_attribute("name").strip(): it.get_attribute("value") for it in its}

    def drag_end(self):
        """Drags the end of duct 5 to chamber 10, without keeping that."""
        self.page.find(5)
        self.page.click("#whole")
        self.page.click("#reshape")
        self.drag(self.page, "#bend-0-1", self.chamber(10))

    def move_elsewhere(self):
        """Somebody moves the duct, which the page shows."""
        self.other.put("north", 107, 5, self.theirs)
        self.changed(1)

    def changed(self, count):
        """Waits until the page shows that so many records of north are changed."""
        self.page.until(lambda: self.page.text("#tree tr:nth-child(2) td") == str(count))

    def test_each_field_is_shown_beside_the_other(self):
        self.page.edit(5, dn=125)
        self.page.until(lambda: self.page.all("#question-yes")[0].is_displayed())
        self.other.put("north", 7, 5, attributes(dn=110, mat="HDPE"))
        self.page.confirm()
        self.page.says("it has changed meanwhile")
        self.assertEqual([["dn", "110", "110", "125"], ["mat", "PVC", "HDPE", "PVC"]], self.rows())
        self.assertEqual({"dn": "mine", "mat": "theirs"}, self.chosen(), "what one side alone changed is chosen")
        self.page.picture("desk-late")
        self.page.click("#late-save")
        self.page.says("Changed ducts 5.")
        self.assertEqual({"dn": 125, "mat": "HDPE"}, json.loads(self.other.get("north", 7, 5)))
        self.page.until(lambda: not self.page.all("#late form"))

    def test_the_values_that_were_there_are_chosen_again(self):
        """One of them was none."""
        self.page.edit(5, dn=125)
        self.page.until(lambda: self.page.all("#question-yes")[0].is_displayed())
        self.other.put("north", 7, 5, attributes(dn=110, mat="HDPE", laid="2020-01-01"))
        self.page.confirm()
        for name in ("mat", "laid"):
            self.page.click(f"#late input[name={name}][value=mine]")
        self.page.click("#late-save")
        self.page.says("Changed ducts 5.")
        self.assertEqual({"dn": 125, "mat": "PVC"}, json.loads(self.other.get("north", 7, 5)))

    def test_both_have_moved_it(self):
        """Neither course is chosen beforehand, and what was drawn stays on the page while others go on."""
        self.drag_end()
        self.move_elsewhere()
        self.page.click("#keep-course")
        self.page.says("it has changed meanwhile")
        due = [["course", "line, 2 points", "line, 2 points, moved", "line, 2 points, moved"]]
        self.assertEqual((due, {}), (self.rows(), self.chosen()))
        self.other.put("north", 7, 1, attributes(dn=50, mat="PVC"))
        self.changed(2)
        self.page.click("#late-save")
        self.assertEqual(self.theirs, self.other.get("north", 107, 5), "without a choice nothing is sent")
        self.assertEqual(due, self.rows())
        self.page.click("#late input[value=mine]")
        self.page.click("#late-save")
        self.page.says("Changed ducts 5.")
        self.assertEqual(course(self.chamber(5), self.chamber(10)), self.other.get("north", 107, 5))
        self.page.until(lambda: not self.page.all("#late form"))

    def test_the_other_one_was_faster_twice(self):
        self.drag_end()
        self.move_elsewhere()
        self.page.click("#keep-course")
        self.page.click("#late input[value=mine]")
        self.other.put("north", 7, 5, attributes(dn=50, mat="PVC"))
        self.page.click("#late-save")
        self.page.until(lambda: len(self.rows()) == 2)
        moved = "line, 2 points, moved"
        self.assertEqual([["course", moved[:-7], moved[:-7], moved], ["dn", "110", "50", "110"]], self.rows())
        self.assertEqual({"course": "mine", "dn": "theirs"}, self.chosen())
        self.page.click("#late-save")
        self.page.says("Changed ducts 5.")
        self.assertEqual(course(self.chamber(5), self.chamber(10)), self.other.get("north", 107, 5))
        self.assertEqual(attributes(dn=50, mat="PVC"), self.other.get("north", 7, 5))

    def test_what_was_moved_is_left_as_theirs(self):
        self.drag_end()
        self.move_elsewhere()
        self.page.click("#keep-course")
        self.page.click("#late-drop")
        self.page.until(lambda: not self.page.all("#late form") and self.page.all("#reshape:enabled"))
        self.assertEqual(self.theirs, self.other.get("north", 107, 5))

    def test_what_somebody_has_deleted_is_drawn_anew(self):
        self.drag_end()
        self.other.remove_many("north", [(7, 5), (107, 5)])
        self.changed(2)
        self.page.click("#keep-course")
        self.page.says("it has changed meanwhile")
        self.assertIn("Somebody has deleted it. Your edit is not made.", self.page.text("#late"))
        self.page.click("#late-save")
        self.page.says("Drew a new feature of ducts.")
        [new] = [it.number for it in self.other.list("north", 7) if it.number > 6]
        self.assertEqual(attributes(dn=110, mat="PVC"), self.other.get("north", 7, new))
        self.assertEqual(course(self.chamber(5), self.chamber(10)), self.other.get("north", 107, new))
        self.assertIsNone(self.other.get("north", 7, 5))

    def test_what_somebody_has_changed_is_not_deleted(self):
        self.page.find(5)
        self.page.click("#delete")
        self.page.until(lambda: self.page.all("#question-yes")[0].is_displayed())
        self.other.put("north", 7, 5, attributes(dn=50, mat="PVC"))
        self.page.confirm()
        self.page.says("it has changed meanwhile")
        self.assertEqual([["dn", "110", "50"]], self.rows())
        self.assertEqual(attributes(dn=50, mat="PVC"), self.other.get("north", 7, 5))
        self.page.click("#late-save")
        self.page.says("Deleted ducts 5.")
        self.assertEqual([None, None], list(self.other.get_many("north", [(7, 5), (107, 5)])))

    def test_both_have_deleted_it(self):
        self.page.find(5)
        self.page.click("#delete")
        self.page.until(lambda: self.page.all("#question-yes")[0].is_displayed())
        self.other.remove_many("north", [(7, 5), (107, 5)])
        self.page.confirm()
        self.page.until(lambda: "Somebody has deleted it already." in self.page.text("#late"))
        self.assertEqual([], self.page.all("#late-save"))
        self.page.click("#late-drop")
        self.page.until(lambda: self.page.text("#view").startswith("ducts 5: removed"))

    def test_what_could_not_be_sent_is_still_there(self):
        self.drag_end()
        self.service.terminate()
        self.service.wait()
        self.page.click("#keep-course")
        self.page.until(lambda: self.page.all("#said.fault") and self.page.all("#keep-course"))
        self.serve()
        self.page.click("#keep-course")
        self.page.says("Moved ducts 5.")
        self.assertEqual(course(self.chamber(5), self.chamber(10)), self.store().get("north", 107, 5))
