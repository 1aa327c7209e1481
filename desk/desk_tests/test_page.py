"""Tests of the desk: the page as a whole, by mouse, by keyboard, on a small screen."""
import json

from selenium.webdriver.common.action_chains import ActionChains
from selenium.webdriver.common.keys import Keys

import maps
from altctl import Store
from desk_tests.support import ALTCTL, DeskTest, attributes, course, duct


class PageTests(DeskTest):
    def conflict(self):
        """Has duct 5 in conflict between north and top, duct 2 changed, 3 removed and 20 added in north, and a
        checkpoint there."""
        with Store(self.file, ALTCTL) as store:
            store.put("north", 7, 5, attributes(dn=125, mat="PVC"))
            store.put("north", 107, 2, course((2600060, 1200000), (2600085, 1200020), (2600110, 1200000)))
            store.checkpoint("north", "before")
            store.remove_many("north", [(7, 3), (107, 3)])
            store.put_many("north", duct(20))
            store.put("top", 7, 5, attributes(dn=160, mat="PVC"))
            store.commit()

    def opened(self, *size):
        self.conflict()
        browser = self.browser(*size)
        browser.open(self.desk()[1])
        browser.choose_design("north")
        return browser

    def test_each_state_has_a_colour_and_a_pattern_of_its_own(self):
        browser = self.opened()
        browser.click("#whole")
        browser.until(lambda: browser.all("path.is-added"))
        script = "return [...document.querySelectorAll('#map path')]"
        script += ".map(it => [it.getAttribute('class').match(/is-(\\w+)/)[1], "
        script += (
            "it.getAttribute('stroke'), it.getAttribute('stroke-width') + ' ' + it.getAttribute('stroke-dasharray')])"
        )
        found = [tuple(it) for it in browser.run(script)]
        states = dict.fromkeys(["added", "changed", "removed", "conflict"], 1)
        self.assertEqual({**states, "same": 13 - 4}, {it: [name for name, *_ in found].count(it) for it, *_ in found})
        for at in (1, 2):
            self.assertEqual(5, len({it[at] for it in found}))
        # Of the colours of Okabe and Ito, and a grey.
        self.assertEqual({"#009E73", "#0072B2", "#000000", "#D55E00", "#7A828A"}, {it[1] for it in found})
        legend = [it.get_attribute("stroke") for it in browser.all("#legend line")]
        self.assertEqual({it[1] for it in found}, set(legend))

    def test_a_change_of_a_feature_is_undone(self):
        browser, store = self.opened(), self.store()
        numbers = {it.number for it in store.changes("north")}
        self.assertGreater(len(numbers), 3)
        for number in sorted(numbers):  # Some are added, some changed, some removed, and one is in conflict.
            browser.find(number)
            browser.click("#take-back")
            browser.confirm()
            browser.says(f"ducts {number} is as in the base.")
        self.assertEqual([], list(store.changes("north")))
        browser.until(lambda: not browser.all("path.is-added, path.is-changed, path.is-removed, path.is-conflict"))
        self.assertEqual(maps.by_key(store.list("north@")), maps.by_key(store.list("north")))

    def test_a_click_on_the_map_shows_a_feature(self):
        browser = self.opened()
        script = """const path = document.querySelector('path.is-changed'), box = path.getBoundingClientRect();
            const at = path.getPointAtLength(path.getTotalLength() / 4).matrixTransform(path.getScreenCTM());
            return [at.x, at.y]"""
        browser.until(lambda: browser.all("path.is-changed"))
        x, y = browser.run(script)
        actions = ActionChains(browser.driver)
        actions.w3c_actions.pointer_action.move_to_location(round(x), round(y)).click()
        actions.perform()
        self.assertEqual("ducts 2: changed", browser.text("#view h3"))

    def test_checkpoints_designs_and_drops(self):
        browser = self.opened()
        browser.click("#do-checkpoint")
        browser.confirm("a b")
        self.assertTrue(browser.one("#question").get_attribute("open"), "a name with a space is not sent")
        browser.click("#question-no")
        browser.click("#do-checkpoint")
        browser.confirm("after")
        browser.says("Made the checkpoint after.")
        browser.click("#do-back")
        browser.confirm("before")
        browser.says("north is as at the checkpoint before.")
        store = self.store()
        self.assertEqual({(7, 5), (107, 2)}, {(it.table, it.number) for it in store.changes("north")})
        browser.until(lambda: not browser.all("path.is-added") and not browser.all("path.is-removed"))
        browser.click("#do-new")
        browser.confirm("variant")
        browser.until(lambda: browser.text("#chosen").startswith("variant,"))
        browser.click("#do-drop")
        browser.click("#question-no")
        self.assertIn("variant", [it.name for it in store.alternatives()])
        browser.click("#do-drop")
        browser.confirm()
        browser.says("Dropped variant.")
        browser.until(lambda: browser.text("#chosen").startswith("top,"))
        self.assertCountEqual(["top", "north", "south", ".service"], [it.name for it in store.alternatives()])

    def test_what_was_not_seen_is_not_posted(self):
        browser = self.opened()
        browser.choose_design("south")
        browser.click("#do-merge")
        browser.until(lambda: browser.all("#question-yes")[0].is_displayed())
        self.store().put("top", 7, 1, attributes(dn=50, mat="PVC"))
        browser.confirm()
        browser.says("south or its parent has changed meanwhile: look at it again")
        self.assertEqual(attributes(dn=110, mat="PVC"), self.store().get("south", 7, 1))

    def test_fields_may_be_named_as_what_every_object_has(self):
        fields = [{"name": it, "type": "String"} for it in ("dn", "constructor", "toString", "__proto__")]
        given = {"name": "ducts", "crs": "EPSG:2056", "geometry": "Line String", "fields": fields, "id": None}
        with Store(self.file, ALTCTL) as store:
            store.put("north", 0, 7, maps.to_text(given).encode())
            store.put("north", 7, 6, b'{"__proto__":"mine","dn":"110"}')
            store.commit()
        browser = self.browser()
        browser.open(self.desk()[1])
        browser.choose_design("north")
        browser.edit(6, dn=125)
        browser.confirm()
        browser.says("Changed ducts 6.")
        browser.shows(["dn", "constructor", "toString", "__proto__", "mat", "course"], "#view tbody th")
        browser.shows(["125", "–", "–", "mine", "–", "line, 3 points"], "#view tbody td:last-child")
        self.assertEqual(b'{"__proto__":"mine","dn":"125"}', self.store().get("north", 7, 6))

    def test_more_conflicts_than_are_shown(self):
        with Store(self.file, ALTCTL) as store:
            for alt, dn in (("top", 50), ("south", 75)):
                store.put_many(alt, ((7, number, attributes(dn=dn)) for number in range(200, 303)))
            store.commit()
        browser = self.browser()
        browser.open(self.desk()[1])
        browser.choose_design("south")
        browser.click("#view-conflicts")
        self.assertEqual("3 more conflicts, which are not shown", browser.one("fieldset:last-of-type legend").text)
        browser.click("#all-mine")
        browser.run("document.getElementById('theirs-7:201').click(); document.getElementById('theirs-rest').click()")
        browser.click("#do-merge")
        browser.confirm()
        browser.says("Merged top into south.")
        records = maps.by_key(self.store().list("south"))
        found = {it: json.loads(records[7, it])["dn"] for it in range(200, 303)}
        self.assertEqual({it: 50 if it in (201, 300, 301, 302) else 75 for it in range(200, 303)}, found)

    def test_on_a_small_screen(self):
        browser = self.opened(375, 667)
        self.assertLessEqual(browser.run("return document.documentElement.scrollWidth"), 375)
        browser.click("#do-merge")
        browser.click("input[value=theirs]")
        self.assertLessEqual(browser.run("return document.documentElement.scrollWidth"), 375)
        small = (
            "return [...document.querySelectorAll('button')]"
            ".filter(it => it.offsetHeight && it.offsetHeight < 40).length"
        )
        self.assertEqual(0, browser.run(small))
        browser.run("document.querySelector('#panel').scrollIntoView()")
        browser.picture("desk-small")
        browser.click("#do-merge")
        browser.confirm()
        browser.says("Merged top into north.")
        self.assertEqual(attributes(dn=160, mat="PVC"), self.store().get("north", 7, 5))

    def test_by_keyboard_alone(self):
        browser = self.opened()

        def press(*keys):
            ActionChains(browser.driver).send_keys(*keys).perform()

        def go(name):
            """Presses the tabulator until the focus is there."""
            for _ in range(80):
                if browser.run("return document.activeElement.id") == name:
                    return
                press(Keys.TAB)
            self.fail(f"the tabulator doesn't come to {name}")

        browser.run("document.activeElement.blur()")
        go("design-north")
        press(Keys.ENTER)
        go("find-number")
        press("6", Keys.ENTER)
        browser.until(lambda: browser.text("#view h3").startswith("ducts 6:"))
        go("edit")
        press(Keys.ENTER)
        browser.until(lambda: browser.run("return document.activeElement.name") == "dn")
        ActionChains(browser.driver).key_down(Keys.CONTROL).send_keys("a").key_up(Keys.CONTROL).perform()
        press("75", Keys.ENTER)
        browser.until(lambda: browser.all("#question-yes")[0].is_displayed())
        press(Keys.ENTER)
        browser.says("Changed ducts 6.")
        go("view-conflicts")
        press(Keys.ENTER)
        browser.one("fieldset")
        go("theirs-7:5.dn")
        press(Keys.ARROW_RIGHT)
        browser.until(lambda: browser.one("input[value=mine]").is_selected())
        go("do-merge")
        press(Keys.ENTER)
        browser.until(lambda: browser.all("#question-yes")[0].is_displayed())
        press(Keys.ENTER)
        browser.says("Merged top into north.")
        store = self.store()
        self.assertEqual(attributes(dn=75, mat="PVC"), store.get("north", 7, 6))
        self.assertEqual(attributes(dn=125, mat="PVC"), store.get("north", 7, 5))
        self.assertEqual([], list(store.conflicts("north")))
        # Escape is a no.
        go("do-post")
        press(Keys.ENTER)
        browser.until(lambda: browser.all("#question-yes")[0].is_displayed())
        press(Keys.ESCAPE)
        self.assertEqual(attributes(dn=160, mat="PVC"), store.get("top", 7, 5))

    def test_screen_readers_are_told_what_is_what(self):
        browser = self.opened()
        browser.click("#view-conflicts")
        browser.one("fieldset")
        for it in browser.all("button, input, select, [role=region], [role=group], section, fieldset"):
            if it.is_displayed():
                self.assertTrue(it.accessible_name.strip(), it.get_attribute("outerHTML")[:200])
        self.assertEqual("status", browser.one("#said").aria_role)
        self.assertEqual("dn as in north: 125", browser.one("#view input[value=mine]").accessible_name)
        self.assertEqual("en", browser.one("html").get_attribute("lang"))

    def test_records_that_are_no_map_are_shown(self):
        with Store(self.file, ALTCTL) as store:
            store.remove("top", 0, 7)
            store.put("top", 9, 18446744073709551615, b"\xff<b>")
            store.put("south", 9, 18446744073709551615, b"pipe")
            store.commit()
        browser = self.browser()
        browser.driver.get(self.desk()[1])
        browser.choose_design("south")
        browser.click("#view-conflicts")
        self.assertEqual("table 9 18446744073709551615: record", browser.text("legend"))
        self.assertEqual(["removed", "\\xff<b>", "pipe"], [it.text for it in browser.all("fieldset tbody td")])
        browser.click("#all-mine")
        browser.click("#do-merge")
        browser.confirm()
        browser.says("Merged top into south.")
        self.assertEqual(b"pipe", self.store().get("south", 9, 18446744073709551615))
