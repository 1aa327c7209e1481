"""Tests of the desk: layers, finding, comparing, history, printing."""
import base64
import json
import os
import re
import time
from pathlib import Path

from selenium.webdriver.common.action_chains import ActionChains
from selenium.webdriver.common.keys import Keys

from altctl import Store
from desk_tests.support import ALTCTL, PlanningTest, attributes, course
from maps.history import history


class LookingTests(PlanningTest):
    def test_layers_styles_and_labels(self):
        browser, store = self.opened(), self.store()
        self.assertEqual(
            ["all 4 here are drawn", "all 12 here are drawn"], [it.text for it in browser.all("#layers small")]
        )
        browser.click("#layer-8")
        browser.until(lambda: browser.all("#layers small")[1].text == "off")
        browser.until(lambda: len(browser.all("#map path.is-same")) == 4)
        browser.click("#layer-8")
        browser.click("#style-7")
        browser.one("#style-by")
        browser.run("""const set = (id, value) => { const it = document.getElementById(id); it.value = value;
            it.dispatchEvent(new Event('input')); it.dispatchEvent(new Event('change')); };
            set('style-colour', '#cc79a7'); set('style-width', 4);
            set('style-pattern', 'dashed'); set('style-by', 'mat');""")
        browser.click("#style-values")
        browser.one("#value-0-colour")
        browser.click("#keep-style")
        browser.says("Kept the style of ducts in north.")
        style = json.loads(store.get("north", 300, 7))
        self.assertEqual(
            ("#cc79a7", 4, "dashed", "mat", ["PVC"]),
            (*[style[it] for it in ("colour", "width", "pattern", "by")], list(style["values"])),
        )
        drawn = "return [...document.querySelectorAll('#map path.is-same')].map((it) => it.getAttribute('stroke'))"
        browser.until(lambda: browser.run(drawn).count("#0072B2") == 4)
        # It is the design's, and comes to top by a post; undone, it is gone.
        self.assertIsNone(store.get("top", 300, 7))
        browser.click("#undo-step")
        browser.says("Undone: the style of ducts.")
        self.assertIsNone(store.get("north", 300, 7))
        browser.until(lambda: "#0072B2" not in browser.run(drawn))
        store.put("north", 300, 8, b'{"label":"name","symbol":"square"}')
        browser.until(lambda: "RB-004712" in [it.text for it in browser.all(".label")])
        browser.until(lambda: len(browser.all("#map .symbol svg rect")) == 12)

    def test_a_style_that_is_none_is_plain(self):
        browser, store = self.opened(), self.store()
        for value in (
            b"x",
            b"[]",
            b'{"colour":"url(http://a/b)","width":"9e9","symbol":7,"values":{"a":3}}',
            b"[" * 3000,
        ):
            store.put("north", 300, 7, value)
            browser.until(lambda: not browser.all("#said.fault"))
        time.sleep(1)
        browser.until(lambda: len(browser.all("#map path.is-same[stroke='#7A828A']")) == 16)

    def test_what_is_found(self):
        browser = self.opened()
        browser.one("#find-text").send_keys("rb-0047", Keys.ENTER)
        self.assertEqual("12 features have “rb-0047”.", browser.text("#found"))
        browser.click("#found-4")
        browser.until(lambda: browser.text("#view h3") == "chambers 5: as in the base")
        # What the design has otherwise, and what it has not.
        store = self.store()
        store.put("north", 8, 5, attributes(name="MH-1"))
        store.remove_many("north", [(8, 6), (108, 6)])
        box = browser.one("#find-text")
        box.clear()
        box.send_keys("RB-004705", Keys.ENTER)
        browser.until(lambda: browser.text("#found") == "0 features have “RB-004705”.")
        box.clear()
        box.send_keys("mh-1", Keys.ENTER)
        browser.until(lambda: browser.text("#view h3") == "chambers 5: changed")
        browser.run("document.getElementById('find-field').value = 'mat'")
        box.clear()
        box.send_keys("110", Keys.ENTER)
        browser.until(lambda: browser.text("#found") == "0 features have “110”.")

    def test_of_several_that_lie_there_one_is_chosen(self):
        browser, store = self.opened(), self.store()
        store.put_many("north", [(7, 50, attributes(dn=1)), (107, 50, course(self.chamber(5), self.chamber(6)))])
        browser.until(lambda: browser.all("path.is-added"))
        self.press_at(browser, (self.chamber(5)[0] + 20, self.chamber(5)[1]), (0, 1))
        browser.until(lambda: len(browser.all("#view li button")) == 2)
        self.assertEqual(
            {"ducts 5: as in the base", "ducts 50: added"}, {it.text for it in browser.all("#view li button")}
        )
        browser.click("#here-1")
        browser.one("#view table")

    def test_scale_and_place(self):
        browser = self.opened()
        x, y = self.pixel(browser, self.chamber(7))
        actions = ActionChains(browser.driver)
        actions.w3c_actions.pointer_action.move_to_location(round(x), round(y))
        actions.perform()
        east, north = map(float, browser.until(lambda: browser.text("#place")).split(","))
        self.assertLess(abs(east - self.chamber(7)[0]) + abs(north - self.chamber(7)[1]), 1)
        # The bar is as long as it says: two chambers that are 40 m apart give the size of a metre.
        pixels = (self.pixel(browser, self.chamber(2))[0] - self.pixel(browser, self.chamber(1))[0]) / 40
        metres = int(browser.text("#scale .bar").split()[0])
        self.assertLess(abs(browser.one("#scale .bar").rect["width"] - metres * pixels), 2)
        number = int(browser.text("#scale span:last-child").replace(",", "").split(":")[1])
        self.assertLess(abs(number * 0.0254 / 96 * pixels - 1), 0.02)
        for _ in range(40):
            self.press(browser, "+")
            browser.run("document.getElementById('map').focus()")
        number = int(browser.text("#scale span:last-child").replace(",", "").split(":")[1])
        self.assertGreaterEqual(number, 200)

    def test_what_is_said_of_a_design(self):
        browser, store = self.opened(), self.store()
        browser.click("#view-about")
        browser.one("#about-title").send_keys("Station road, <b>phase</b> 1")
        browser.one("#about-owner").send_keys("anna")
        browser.run("document.getElementById('about-status').value = 'for approval'")
        browser.one("#about-note").send_keys("Two ducts.")
        browser.click("#about-save")
        browser.says("Kept what is said of north.")
        browser.until(
            lambda: "Station road, <b>phase</b> 1" in browser.text("#tree")
            and "anna, for approval" in browser.text("#tree")
        )
        told = [json.loads(it.value) for it in store.list(".designs", 1)]
        self.assertEqual(
            [
                {
                    "name": "north",
                    "title": "Station road, <b>phase</b> 1",
                    "owner": "anna",
                    "status": "for approval",
                    "note": "Two ducts.",
                }
            ],
            told,
        )
        self.assertNotIn(".designs", browser.text("#tree"))
        self.assertEqual([], list(store.changes("north")))
        # What no desk has written is told as nothing.
        store.put(".designs", 1, 5, b"[" * 3000)
        store.put(".designs", 1, 6, b'{"name":7}')
        browser.choose_design("south")

    def test_two_designs_are_compared(self):
        with Store(self.file, ALTCTL) as store:
            store.put("north", 7, 5, attributes(dn=125, mat="PVC"))
            store.put("south", 107, 6, course(self.chamber(6), self.chamber(11)))
            store.remove_many("south", [(7, 1), (107, 1)])
            store.commit()
        browser = self.opened("south")
        browser.click("#view-compared")
        browser.run("document.getElementById('other').value = 'north'")
        browser.click("#compare")
        self.assertEqual("From north to south: 1 removed, 2 changed.", browser.text("#differences-told"))
        rows = [it.text for it in browser.all("#differences li button")]
        self.assertEqual(
            ["ducts 1: removed (attributes, course)", "ducts 5: changed (attributes)", "ducts 6: changed (course)"],
            rows,
        )
        browser.picture("desk-compared")
        browser.click("#differences li:nth-child(2) button")
        browser.until(lambda: [it.text for it in browser.all("#view thead th")] == ["", "north", "south"])
        self.assertEqual(["125", "110"], [it.text for it in browser.all("#view tbody tr:first-child td")])

    def test_a_link_opens_a_feature(self):
        browser = self.opened()
        browser.find(5)
        browser.until(lambda: "feature=7%3A5" in browser.driver.current_url)
        link = browser.driver.current_url
        self.assertNotIn("token", link)
        browser.driver.get("about:blank")
        browser.driver.get(link)
        browser.until(
            lambda: browser.text("#view h3") == "ducts 5: as in the base"
            and browser.text("#chosen").startswith("north")
        )

    def test_only_batches_that_changed_a_feature_are_its_history(self):
        self.serve()
        store = self.store()
        store.put("south", 7, 2, attributes(dn=1))
        store.post("south")
        store.merge("north")
        store.put("north", 7, 1, attributes(dn=75))
        store.put("north", 7, 1, attributes(dn=75))
        store.new("west", "north")
        store.merge("west")
        store.post("north")
        store.merge("south")
        store.put("top", 107, 1, course((0, 0), (1, 1)))
        told = [it.text for it in history(store, (7, 1))]
        self.assertEqual(["edited top", "merge south", "post north", "edited north"], told)
        told = [it.text for it in history(store, (7, 2))]
        self.assertEqual(["post north", "merge north", "post south", "edited south"][1:], told)

    def test_a_page_is_printed(self):
        browser = self.opened()
        browser.click("#view-print")
        browser.run(
            "document.getElementById('print-scale').value = 500;"
            " document.getElementById('print-title').value = 'Station road'"
        )
        browser.click("#lay-out")
        browser.until(lambda: "1 : 500" in browser.text("#block"))
        self.assertEqual(["ducts", "chambers"], [it.text for it in browser.all("#block li")])
        options = {"preferCSSPageSize": True, "printBackground": True}
        pdf = base64.b64decode(browser.driver.execute_cdp_cmd("Page.printToPDF", options)["data"])
        path = os.path.join(self.folder, "plan.pdf")
        Path(path).write_bytes(pdf)
        self.assertEqual(1, len(re.findall(rb"/Type\s*/Page\b", pdf)), "one page")
        box = re.search(rb"/MediaBox\s*\[\s*0 0 ([0-9.]+) ([0-9.]+)\]", pdf)
        self.assertEqual((842, 595), (round(float(box[1])), round(float(box[2]))), "A4, on its side")
        # On the paper 40 m are 80 mm: by what the page has there, 96 pixels being an inch.
        across = (self.pixel(browser, self.chamber(2))[0] - self.pixel(browser, self.chamber(1))[0]) * 25.4 / 96
        self.assertLess(abs(across - 80), 0.6)
        browser.size(1070, 790)
        browser.run("scrollTo(0, 0)")
        browser.picture("desk-print")
        browser.click("#print-leave")
        browser.until(lambda: browser.all("#tree button")[0].is_displayed())
