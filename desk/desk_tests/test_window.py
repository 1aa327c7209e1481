"""Tests of the desk: windows of the map, and what is not drawn."""
import contextlib
import gzip
import http.client
import json
import re

import places
from altctl import Store
from designs import Designs
from desk_tests.support import ALTCTL, AskingTest, Counter, DeskTest, attributes, course, duct, layer


class WhatIsNotDrawnTests(AskingTest):
    def fill(self):
        super().fill(12, 16384)
        with Store(self.file, ALTCTL) as store:
            store.put("top", 0, 8, layer("cables"))
            store.put_many("top", ((it[0] + 1, *it[1:]) for number in range(1, 6001) for it in duct(number)))
            store.drop("north")
            store.new("north", "top")
            store.commit()

    def test_each_layer_says_how_much_is_drawn_and_where_the_rest_is(self):
        status, text = self.ask("/api/window?at=north&box=2599000,1199000,2619000,1202000", self.token)
        told = json.loads(text)
        its = {it["name"]: (it["found"], it["drawn"]) for it in told["layers"]}
        self.assertEqual((200, 12, 6000), (status, its["ducts"][0], its["cables"][0]))
        self.assertEqual(3000, its["ducts"][1] + its["cables"][1])
        self.assertEqual(3000, len(told["features"]))
        cells = told["density"]["8"]
        self.assertLess(abs(sum(it[4] for it in cells) - 6000), 600)
        self.assertTrue(all(2599000 <= it[0] < it[2] and it[1] < it[3] for it in cells))
        status, text = self.ask("/api/window?at=north&box=2599000,1199000,2619000,1202000&off=8", self.token)
        self.assertEqual(
            (["ducts"], 12, {}),
            (
                [it["name"] for it in json.loads(text)["layers"]],
                len(json.loads(text)["features"]),
                json.loads(text)["density"],
            ),
        )

    def test_answers_are_compressed(self):
        path = "/api/window?at=north&box=2599000,1199000,2619000,1202000"
        there = http.client.HTTPConnection("127.0.0.1", int(self.port), timeout=60)
        with contextlib.closing(there):
            there.request("GET", path, headers={"X-Desk-Token": self.token, "Accept-Encoding": "gzip"})
            answer = there.getresponse()
            packed = answer.read()
        self.assertEqual("gzip", answer.headers["Content-Encoding"])
        self.assertLess(3 * len(packed), len(gzip.decompress(packed)))


# Whether something is drawn on the canvas of the map.
DRAWN = """const it = document.querySelector('#map canvas');
    return it.getContext('2d').getImageData(0, 0, it.width, it.height).data.some((part) => part);"""


class ManyFeaturesTests(DeskTest):
    """A hundred thousand ducts, and one that is as long as the whole map."""

    COUNT = 100_000

    def fill(self):
        super().fill(self.COUNT, 32768)
        with Store(self.file, ALTCTL) as store:
            store.put("top", 7, self.COUNT + 1, attributes(dn=800))
            store.put("top", 107, self.COUNT + 1, course((2599990, 1199990), (2620000, 1214000)))
            places.renew(store, False)
            store.drop("north")
            store.new("north", "top")
            store.put("north", 7, 777, attributes(dn=50))
            # A duct that comes after the index, beside the first one, and one of the first ones that goes.
            store.put("north", 7, 200_000, attributes(dn=50))
            store.put("north", 107, 200_000, course((2600060, 1200010), (2600085, 1200020)))
            store.remove_many("north", [(7, 302), (107, 302)])
            store.commit()

    def counted(self):
        """How many lines went to the service and back since the last time. The desk asks for its state now and then,
        too."""
        found, self.counter.lines = self.counter.lines, 0
        return found

    def test_what_the_window_shows_is_asked_for(self):
        self.serve()
        self.counter = Counter(f"{self.socket}.counted", self.socket)
        self.addCleanup(self.counter.stop)
        browser = self.browser()
        browser.open(self.desk(f"{self.socket}.counted")[1])
        # Of 200,000 records 3,000 geometries that are drawn are asked for and answered, and 120 pages of the index, and
        # up to as many others where the map finds another size as the page fills. The texts are read ahead once, for
        # finding.
        ask = "const headers = { 'X-Desk-Token': sessionStorage.getItem('token') };"
        ask += "return fetch(arguments[0], { headers }).then((it) => it.json())"
        browser.until(lambda: browser.text("#note"))
        browser.run(ask, "/api/find?at=top&text=800")
        self.assertLess(self.counted(), 13_000 + self.COUNT)
        browser.choose_design("north")
        due = r"3000 of about (\d+) features are drawn: zoom in for the others\."
        count = int(browser.until(lambda: re.fullmatch(due, browser.text("#note")))[1])
        self.assertLess(abs(count - self.COUNT), self.COUNT // 5)
        browser.until(
            lambda: browser.all("path.is-changed") and browser.all("path.is-added") and browser.all("path.is-removed")
        )
        # Those that are as in the base are so many that they are drawn on a canvas.
        self.assertEqual((3, True), (len(browser.all("path.leaflet-interactive")), browser.run(DRAWN)))
        self.assertLess(self.counted(), 10_000)
        browser.click("#view ul li:nth-child(2) button")
        browser.until(lambda: browser.text("#view h3") == "ducts 777: changed")
        browser.until(
            lambda: 1 < len(browser.all("path.leaflet-interactive")) < 300 and not browser.all("#note")[0].text
        )
        # Now a few pages, and the ducts about this one, among them the long one.
        self.assertLess(self.counted(), 800)
        box = [2600000, 1200000, 2600160, 1200060]
        found = browser.run(ask, "/api/window?at=north&box=" + ",".join(map(str, box)))
        status = {it["properties"]["number"]: it["properties"]["status"] for it in found["features"]}
        due = {**{str(it): "same" for it in (1, 2, 301)}, "200000": "added", "302": "removed"}
        self.assertEqual(due, {it: status.get(it) for it in due})
        self.assertLess(self.counted(), 800)

    def test_many_that_lie_elsewhere_let_the_index_be_renewed(self):
        self.serve()
        other = self.store()
        with other.batch():
            for number in range(1, 1202):
                other.put("top", 107, number, course((2600000 + number, 1199000), (2600005 + number, 1199000)))
        designs = Designs(other)
        designs.refresh()
        self.assertEqual(0, len(designs.design("top").moved[7]))
        self.assertEqual({}, places.moved(other, places.OWN, "top", 7))
        # 603 pages of 166 features, and 3 records of the bounds of 250 pages.
        self.assertEqual([(".service", "renew .places 606")], [(it.planner, it.line) for it in other.log(after=1)])
        self.assertEqual(1201, designs.design("top").window((2600000, 1198999, 2601300, 1199001))["found"])
