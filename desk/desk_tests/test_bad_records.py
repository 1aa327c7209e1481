"""Tests of the desk: bad records."""
import json
import struct

import places
from altctl import Store
from desk_tests.support import ALTCTL, AskingTest, course


class BadRecordTests(AskingTest):
    """Records that nobody has made with a map in mind: the desk goes on, and shows them as bad."""

    GOOD = 5
    BAD = {
        1: course((2600000, 1200000), (float("nan"), 1200010), (2600050, 1200000)),
        2: course((2600000, 1200000), (1e39, 1200010)),
        3: course((-1e39, -1e39), (2600050, 1200000)),
        4: b"long 2000000000000 0",
        6: b"long x y",
        7: b"long 9000 18446744073709551615",
        8: b"\x01\x02",
        9: course((2600000, float("inf")), (2600050, 1200000)),
    }

    def fill(self):
        super().fill()
        with Store(self.file, ALTCTL) as store:
            for number, value in self.BAD.items():
                store.put("north", 107, number, value)
            store.put("north", 7, 4, b"long 5000000 77")
            store.put("north", 7, 6, b"[" * 3900)
            store.put("north", 0, 8, b'{"name": 8, "fields": "none"}')
            store.put("north", 0, 9, b"long x y")
            store.commit()

    def found(self, path):
        def no_number(text):
            raise AssertionError(f"{path} tells {text}, which is no JSON")

        status, text = self.ask(f"/api/{path}", self.token)
        self.assertEqual(200, status, text)
        return json.loads(text, parse_constant=no_number)

    def shows_all(self):
        for number in self.BAD:
            now = self.found(f"feature?at=north&table=7&number={number}")["now"]
            self.assertEqual((None, True), (now["course"], bool(now["bad"])), number)
        good = self.found("feature?at=north&table=7&number=5")["now"]
        self.assertEqual(({"dn": "110", "mat": "PVC"}, []), (good["attributes"], good["bad"]))
        window = self.found("window?at=north&box=2599000,1199000,2602000,1201000")["features"]
        self.assertEqual(
            {"5", "10", "11", "12"},
            {it["properties"]["number"] for it in window if it["geometry"]} - {*map(str, self.BAD)},
        )
        bounds = self.found("design?at=north")["bounds"]
        self.assertTrue(2599000 < bounds[0] < bounds[2] < 2602000, bounds)

    def test_the_desk_goes_on(self):
        self.shows_all()
        # They come to top, and into an index that somebody has spoilt.
        store = self.store()
        store.post("north")
        places.renew(store, True)
        store.put(places.OWN, 65107, 0, b"no page of an index")
        store.put(places.OWN, 65007, 1, struct.pack("<Q4f", 5, *[float("nan")] * 4) + b"and more")
        self.found("window?at=north&box=2599000,1199000,2602000,1201000")
        store.drop(places.OWN)
        self.shows_all()

    def test_a_bad_record_is_shown_as_bad(self):
        browser = self.browser()
        browser.open(f"http://127.0.0.1:{self.port}/#token={self.token}")
        browser.choose_design("north")
        browser.find(1)
        self.assertIn(
            "bad: its course cannot be drawn: it has a coordinate that is not finite", browser.text("#view tbody")
        )
        browser.find(4)
        self.assertIn("bad: 7:4 is no head of a longer value", browser.text("#view tbody"))
        self.assertEqual([], browser.faults())
