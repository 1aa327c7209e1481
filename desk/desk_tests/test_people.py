"""Tests of the desk: several people at once."""
import random
import signal
import threading
import time

from osgeo import ogr

import maps
from altctl import Refusal, Store
from designs import Designs
from desk_tests.support import ALTCTL, LONGEST_WAIT, DeskTest, PlanningTest, attributes
from edits import carry_out
from people import Person
from webserver import REFUSALS


class TwoPeopleTests(DeskTest):
    def test_they_edit_the_same_duct_settle_and_post(self):
        _, first = self.desk()
        _, second = self.desk(self.socket)
        anna, berta = self.browser(), self.browser()
        anna.open(first)
        berta.open(second)
        anna.choose_design("north")
        berta.choose_design("south")
        anna.edit(5, dn=125)
        anna.confirm()
        anna.says("Changed ducts 5.")
        berta.edit(5, dn=160)
        berta.confirm()
        berta.says("Changed ducts 5.")
        berta.edit(6, mat="HDPE")
        berta.confirm()
        berta.says("Changed ducts 6.")
        berta.until(lambda: len(berta.all("path.is-changed")) == 2)
        self.assertEqual([], berta.all("path.is-conflict"))

        # What is posted comes to the other one, who asked for nothing.
        anna.click("#do-post")
        anna.confirm()
        anna.says("Posted north into top.")
        berta.says("post north", "#news")
        berta.until(lambda: len(berta.all("path.is-conflict")) == 1 and len(berta.all("path.is-changed")) == 1)

        berta.click("#do-merge")
        berta.says("1 conflicts have no choice yet.")
        berta.shows(["110", "125", "160"], "fieldset > table tbody tr:first-child td")
        berta.click("#view fieldset button")
        berta.click("input[value=theirs]")
        berta.until(lambda: berta.all("fieldset input:checked"))
        berta.click("#undo")
        berta.until(lambda: berta.all("fieldset input") and not berta.all("fieldset input:checked"))
        berta.click("input[value=mine]")
        berta.click("#do-merge")
        berta.confirm()
        berta.says("Merged top into south.")
        berta.until(lambda: not berta.all("path.is-conflict"))
        berta.click("#do-post")
        berta.confirm()
        berta.says("Posted south into top.")

        anna.says("post south", "#news")
        anna.choose_design("top")
        anna.find(5)
        anna.shows(["160", "160"], "#view tbody tr:first-child td")
        anna.click("#who")
        history = anna.until(lambda: [it.text for it in anna.all("#history li")])
        # The merge of south has kept its own value, so it changed nothing.
        due = ["post south", "post north", "edited south", "edited north"]
        self.assertEqual(due, [it.split(": ")[1] for it in history])
        self.assertIn("dn: 125 to 160", history[0])
        store = self.store()
        self.assertEqual(attributes(dn=160, mat="PVC"), store.get("top", 7, 5))
        self.assertEqual(attributes(dn=110, mat="HDPE"), store.get("top", 7, 6))
        self.assertEqual([[], []], [anna.faults(), berta.faults()])

    def test_what_somebody_has_changed_meanwhile_is_not_written_over(self):
        _, url = self.desk()
        browser, other = self.browser(), self.store()
        browser.open(url)
        browser.choose_design("north")
        browser.edit(5, dn=125)
        browser.until(lambda: browser.all("#question-yes")[0].is_displayed())
        other.put("north", 7, 5, attributes(dn=50, mat="PVC"))
        browser.confirm()
        browser.says("it has changed meanwhile")
        self.assertEqual(attributes(dn=50, mat="PVC"), other.get("north", 7, 5))

    def test_both_are_closed_in_the_middle_of_a_batch(self):
        service = self.serve()
        desks = [self.desk(), self.desk()]
        browsers = [self.browser(), self.browser()]
        # So much that the half of it waits in the socket while the service stands still.
        for browser, (_, url), alt in zip(browsers, desks, ("north", "south")):
            browser.open(url)
            browser.choose_design(alt)
            browser.find(5)
            browser.click("#edit")
            browser.one("#view input[name=mat]")
            browser.run("document.querySelector('#view input[name=mat]').value = 'x'.repeat(900000)")
            browser.click("#save")
            browser.until(lambda: browser.all("#question-yes")[0].is_displayed())
        before = [(it.table, it.number, it.value) for it in self.store().list("north")]
        service.send_signal(signal.SIGSTOP)
        for browser in browsers:
            browser.click("#question-yes")
        time.sleep(2)
        for browser in browsers:
            browser.quit()
        desks[0][0].kill()
        desks[0][0].wait()
        service.send_signal(signal.SIGCONT)
        store = self.store()
        late = time.monotonic() + LONGEST_WAIT
        while not list(store.changes("south")):
            self.assertLess(time.monotonic(), late)
        # The desk that was killed had sent a part: nothing of it is there. The other one's is there as a whole.
        self.assertEqual(before, [(it.table, it.number, it.value) for it in store.list("north")])
        records = maps.by_key(store.list("south"))
        self.assertEqual(attributes(dn=110, mat="x" * 900000), maps.value_at(records, 7, 5))
        self.assertEqual({"south"}, {it.line.split()[1] for it in store.log()})


class TogetherTests(PlanningTest):
    """Two planners at the same ducts of one design."""

    ROUNDS = 200

    def plan(self, seed, counts, said):
        """One of them: counts ducts up, moves their ends by a metre, draws, and deletes and takes that back."""
        chance, person = random.Random(seed), Person()
        with Store(f"unix:{self.socket}") as store:
            designs = Designs(store)
            for _ in range(self.ROUNDS):
                number, what = chance.choice((1, 2, 5, 6)), chance.choice(("count", "count", "move", "draw", "delete"))
                try:
                    self.act(designs, person, number, what)
                    counts.append((number, what))
                except (maps.Fault, Refusal) as fault:
                    said.append(REFUSALS.get(fault.number) if isinstance(fault, Refusal) else str(fault))

    def act(self, designs, person, number, what):
        designs.refresh()
        now = designs.feature("north", (7, number))["now"]
        if now is None:
            raise maps.Fault("it is deleted just now")
        before = {"table": 7, "number": str(number), "before": now}
        points = (now["course"] or {}).get("coordinates")
        its = {
            "count": lambda: {**before, "values": {"dn": str(int(now["attributes"]["dn"]) + 1)}},
            "move": lambda: {
                **before,
                "course": {"type": "LineString", "coordinates": [points[0], [points[1][0] + 1, points[1][1]]]},
            },
            "draw": lambda: {
                "table": 7, "course": {"type": "LineString", "coordinates": [[0, 0], [1, 1]]},
                "values": {"mat": "drawn"},
            },
            "delete": lambda: {**before, "remove": True},
        }[what]()
        self.carry_out(designs, {"do": "change", "features": [its]}, person)
        if what == "delete":
            self.carry_out(designs, {"do": "undo"}, person)

    @staticmethod
    def carry_out(designs, it, person):
        """As the server does it: tried again if others have changed the design between the look and the batch."""
        for _ in range(1000):
            try:
                return carry_out(designs, {"at": "north", "epoch": designs.epoch, "seen": designs.batch, **it}, person)
            except Refusal as refusal:
                if refusal.number != 103:
                    raise
                designs.refresh()
        raise AssertionError("it never came to an end")

    def test_nothing_is_lost_and_each_refusal_says_why(self):
        self.serve()
        counts, said = [], []
        both = [threading.Thread(target=self.plan, args=(seed, counts, said)) for seed in (1, 2)]
        for it in both:
            it.start()
        for it in both:
            it.join()
        store = self.store()
        self.assertGreater(len(counts), self.ROUNDS)
        self.assertEqual(2 * self.ROUNDS, len(counts) + len(said))
        self.assertTrue(all(said), said)
        layer = maps.layers(store, "north")[7]
        found = {it.number: maps.Fields(layer).named(it.value) for it in store.list("north", 7)}
        for number in (1, 2, 5, 6):
            self.assertEqual(110 + counts.count((number, "count")), found[number]["dn"], number)
            end = ogr.CreateGeometryFromWkb(store.get("north", 107, number)).GetPoints()[-1]
            self.assertEqual(
                (self.chamber(number + 1)[0] + counts.count((number, "move")), self.chamber(number + 1)[1]), end
            )
        drawn = sum(what == "draw" for _, what in counts)
        self.assertEqual(drawn, sum(it.get("mat") == "drawn" for it in found.values()))
        self.assertEqual(4 + drawn, len(found))


class UnseenTests(DeskTest):
    """What came since a person looked is not written over."""

    def test_after_a_line_that_was_refused(self):
        browser, other = self.browser(), None
        browser.open(self.desk()[1])
        other = self.store()
        browser.choose_design("north")
        with self.assertRaises(Refusal):
            other.put("nowhere", 7, 1, b"x")
        time.sleep(3)  # A desk that looks now must not take the refused line for a batch.
        browser.click("#do-drop")
        browser.until(lambda: browser.all("#question-yes")[0].is_displayed())
        other.put("north", 7, 5, attributes(dn=50, mat="PVC"))
        browser.confirm()
        browser.says("north or its parent has changed meanwhile: look at it again")
        self.assertEqual(attributes(dn=50, mat="PVC"), other.get("north", 7, 5))

    def test_between_the_look_and_the_batch(self):
        self.serve()
        store, other = self.store(), self.store()
        other.put("north", 7, 4, attributes(dn=50, mat="PVC"))
        other.checkpoint("north", "before")
        designs = Designs(store)
        designs.refresh()
        designs.design("north")
        seen = {"at": "north", "epoch": designs.epoch, "seen": designs.batch}
        other.put("north", 7, 5, attributes(dn=50, mat="PVC"))
        before = {it: designs.feature("north", (7, 6))["now"][it] for it in ("attributes", "course")}
        edit = {"features": [{"before": before, "values": {"dn": "75"}, "table": 7, "number": "6"}]}
        wanted = [{"do": "drop"}, {"do": "back", "name": "before"}, {"do": "post"}, {"do": "merge", "choices": {}}]
        wanted += [{"do": "change", **edit}, {"do": "take-back", "table": 7, "number": "4"}]
        person = Person()
        for it in wanted:
            with self.assertRaises(Refusal, msg=str(it)) as caught:
                carry_out(designs, {**seen, **it}, person)
            self.assertEqual(103, caught.exception.number, it)
        self.assertEqual(attributes(dn=50, mat="PVC"), other.get("north", 7, 5))
        designs.refresh()
        for it in wanted[:4]:
            with self.assertRaises(maps.Fault, msg=str(it)):
                carry_out(designs, {**seen, **it}, person)
        carry_out(designs, {**seen, **wanted[4]}, person)  # Another feature has changed, and not this one.
        self.assertEqual(attributes(dn=75, mat="PVC"), other.get("north", 7, 6))
        self.assertEqual(attributes(dn=50, mat="PVC"), other.get("north", 7, 5))

    def test_a_store_that_was_worked_on_without_a_service(self):
        service = self.serve()
        browser = self.browser()
        browser.open(self.desk(self.socket)[1])
        browser.choose_design("north")
        browser.click("#do-drop")
        browser.until(lambda: browser.all("#question-yes")[0].is_displayed())
        service.terminate()
        service.wait()
        with Store(self.file, ALTCTL) as store:
            store.put("north", 7, 5, attributes(dn=50, mat="PVC"))
            store.commit()
        self.serve()
        browser.confirm()
        browser.until(lambda: browser.all("#said.fault"))
        self.assertEqual(attributes(dn=50, mat="PVC"), self.store().get("north", 7, 5))
