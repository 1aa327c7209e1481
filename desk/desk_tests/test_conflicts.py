"""Tests of the desk: conflicts, and a choice for each field."""
import json
import time

from selenium.webdriver.common.keys import Keys

import maps
from altctl import Store
from designs import Designs
from desk_tests.support import ALTCTL, PlanningTest, attributes, course, place
from edits import carry_out
from people import Person


class ConflictTests(PlanningTest):
    def clash(self, **of):
        """Has north and top change ducts and chambers in different ways: of each key what they put, None for
        nothing."""
        with Store(self.file, ALTCTL) as store:
            for alt, records in of.items():
                store.put_many(alt, ((*key, value) for key, value in records.items() if value is not None))
                store.remove_many(alt, (key for key, value in records.items() if value is None))
            store.commit()

    def test_each_field_of_a_feature_has_a_choice_of_its_own(self):
        theirs, mine = (course(self.chamber(5), (2600020, 1200031 + it), self.chamber(6)) for it in (10, 20))
        self.clash(
            top={(7, 5): attributes(dn=160, mat="PE", laid="2020-01-01"), (107, 5): theirs},
            north={(7, 5): attributes(dn=125, mat="HDPE"), (107, 5): mine},
        )
        browser, store = self.opened(), self.store()
        browser.click("#view-conflicts")
        self.assertEqual(["ducts 5: dn, mat, course"], [it.text for it in browser.all("#view legend")])
        rows = [[it.text for it in browser.all(f"#conflict-7\\:5 > table tr:nth-child({row}) td")] for row in (1, 2)]
        self.assertEqual([["110", "160", "125"], ["PVC", "PE", "HDPE"]], [it[-3:] for it in rows])
        self.assertEqual("north and top have both changed these. 3 of 3 have no choice yet.", browser.text("#open"))
        # By keyboard: the first arrow chooses within a row, and the row alone.
        browser.run("document.getElementById('theirs-7:5.dn').focus()")
        self.press(browser, Keys.SPACE)
        browser.run("document.getElementById('theirs-7:5.mat').focus()")
        self.press(browser, Keys.SPACE, Keys.ARROW_RIGHT)
        browser.until(lambda: browser.text("#open").startswith("north and top have both changed these. 1 of 3"))
        browser.click("#do-merge")
        browser.says("1 conflicts have no choice yet.")
        self.assertEqual(
            "",
            browser.run(
                "const nodes = [...document.getElementById('view').childNodes];"
                "return nodes.map((it) => it.nodeType === 3 ? it.data : '').join('')"
            ),
        )
        browser.run("document.querySelector('#view fieldset').scrollIntoView({ block: 'end' })")
        browser.picture("desk-fields")
        browser.click("[id='theirs-7:5.geometry']")
        checked = [it.get_attribute("id") for it in browser.all("fieldset input:checked")]
        self.assertEqual(["theirs-7:5.dn", "mine-7:5.mat", "theirs-7:5.geometry"], checked)
        browser.click("#do-merge")
        browser.confirm()
        browser.says("Merged top into north.")
        names = maps.Fields(maps.layers(store, "north")[7])
        self.assertEqual({"dn": 160, "mat": "HDPE", "laid": "2020-01-01"}, names.named(store.get("north", 7, 5)))
        self.assertEqual(theirs, store.get("north", 107, 5))
        self.assertEqual([], browser.faults())

    def test_all_fields_of_one_feature_by_a_click(self):
        self.clash(
            top={(7, it): attributes(dn=160, mat="PE") for it in (5, 6)},
            north={(7, it): attributes(dn=125, mat="HDPE") for it in (5, 6)},
        )
        browser, store = self.opened(), self.store()
        browser.click("#view-conflicts")
        browser.click("[id='theirs-7:6']")
        self.assertIn("2 of 4 have no choice yet", browser.text("#open"))
        browser.click("[id='mine-7:5']")
        browser.click("#do-merge")
        browser.confirm()
        browser.says("Merged top into north.")
        names = maps.Fields(maps.layers(store, "north")[7])
        found = [names.named(it) for it in store.get_many("north", [(7, 5), (7, 6)])]
        self.assertEqual([{"dn": 125, "mat": "HDPE"}, {"dn": 160, "mat": "PE"}], found)

    def test_a_feature_that_one_side_removed_or_both_added(self):
        here, there = place(2600000, 1200000), place(2600100, 1200000)
        self.clash(
            top={
                (8, 1): attributes(name="moved"),
                (8, 2): None,
                (108, 2): None,
                (8, 99): attributes(name="theirs"),
                (108, 99): there,
            },
            north={
                (8, 1): None,
                (108, 1): None,
                (8, 2): attributes(name="kept"),
                (8, 99): attributes(name="mine"),
                (108, 99): here,
            },
        )
        browser, store = self.opened(), self.store()
        browser.click("#view-conflicts")
        due = ["chambers 1: removed in north", "chambers 2: removed in top", "chambers 99: added by both"]
        self.assertEqual(due, [it.text for it in browser.all("#view legend")])
        self.assertEqual(
            ["mine-8:99", "theirs-8:99", "both-8:99"],
            [it.get_attribute("id") for it in browser.all("#conflict-8\\:99 input")],
        )
        for it in ("theirs-8:1", "mine-8:2", "both-8:99"):
            browser.click(f"[id='{it}']")
        browser.click("#do-merge")
        browser.confirm()
        browser.says("chambers 99 of north is 100 now.")
        names = maps.Fields(maps.layers(store, "north")[8])
        found = [names.named(it) for it in store.get_many("north", [(8, 1), (8, 2), (8, 99), (8, 100)])]
        self.assertEqual(["moved", "kept", "theirs", "mine"], [it["name"] for it in found])
        # What goes together stays together.
        self.assertEqual(
            [place(*self.chamber(1)), place(*self.chamber(2)), there, here],
            list(store.get_many("north", [(108, it) for it in (1, 2, 99, 100)])),
        )
        self.assertEqual([], browser.faults())

    def test_what_others_change_meanwhile_leaves_other_choices(self):
        self.clash(
            top={(7, it): attributes(dn=160, mat="PVC") for it in (5, 6)},
            north={(7, it): attributes(dn=125, mat="PVC") for it in (5, 6)},
        )
        browser, store = self.opened(), self.store()
        browser.click("#view-conflicts")
        browser.click("#all-mine")
        browser.until(lambda: "0 of 2" in browser.text("#open"))
        store.put("top", 7, 6, attributes(dn=200, mat="PVC"))
        browser.until(lambda: "1 of 2" in browser.text("#open"))
        self.assertEqual(["mine-7:5.dn"], [it.get_attribute("id") for it in browser.all("fieldset input:checked")])
        self.assertIn("200", browser.text("#conflict-7\\:6 > table"))

    def test_choices_are_kept_until_they_are_sent(self):
        with Store(self.file, ALTCTL) as store:
            for alt, dn in (("north", 125), ("top", 160)):
                store.put_many(alt, ((7, number, attributes(dn=dn, mat="PVC")) for number in (1, 2)))
            store.commit()
        browser = self.opened()
        browser.click("#view-conflicts")
        # Of a feature's fields those that differ come first, and the others are folded.
        self.assertEqual(["dn"], [it.text for it in browser.all("#conflict-7\\:1 > table th[scope=row]")])
        self.assertEqual("2 need no choice", browser.text("#conflict-7\\:1 summary"))
        browser.click("[id='theirs-7:1.dn']")
        time.sleep(0.5)
        browser.driver.refresh()
        browser.until(lambda: browser.text("#chosen").startswith("north"))
        browser.click("#view-conflicts")
        self.assertEqual(["theirs-7:1.dn"], [it.get_attribute("id") for it in browser.all("fieldset input:checked")])
        browser.click("#next-conflict")
        browser.says("ducts 1: dn")
        browser.click("#next-conflict")
        browser.says("ducts 2: dn")
        browser.click("[id='mine-7:2.dn']")
        browser.click("#do-merge")
        browser.confirm()
        browser.says("Merged top into north.")
        found = [json.loads(it)["dn"] for it in self.store().get_many("north", [(7, 1), (7, 2)])]
        self.assertEqual([160, 125], found)

    def test_of_a_feature_that_both_changed_only_the_same_fields_are_chosen(self):
        bend = course(self.chamber(5), (2600020, 1200041), self.chamber(6))
        with Store(self.file, ALTCTL) as store:
            for alt, values in (("north", dict(dn=125, mat="HDPE")), ("top", dict(dn=110, mat="PE"))):
                store.put(alt, 7, 5, attributes(**values))
            store.put("top", 107, 5, bend)
            # Here each side has changed another field, so there is nothing to choose.
            store.put("north", 7, 6, attributes(dn=125, mat="PVC"))
            store.put("top", 7, 6, attributes(dn=110, mat="PE"))
            store.commit()
        browser, store = self.opened(), self.store()
        browser.click("#view-conflicts")
        self.assertEqual(["ducts 5: mat"], [it.text for it in browser.all("#view legend")])
        self.assertEqual(["mat"], [it.text for it in browser.all("#view fieldset > table th[scope=row]")])
        self.assertEqual(
            "north and top have changed different fields of 1 feature, which a merge joins.", browser.text("#joined")
        )
        browser.until(lambda: len(browser.all("path.is-conflict")) == 1)
        browser.click("[id='theirs-7:5.mat']")
        browser.click("#do-merge")
        browser.confirm()
        browser.says("Merged top into north.")
        names = maps.Fields(maps.layers(store, "north")[7])
        self.assertEqual({"dn": 125, "mat": "PE"}, names.named(store.get("north", 7, 5)))
        self.assertEqual({"dn": 125, "mat": "PE"}, names.named(store.get("north", 7, 6)))
        self.assertEqual(bend, store.get("north", 107, 5))

    def test_a_choice_is_not_kept_for_another_conflict(self):
        with Store(self.file, ALTCTL) as store:
            for alt, dn in (("north", 125), ("top", 160)):
                store.put(alt, 7, 1, attributes(dn=dn, mat="PVC"))
            store.commit()
        self.serve()
        store, other, person = self.store(), self.store(), Person()
        designs = Designs(store)
        designs.refresh()
        seen = {"at": "north", "epoch": designs.epoch, "seen": designs.batch}
        mark = designs.about("north")["conflicts"][0]["clashes"][0]["mark"]
        choose = {**seen, "do": "choose", "choices": {"7:1.dn": {"side": "theirs", "mark": mark}}}
        carry_out(designs, choose, person)
        self.assertEqual({"7:1.dn": "theirs"}, person.chosen("north", designs.design("north")))
        # What else changes of the feature, or elsewhere, lets the choice stay.
        other.put("top", 7, 1, attributes(dn=160, mat="PE"))
        other.put("top", 7, 2, attributes(dn=160, mat="PE"))
        designs.refresh()
        self.assertEqual({"7:1.dn": "theirs"}, person.chosen("north", designs.design("north")))
        other.put("top", 7, 1, attributes(dn=200, mat="PVC"))
        designs.refresh()
        self.assertEqual({}, person.chosen("north", designs.design("north")))
        for it, why in (
            (choose, "7:1.dn has changed meanwhile"),
            ({**seen, "seen": designs.batch, "do": "merge"}, "1 conflicts have no choice"),
        ):
            with self.assertRaisesRegex(maps.Fault, why):
                carry_out(designs, it, person)
