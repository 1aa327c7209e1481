"""Tests of the desk: the index of places made anew, and what the journal, designs and histories tell of that."""
import os
import pwd
import unittest.mock
from pathlib import Path

import places
from altctl import Refusal, Store
from designs import Designs
from desk_tests.support import ALTCTL, DeskTest, attributes, course
from maps.history import history

ME = pwd.getpwuid(os.geteuid()).pw_name
ELSEWHERE = course((2610000, 1210000), (2610009, 1210009))


class RenewalTests(DeskTest):
    """Twelve ducts in one layer: one page of the index, and one record that has its bounds."""

    def setUp(self):
        super().setUp()
        self.serve()
        self.other = self.store()

    def entries(self, **filters):
        return [(it.batch, it.planner, it.line) for it in self.other.log(**filters)]

    def test_it_is_one_line_of_the_journal_and_of_no_history(self):
        designs = Designs(self.other)
        designs.refresh()
        places.renew(self.other, True)
        # What `top` is when the index is begun is kept first.
        due = [(1, ".service", "renew .places 0"), (2, ".service", "renew .places 2")]
        self.assertEqual(due, self.entries())
        self.other.put("top", 107, 3, ELSEWHERE)
        before = history(self.other, (7, 3))
        self.assertEqual(["edited top"], [it.text for it in before])
        designs.refresh()
        self.assertEqual(1, len(designs.design("top").moved[7]))
        places.renew(self.other, True)
        self.assertEqual([(4, ".service", "renew .places 2")], self.entries(after=3))
        self.assertEqual(before, history(self.other, (7, 3)))
        edit = [(it.batch, it.planner, it.line) for it in self.other.log(last=2)][:1]
        self.assertEqual((3, ME), edit[0][:2])
        for filters in ({"alternative": "top"}, {"record": "107:3"}, {"planner": ME}):
            self.assertEqual(edit, self.entries(**filters), filters)
        self.assertEqual([], list(self.other.checkpoints("top")))
        # A desk that follows the journal looks at the index again, and tells nobody of it.
        designs.refresh()
        self.assertEqual((4, {}), (designs.indexed, designs.design("top").moved[7]))
        self.assertEqual([3], [it.batch for it in designs.news])

    def test_the_checkpoint_that_an_older_desk_has_left_is_removed(self):
        """It is of `top`, and has the index's name. Checkpoints of people stay, and nobody is told of it."""
        designs = Designs(self.other)
        designs.refresh()
        for name in ("before", places.OWN):
            self.other.checkpoint("top", name)
        places.renew(self.other, True)
        self.assertEqual(["before"], list(self.other.checkpoints("top")))
        self.assertEqual((3, f"uncheck top {places.OWN}"), self.entries(planner=ME)[-1][::2])
        places.renew(self.other, True)
        self.assertEqual([".service"], [it[1] for it in self.entries(after=5)])
        designs.refresh()
        self.assertEqual(["checkpoint top before"], [it.line for it in designs.news])

    def changing(self, *changes):
        """The index is renewed, with one of these changes of another planner each time it was looked at."""
        real, due, another = places.packed, list(changes), self.store()

        def packed(*its):
            if due:
                due.pop(0)(another)
            return real(*its)

        with unittest.mock.patch("places.packed", packed):
            places.renew(self.other, True)

    def test_others_change_the_map_meanwhile(self):
        places.renew(self.other, True)
        self.changing(lambda it: it.put("top", 107, 3, ELSEWHERE), lambda it: it.remove_many("top", [(7, 4), (107, 4)]))
        self.assertEqual({}, places.moved(self.other, places.OWN, "top", 7))
        found = places.Index(self.other, 7).window(2600000, 1200000, 2620000, 1220000)
        self.assertEqual([1, 2, 3, 5, 6, 7, 8, 9, 10, 11, 12], sorted(found[0].tolist()))
        self.assertEqual([3], places.Index(self.other, 7).window(2610001, 1210001, 2610002, 1210002)[0].tolist())
        self.assertEqual(["renew .places 2"], [it[2] for it in self.entries(after=2, planner=".service")])

    def test_the_first_one_while_others_change_the_map(self):
        self.changing(lambda it: it.put("top", 107, 3, ELSEWHERE))
        self.assertEqual({}, places.moved(self.other, places.OWN, "top", 7))
        self.assertEqual([3], places.Index(self.other, 7).window(2610001, 1210001, 2610002, 1210002)[0].tolist())

    def test_others_change_the_map_all_the_time(self):
        places.renew(self.other, True)
        before = list(self.other.list(places.OWN))
        with self.assertRaises(Refusal) as refused:
            self.changing(*[lambda it: it.put("top", 7, 5, attributes(dn=50))] * 3)
        self.assertEqual(103, refused.exception.number)
        self.assertEqual(before, list(self.other.list(places.OWN)))

    def test_others_renew_it_meanwhile(self):
        places.renew(self.other, True)

        def renew_elsewhere(it):
            it.put("top", 107, 3, ELSEWHERE)
            places.renew(it, True)

        with self.assertRaises(Refusal) as refused:
            self.changing(renew_elsewhere)
        self.assertEqual((103, True), (refused.exception.number, refused.exception.detail.startswith(".places ")))
        self.assertEqual({}, places.moved(self.other, places.OWN, "top", 7))
        self.assertEqual(["renew .places 2"] * 2, [it[2] for it in self.entries(after=1, planner=".service")])


class RenewalOfFileTests(DeskTest):
    def test_the_checkpoint_that_an_older_desk_has_left_is_removed(self):
        with Store(self.file, ALTCTL) as store:
            store.checkpoint("top", places.OWN)
            store.commit()
            places.renew(store, False)
        with Store(self.file, ALTCTL) as store:
            self.assertEqual([], list(store.checkpoints("top")))
            self.assertEqual(12, len(places.stored(store, 7).numbers))


class RenewalRightsTests(DeskTest):
    def test_it_needs_rights_of_no_other_alternative(self):
        """A checkpoint that an older desk has left stays for those who may change `top`."""
        with Store(self.file, ALTCTL) as store:
            store.checkpoint("top", places.OWN)
            store.commit()
        Path(f"{self.file}.rules").write_text(f'[change]\n".places" = ["{ME}"]\n[drop]\n".places" = ["{ME}"]\n')
        self.serve()
        store = self.store()
        with self.assertRaises(Refusal) as refused:
            store.put("top", 7, 1, attributes(dn=50))
        self.assertEqual(90, refused.exception.number)
        places.renew(store, True)
        places.renew(store, True)
        due = [(1, "renew .places 0"), (2, "renew .places 2"), (3, "renew .places 2")]
        self.assertEqual(due, [(it.batch, it.line) for it in store.log(planner=".service")])
        self.assertEqual([places.OWN], list(store.checkpoints("top")))
