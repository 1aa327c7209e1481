#!/usr/bin/env python3
"""Tests of `altcarry` over real stores, with the program's path in the variable ALTCTL, or else with the one that
`./altctl` at the top builds. `tools/faults/travels.py` tries it over a bad link."""
import contextlib
import getpass
import importlib.util
import itertools
import json
import os
import shutil
import socket
import subprocess
import sys
import tempfile
import time
import unittest
import unittest.mock
from pathlib import Path

sys.dont_write_bytecode = True
HERE = Path(__file__).resolve().parent
sys.path.insert(0, str(HERE))
ALTCTL = os.environ["ALTCTL"] = os.path.abspath(os.environ.get("ALTCTL", HERE.parent / "altctl"))
import carry
from altctl import Ended, Refusal, Store
from carry import batch, cloning, pulling, pushing, ranges, status
from carry.links import Fault, Link, ssh_words
from carry.pair import Pair

ALTSERVE, ALTCARRY = str(HERE / "altserve"), str(HERE / "altcarry")
ODD = bytes(range(256))


class CarryTest(unittest.TestCase):
    def setUp(self):
        folder = tempfile.TemporaryDirectory()
        self.addCleanup(folder.cleanup)
        self.folder = folder.name
        self.head, self.field = f"{self.folder}/head.alt", f"{self.folder}/field.alt"
        self.services = {}
        self.create(self.head)
        self.do(
            self.head,
            "put top 7 1 duct",
            "put top 7 2 pipe",
            "put top 107 1 line",
            "new north top",
            "put north 7 1 cable",
        )

    def create(self, file):
        subprocess.run([ALTCTL, "create", file, "1024"], check=True, stdout=subprocess.DEVNULL)

    def do(self, file, *lines):
        """The answers to lines, committed if none is refused."""
        ran = subprocess.run(
            [ALTCTL, "do", "--strict", file, *lines, "commit"], stdout=subprocess.PIPE, text=True, timeout=60
        )
        self.assertEqual(0, ran.returncode, ran.stdout)
        return ran.stdout.splitlines()[:-1]

    def ask(self, file, line):
        return self.do(file, line)

    def records(self, file, at):
        """A version's records, as a dict from `TABLE:NUMBER`."""
        rows = [it.split() for it in self.ask(file, f"list {at}")[:-1]]
        return {f"{it[1]}:{it[2]}": it[3] for it in rows}

    def designs(self, file):
        return {it.split()[1]: it.split()[2] for it in self.ask(file, "alts")[:-1] if not it.split()[1].startswith(".")}

    def carry(self, *words, status=0, **variables):
        """Runs the tool, and gives what it says."""
        how = {"stdout": subprocess.PIPE, "stderr": subprocess.STDOUT, "text": True, "timeout": 120}
        ran = subprocess.run([sys.executable, ALTCARRY, *words], env={**os.environ, **variables}, **how)
        self.assertEqual(status, ran.returncode, ran.stdout)
        return ran.stdout

    def clone(self, *designs, file=None, office="anna", **how):
        return self.carry("clone", self.head, file or self.field, *designs, "--office", office, **how)

    def assert_same(self, design, field=None):
        """Whether a design has the same records and the same changes in both stores."""
        for at in (design, f"{design}@"):
            self.assertEqual(self.records(self.head, at), self.records(field or self.field, at), at)

    def own_names(self, file):
        """The names that the tool keeps in a store."""
        alts = [it.split()[1] for it in self.ask(file, "alts")[:-1]]
        checks = [f"{alt}@{it.split()[1]}" for alt in alts for it in self.ask(file, f"checks {alt}")[:-1]]
        return [it for it in alts if it.startswith(".")] + [it for it in checks if "@." in it or it.startswith(".")]

    def serve(self, file):
        """Starts a service, and gives the path of its socket."""
        words = [sys.executable, ALTSERVE, "--program", ALTCTL, file]
        self.services[file] = subprocess.Popen(words, stderr=subprocess.DEVNULL)
        self.addCleanup(self.stop, file)
        late = time.monotonic() + 60
        while not carry.links.serves(f"{file}.sock"):
            self.assertLess(time.monotonic(), late)
            time.sleep(0.01)
        return f"{file}.sock"

    def stop(self, file):
        service = self.services.pop(file, None)
        if service:
            service.terminate()
            service.wait(60)


class CloneTests(CarryTest):
    def test_a_clone_has_top_and_its_designs_with_their_bases(self):
        self.do(
            self.head, "put top 7 3 hose", "new wide north", "put wide 7 4 -", "put north 7 9 late", "remove top 7 2"
        )
        self.clone("wide")
        self.assertEqual({"top": "~", "north": "top", "wide": "north"}, self.designs(self.field))
        for it in ("top", "north", "wide"):
            self.assert_same(it)
        self.assertEqual({"7:1": "cable", "7:2": "pipe", "7:4": "-", "107:1": "line"}, self.records(self.field, "wide"))
        self.assertEqual({"7:1": "duct", "7:2": "pipe", "107:1": "line"}, self.records(self.field, "north@"))

    def test_values_of_all_bytes_and_lengths_travel(self):
        values = {
            (0, 0): b"",
            (65535, 2**64 - 1): b"-",
            (7, 5): ODD * 15,
            (7, 6): b"\x00" * 4000,
            (7, 7): b"~",
            (8, 1): b"%25",
        }
        with Store(self.head, ALTCTL) as store:
            store.put_many("top", [(*key, value) for key, value in values.items()])
            store.commit()
        self.clone()
        with Store(self.field, ALTCTL) as store:
            self.assertEqual(values, {key: store.get("top", *key) for key in values})
            store.new("mine", "top")
            store.put("mine", 7, 5, ODD[::-1] * 15)
            store.remove("mine", 7, 6)
            store.commit()
        self.carry("push", self.field, "mine")
        with Store(self.head, ALTCTL) as store:
            self.assertEqual([ODD[::-1] * 15, None], list(store.get_many("mine", [(7, 5), (7, 6)])))

    def test_many_records_come_in_pages_and_an_interrupted_clone_goes_on(self):
        with Store(self.head, ALTCTL, grow=True) as store:
            store.put_many("top", ((table, number, b"x%d" % number) for table in (7, 9, 107) for number in range(100)))
            store.commit()
        pages = itertools.count()

        def page(made, *words):
            if next(pages) == 3:
                raise Ended(0, "cut")
            return whole_page(made, *words)

        whole_page = cloning.Clone._page
        said = []
        with unittest.mock.patch.multiple(cloning, PAGE=40), Link(self.head) as head:
            with unittest.mock.patch.object(cloning.Clone, "_page", page), self.assertRaises(Ended):
                cloning.Clone(head, self.field, "anna", [], said.append).make()
            self.assertFalse(os.path.exists(self.field))
            cloning.Clone(head, self.field, "anna", [], said.append).make()
        self.assertEqual(["goes on where it was interrupted"], said)
        self.assertFalse(os.path.exists(f"{self.field}.part"))
        self.assert_same("top")
        self.assertEqual(300, len(self.records(self.field, "top")))
        self.assertIn("same", self.carry("status", self.field))

    def test_a_clone_of_some_tables_has_these_and_pushes_these(self):
        self.do(self.head, "put top 8 1 valve", "put top 8 2 tap", "put north 8 1 north")
        self.clone("north", file=self.field, **{})
        os.unlink(self.field)
        self.carry("forget", self.head, "--office", "anna")
        self.carry("clone", self.head, self.field, "north", "--office", "anna", "--table", "7", "--table", "107")
        self.assertEqual({"7:1": "duct", "7:2": "pipe", "107:1": "line"}, self.records(self.field, "top"))
        self.assertEqual({"7:1": "cable", "7:2": "pipe", "107:1": "line"}, self.records(self.field, "north"))
        self.do(self.field, "put north 7 2 wide", "remove north 107 1")
        self.carry("push", self.field, "north")
        due = {"7:1": "cable", "7:2": "wide", "8:1": "north"}
        self.assertEqual(due, self.records(self.head, "north"))
        self.do(self.head, "put top 8 1 other", "put top 7 3 new")
        self.carry("pull", self.field)
        self.assertEqual({"7:1": "duct", "7:2": "pipe", "7:3": "new", "107:1": "line"}, self.records(self.field, "top"))
        self.do(self.field, "put north 8 1 x")
        self.assertIn(
            "8:1 is in a table that this clone does not have", self.carry("push", self.field, "north", status=1)
        )
        self.assertEqual(due, self.records(self.head, "north"))

    def test_a_merged_design_of_some_tables_is_settled_only_there(self):
        self.do(self.head, "put top 8 1 valve", "merge north", "post north", "put north 7 1 mine")
        self.carry("clone", self.head, self.field, "north", "--office", "anna", "--table", "7")
        self.do(self.head, "put top 7 1 theirs", "put top 8 2 new")
        self.carry("pull", self.field)
        self.do(self.field, "merge north all=mine")
        self.carry("push", self.field, "north")
        self.assertEqual(["tally 1 0 0 yes"], self.ask(self.head, "tally north"))
        self.assertEqual(
            {"7:1": "mine", "7:2": "pipe", "8:1": "valve", "8:2": "new", "107:1": "line"},
            self.records(self.head, "north"),
        )

    def test_what_cannot_be_cloned_is_told(self):
        Path(self.field).write_text("mine")
        self.assertIn("is there already", self.clone(status=1))
        self.assertEqual("mine", Path(self.field).read_text())
        os.unlink(self.field)
        for name in ("", "a b", "x" * 16, ".x"):
            self.assertIn("an office's name has", self.clone(office=name, status=1))
        self.clone()
        self.assertIn("HEAD has an office anna already", self.clone(file=f"{self.folder}/two.alt", status=1))
        self.assertIn("HEAD has no design south", self.carry("pull", self.field, "south", status=1))
        self.assertIn("this store is no clone", self.carry("pull", self.head, status=1))

    def test_a_clone_that_was_made_gets_the_designs_that_are_asked_for_again(self):
        self.assertIn("HEAD has no design norht", self.clone("norht", status=1))
        self.assertIn("north: new here", self.clone("north"))
        self.assert_same("north")
        self.assertIn("is there already", self.clone("north", office="berta", status=1))

    def test_a_forgotten_office_leaves_nothing_at_head(self):
        self.clone("north")
        self.carry("forget", self.head, "--office", "anna")
        self.assertEqual([], self.own_names(self.head))
        self.assertIn("HEAD knows no office anna", self.carry("pull", self.field, status=1))
        self.clone(file=f"{self.folder}/two.alt")


class PullTests(CarryTest):
    def setUp(self):
        super().setUp()
        self.clone("north")

    def test_changes_come_and_own_ones_stay(self):
        self.do(
            self.head,
            "put top 7 3 hose",
            "remove top 107 1",
            "put north 7 4 head",
            "remove north 7 2",
            "put north 7 2 again",
        )
        self.do(self.field, "put north 7 5 field", "new mine top", "put mine 7 9 mine")
        said = self.carry("pull", self.field)
        self.assertIn("top: 2 changes came", said)
        self.assert_same("top")
        due = {"7:1": "cable", "7:2": "again", "7:4": "head", "7:5": "field", "107:1": "line"}
        self.assertEqual(due, self.records(self.field, "north"))
        self.assertEqual(
            {"7:1": "duct", "7:2": "pipe", "7:9": "mine", "107:1": "line"}, self.records(self.field, "mine")
        )
        self.assertEqual(["tally 1 2 0 no"], self.ask(self.field, "tally mine"))

    def test_a_conflict_makes_the_own_changes_a_design_beside(self):
        self.do(self.head, "put north 7 2 head", "put north 7 3 head")
        self.do(self.field, "put north 7 2 field", "put north 7 4 field")
        self.assertIn("Your changes are the design north.anna now", self.carry("pull", self.field))
        self.assert_same("north")
        self.assertEqual(["conflict 7 2 pipe head field", "end 1"], self.ask(self.field, "conflicts north.anna"))
        self.do(self.field, "merge north.anna 7:2=mine", "post north.anna", "drop north.anna")
        self.carry("push", self.field, "north")
        due = {"7:1": "cable", "7:2": "field", "7:3": "head", "7:4": "field", "107:1": "line"}
        self.assertEqual(due, self.records(self.head, "north"))
        self.assertIn("north: same", self.carry("status", self.field))

    def test_what_a_design_has_not_merged_is_not_read_again(self):
        """Of a base that has not changed, a pull reads what lies between it and the nearer one of two known versions:
        here the design has one change, or its parent has."""
        read = []

        def differ(pair, link, *pairs):
            found = whole(pair, link, *pairs)
            read.extend(len(rows) for rows in found if link is pair.head)
            return found

        whole = Pair.differ
        self.do(self.head, "new wide top", *(f"put wide 7 {number} w" for number in range(100, 130)))
        self.carry("pull", self.field, "wide")
        self.do(self.head, *(f"put top 8 {number} t" for number in range(30)))
        for number in range(3):
            self.carry("pull", self.field)
            self.do(self.head, f"put top 9 {number} t", f"put north 9 {number} n")
            with unittest.mock.patch.object(Pair, "differ", differ), Link(self.field) as clone, Link(self.head) as head:
                pulling.pull(Pair(clone, head, lambda text: None), [])
            # `wide` has 30 changes, and has not merged 30: one of them is read, twice.
            self.assertLess(sum(read), 2 * 30 + 2 * 2 * (number + 2) + 10, read)
            read.clear()
            for it in ("top", "north", "wide"):
                self.assert_same(it)
        # A base that moves is read anew.
        self.do(self.head, "merge north all=mine", "put top 9 9 t")
        self.carry("pull", self.field)
        self.assert_same("north")
        self.assertEqual(["tally 4 1 0 no"], self.ask(self.field, "tally north"))

    def test_a_second_conflict_makes_a_second_design(self):
        for _ in range(2):
            self.do(self.head, "put north 7 2 head")
            self.do(self.field, "put north 7 2 field")
            self.carry("pull", self.field)
            self.do(self.head, "put north 7 2 later")
            self.carry("pull", self.field)
        self.assertEqual({"top", "north", "north.anna", "north.anna2"}, set(self.designs(self.field)))

    def test_what_was_settled_at_head_is_not_asked_again(self):
        self.do(self.head, "put top 7 1 top", "put top 7 2 top", "merge north all=mine", "put north 7 2 pipe")
        self.carry("pull", self.field)
        self.assert_same("north")
        self.assertEqual(["end 0"], self.ask(self.field, "conflicts north"))
        # The design went back to the base's value after the merge: a merge keeps that.
        self.do(self.field, "merge north")
        self.assertEqual("pipe", self.records(self.field, "north")["7:2"])

    def test_a_design_that_was_merged_on_both_sides_becomes_two(self):
        self.do(self.head, "put top 7 3 top")
        self.carry("pull", self.field)
        self.do(self.field, "merge north", "put north 7 2 field")
        self.do(self.head, "merge north", "put north 7 2 head")
        self.assertIn("the design north.anna beside it", self.carry("pull", self.field))
        self.assert_same("north")
        due = {"7:1": "cable", "7:2": "field", "7:3": "top", "107:1": "line"}
        self.assertEqual(due, self.records(self.field, "north.anna"))
        self.assertEqual("top", self.designs(self.field)["north.anna"])
        self.assertEqual(
            ["change 7 1 duct cable", "change 7 2 pipe field", "end 2"], self.ask(self.field, "changes north.anna")
        )

    def test_a_design_that_was_merged_here_takes_heads_changes_in(self):
        self.do(self.head, "put top 7 3 top")
        self.carry("pull", self.field)
        self.do(self.field, "merge north", "put north 7 2 field")
        self.do(self.head, "put north 7 4 head")
        self.carry("pull", self.field)
        due = {"7:1": "cable", "7:2": "field", "7:3": "top", "7:4": "head", "107:1": "line"}
        self.assertEqual(due, self.records(self.field, "north"))
        self.assertEqual(["tally 3 0 0 yes"], self.ask(self.field, "tally north"))
        self.carry("push", self.field, "north")
        self.assert_same("north")

    def test_a_design_that_head_has_dropped_goes_unless_it_has_changes(self):
        self.do(self.head, "new south top", "put south 7 3 south")
        self.carry("pull", self.field, "south")
        self.do(self.field, "put south 7 4 mine")
        self.do(self.head, "drop north", "drop south")
        said = self.carry("pull", self.field)
        self.assertIn("north: HEAD has dropped it, so it is dropped here", said)
        self.assertIn("south: HEAD has dropped it. It stays here", said)
        self.assertEqual({"top", "south"}, set(self.designs(self.field)))
        self.assertEqual("mine", self.records(self.field, "south")["7:4"])
        self.do(self.field, "merge south")
        self.carry("push", self.field, "south")
        self.assert_same("south")

    def test_a_design_that_head_has_made_anew_is_another_one(self):
        self.do(self.head, "drop north", "new north top", "put north 7 3 other")
        self.do(self.field, "put north 7 4 mine")
        self.assertIn("north: HEAD has another design of this name now", self.carry("pull", self.field))
        self.do(self.field, "merge north")
        self.assertIn("HEAD has another design north", self.carry("push", self.field, "north", status=1))
        self.assertEqual("other", self.records(self.head, "north")["7:3"])
        self.assertIn("another design of this name is here", self.carry("pull", self.field, "north", status=1))

    def test_peoples_checkpoints_stay(self):
        self.do(self.field, "checkpoint north monday", "put north 7 3 field")
        self.do(self.head, "put north 7 4 head", "checkpoint north friday")
        self.carry("pull", self.field)
        self.carry("push", self.field, "north")
        self.assertIn("checkpoint monday", self.ask(self.field, "checks north"))
        self.assertIn("checkpoint friday", self.ask(self.head, "checks north"))
        self.assertEqual({"7:1": "cable", "7:2": "pipe", "107:1": "line"}, self.records(self.field, "north@monday"))


class PushTests(CarryTest):
    def setUp(self):
        super().setUp()
        self.clone("north")

    def test_a_new_design_and_its_child(self):
        self.do(self.field, "new mine top", "put mine 7 3 a", "remove mine 7 2", "new below mine", "put below 7 4 b")
        self.assertIn("push mine first", self.carry("push", self.field, "below", status=1))
        self.carry("push", self.field, "mine", "below")
        self.assertEqual("mine", self.designs(self.head)["below"])
        for it in ("mine", "below"):
            self.assert_same(it)
        self.do(self.field, "put mine 7 3 c", "put mine 7 2 back")
        self.carry("push", self.field, "mine")
        self.assert_same("mine")
        self.assertIn("HEAD has all of it", self.carry("push", self.field, "mine"))

    def test_a_push_leaves_what_head_has_of_its_own(self):
        self.do(self.field, "put north 7 3 field", "remove north 7 2")
        self.do(self.head, "put north 7 4 head", "remove north 107 1", "put top 7 5 top")
        self.assertIn("the changes of both are merged there", self.carry("push", self.field, "north"))
        self.assertEqual({"7:1": "cable", "7:3": "field", "7:4": "head"}, self.records(self.head, "north"))
        self.assertEqual({"7:1": "cable", "7:3": "field", "107:1": "line"}, self.records(self.field, "north"))
        self.carry("pull", self.field)
        self.assert_same("north")

    def test_of_two_clones_the_second_is_told_and_a_person_settles(self):
        second = f"{self.folder}/two.alt"
        self.clone("north", file=second, office="berta")
        self.do(self.field, "put north 7 2 anna", "put north 7 3 anna")
        self.do(second, "put north 7 2 berta", "put north 7 4 berta")
        self.carry("push", self.field, "north")
        said = self.carry("push", second, "north")
        self.assertIn("Your changes are the design north.berta under it, here and at HEAD", said)
        self.assertEqual(
            {"7:1": "cable", "7:2": "anna", "7:3": "anna", "107:1": "line"}, self.records(self.head, "north")
        )
        self.assertEqual(["conflict 7 2 pipe anna berta", "end 1"], self.ask(self.head, "conflicts north.berta"))
        self.assertEqual(
            {"7:1": "cable", "7:2": "berta", "7:4": "berta", "107:1": "line"}, self.records(second, "north.berta")
        )
        self.do(self.head, "merge north.berta 7:2=theirs", "post north.berta", "drop north.berta")
        due = {"7:1": "cable", "7:2": "anna", "7:3": "anna", "7:4": "berta", "107:1": "line"}
        for it in (self.field, second):
            self.carry("pull", it)
            self.assertEqual(due, self.records(it, "north"))
            self.assertEqual({"top", "north"}, set(self.designs(it)))

    def test_a_conflict_may_be_settled_in_the_office(self):
        self.do(self.field, "put north 7 2 field")
        self.do(self.head, "put north 7 2 head")
        self.carry("push", self.field, "north")
        self.carry("pull", self.field)
        self.do(self.field, "merge north.anna 7:2=mine")
        self.carry("push", self.field, "north.anna")
        self.assertEqual(["tally 1 0 0 yes"], self.ask(self.head, "tally north.anna"))
        self.do(self.head, "post north.anna", "drop north.anna")
        self.carry("pull", self.field)
        self.assertEqual("field", self.records(self.field, "north")["7:2"])
        self.assert_same("north")

    def test_a_design_that_was_merged_here_is_so_at_head(self):
        self.do(self.head, "put top 7 1 top", "put top 7 2 top", "put top 7 3 top")
        self.carry("pull", self.field)
        # 7:1 is settled, and 7:2 goes back to what it was: neither may be a conflict, or be lost, at HEAD.
        self.do(self.field, "merge north 7:1=mine", "put north 7 2 pipe", "put north 7 4 field")
        self.do(self.head, "put top 7 9 later")
        self.carry("push", self.field, "north")
        self.assert_same("north")
        self.assertEqual(["end 0"], self.ask(self.head, "conflicts north"))
        self.do(self.head, "merge north", "post north")
        due = {"7:1": "cable", "7:2": "pipe", "7:3": "top", "7:4": "field", "7:9": "later", "107:1": "line"}
        self.assertEqual(due, self.records(self.head, "top"))

    def test_a_design_merged_here_and_posted_at_head_is_pulled_first(self):
        self.do(self.head, "put top 7 3 top")
        self.carry("pull", self.field)
        self.do(self.field, "merge north", "put north 7 4 field")
        self.do(self.head, "merge north", "post north")
        self.assertIn("pull, and push again", self.carry("push", self.field, "north", status=1))
        self.carry("pull", self.field)
        self.assertEqual("field", self.records(self.field, "north.anna")["7:4"])
        self.assert_same("north")

    def test_a_new_design_is_merged_with_the_last_top_first(self):
        self.do(self.field, "new mine top", "put mine 7 3 field")
        self.do(self.head, "put top 7 4 top")
        self.carry("pull", self.field)
        self.assertIn("merge it here", self.carry("push", self.field, "mine", status=1))
        self.do(self.field, "merge mine")
        self.carry("push", self.field, "mine")
        self.assert_same("mine")

    def test_what_was_posted_here_is_pushed_as_top(self):
        self.do(self.field, "put north 7 3 field", "post north")
        self.assertIn("push top first if it was changed here", self.carry("push", self.field, "north", status=1))
        self.do(self.head, "put top 7 4 head")
        self.carry("push", self.field, "top")
        due = {"7:1": "cable", "7:2": "pipe", "7:3": "field", "7:4": "head", "107:1": "line"}
        self.assertEqual(due, self.records(self.head, "top"))
        self.carry("push", self.field, "north")
        self.carry("pull", self.field)
        self.assert_same("top")
        self.assert_same("north")

    def test_a_conflict_of_top_comes_as_a_design_under_it(self):
        self.do(self.field, "put top 7 2 field")
        self.do(self.head, "put top 7 2 head")
        self.assertIn("the design top.anna under it", self.carry("push", self.field, "top"))
        self.assertEqual(["conflict 7 2 pipe head field", "end 1"], self.ask(self.head, "conflicts top.anna"))
        self.assertEqual("pipe", self.records(self.field, "top")["7:2"])
        self.carry("pull", self.field)
        self.assert_same("top")
        self.assert_same("top.anna")

    def test_names_of_32_bytes(self):
        name = "d" * 32
        self.do(self.field, f"new {name} top", f"put {name} 7 3 a")
        self.carry("push", self.field, name)
        self.do(self.field, f"put {name} 7 3 field")
        self.do(self.head, f"put {name} 7 3 head")
        self.carry("push", self.field, name)
        self.assertEqual(name, self.designs(self.head)["d" * 27 + ".anna"])

    def test_a_value_before_that_differs_stops_it(self):
        """A store in which the names fit, and the records do not."""
        [check] = [
            it.split()[1] for it in self.ask(self.head, "checks north") if it.startswith("checkpoint .office.anna")
        ]
        self.do(self.head, f"uncheck north {check}", "put north 7 2 forged", f"checkpoint north {check}")
        self.do(self.field, "put north 7 2 field")
        before = self.records(self.head, "north")
        self.assertIn("7:2 has another value", self.carry("push", self.field, "north", status=1))
        self.assertEqual(before, self.records(self.head, "north"))
        self.do(self.head, "put north 7 2 later")
        self.assertIn("put back from a backup", self.carry("pull", self.field, status=1))
        self.assertEqual("field", self.records(self.field, "north")["7:2"])

    def test_no_names_are_left_behind(self):
        for number in range(3):
            self.do(self.head, f"put top 8 {number} t", f"put north 8 {number} n")
            self.do(self.field, f"put north 9 {number} f")
            self.carry("push", self.field, "north")
            self.carry("pull", self.field)
        found = self.own_names(self.head)
        self.assertEqual(4, len(found), found)
        found = self.own_names(self.field)
        self.assertEqual(5, len(found), found)


class NumberTests(CarryTest):
    def test_ranges_are_taken_along_and_given_once(self):
        self.do(self.head, "put north 7 41 x", "put top 107 1234 y", "put top 8 9999 z")
        said = self.clone("north", "--numbers", "7", "--numbers", "9:1500")
        due = 'record {} {{"7":%202235,%20"9":%202001}}'
        self.assertIn("table 7: new features get the numbers 1235 to 2234 here", said)
        self.assertIn("table 9: new features get the numbers 1 to 2000 here", said)
        self.assertEqual([due.format("64000 2"), "end 1"], self.ask(self.head, "list .numbers 64000"))
        self.assertEqual([due.format("64001 0"), "end 1"], self.ask(self.field, "list .numbers 64001"))
        second = f"{self.folder}/two.alt"
        said = self.clone("--numbers", "7", file=second, office="berta")
        self.assertIn("table 7: new features get the numbers 2235 to 3234 here", said)
        # What is left is enough.
        self.assertIn("numbers 1235 to 2234", self.carry("pull", "--numbers", "7:900", self.field))
        self.assertIn("numbers 3235 to 5234", self.carry("pull", "--numbers", "7:1001", self.field))

    def test_the_highest_number_is_found(self):
        for number in (1, 2, 15, 16, 17, 2**40, 2**63 - 3000):
            self.do(self.head, f"put top 5 {number} x")
            with Link(self.head) as head:
                self.assertEqual(number + 1, ranges.free_number(head, 5))

    def test_bad_words(self):
        for it in ("x", "0", "100", "7:0", "-1"):
            self.carry("pull", f"--numbers={it}", self.field, status=2)


class StrangerTests(CarryTest):
    def setUp(self):
        super().setUp()
        self.clone("north")
        self.backup = f"{self.folder}/backup"

    def both_are_refused(self, text):
        before = [
            self.own_names(it) + [self.records(it, alt) for alt in self.designs(it)] for it in (self.head, self.field)
        ]
        self.do(self.field, "put north 7 8 mine")
        for words in (["pull", self.field], ["push", self.field, "north"], ["status", self.field]):
            self.assertIn(text, self.carry(*words, status=1))
        self.do(self.field, "remove north 7 8")
        after = [
            self.own_names(it) + [self.records(it, alt) for alt in self.designs(it)] for it in (self.head, self.field)
        ]
        self.assertEqual(before, after)

    def test_another_store(self):
        os.unlink(self.head)
        self.create(self.head)
        self.do(self.head, "put top 7 1 duct", "new north top")
        self.both_are_refused("HEAD knows no office anna")

    def test_head_was_put_back_from_a_backup(self):
        for step in (["pull", self.field], ["push", self.field, "north"]):
            shutil.copy(self.head, self.backup)
            self.do(self.field, "put north 7 3 field")
            self.carry(*step)
            newer = f"{self.folder}/newer"
            shutil.copy(self.head, newer)
            shutil.copy(self.backup, self.head)
            self.both_are_refused("put back from a backup")
            shutil.copy(newer, self.head)

    def test_the_clone_was_put_back_from_a_backup_or_copied(self):
        shutil.copy(self.field, self.backup)
        self.do(self.field, "put north 7 3 field")
        self.carry("push", self.field, "north")
        shutil.copy(self.backup, self.field)
        self.both_are_refused("put back from a backup, or a copy of the clone was used")

    def test_a_backup_of_the_same_step_is_fine(self):
        shutil.copy(self.head, self.backup)
        self.do(self.head, "put north 7 4 lost")
        shutil.copy(self.backup, self.head)
        self.do(self.field, "put north 7 3 field")
        self.carry("push", self.field, "north")
        self.assert_same("north")


class Cut(OSError):
    """The link is cut."""


class InterruptionTests(CarryTest):
    """Each batch fails once before it is carried out, and once after that, unheard: done again, all is as if nothing
    had failed."""

    def interrupted(self, at, do):
        """Does something, and cuts the link at batch `at // 2`: before it or after it. Returns whether it came so
        far."""
        number, is_after = divmod(at, 2)
        seen = []
        whole = batch.Batch.carry_out

        def carry_out(made, link):
            seen.append(made)
            is_it = len(seen) == number + 1
            if is_it and not is_after:
                raise Cut
            whole(made, link)
            if is_it:
                raise Cut

        with unittest.mock.patch.object(batch.Batch, "carry_out", carry_out):
            with contextlib.suppress(Cut):
                do()
        return len(seen) > number

    def pair(self, do):
        with Link(self.field) as clone, Link(self.head) as head:
            do(Pair(clone, head, lambda text: None))

    def start_again(self):
        for it in Path(self.folder).glob("*.alt*"):
            it.unlink()
        self.create(self.head)
        self.do(self.head, "put top 7 1 duct", "put top 7 2 pipe", "new north top", "put north 7 1 cable")
        with Link(self.head) as head:
            cloning.Clone(head, self.field, "anna", [], lambda text: None).make()
        self.pair(lambda pair: pulling.pull(pair, ["north"]))

    def try_all(self, prepare, step, look):
        self.start_again()
        prepare()
        self.pair(step)
        due = look()
        names_due = [len(self.own_names(it)) for it in (self.head, self.field)]
        for at in itertools.count():
            self.start_again()
            prepare()
            came = self.interrupted(at, lambda: self.pair(step))
            self.pair(step)
            self.assertEqual(due, look(), f"cut {at}")
            self.assertEqual(names_due, [len(self.own_names(it)) for it in (self.head, self.field)], f"cut {at}")
            if not came:
                return at

    def look(self):
        return [{alt: self.records(it, alt) for alt in self.designs(it)} for it in (self.head, self.field)]

    def test_pull(self):
        def prepare():
            self.do(self.head, "put top 7 3 t", "merge north", "put north 7 4 h", "new south north", "put south 7 9 s")
            self.do(self.field, "put north 7 5 f")

        self.assertLess(6, self.try_all(prepare, lambda pair: pulling.pull(pair, ["south"]), self.look))

    def test_pull_with_a_conflict(self):
        def prepare():
            self.do(self.head, "put north 7 4 h")
            self.do(self.field, "put north 7 4 f")

        self.assertLess(6, self.try_all(prepare, lambda pair: pulling.pull(pair, []), self.look))

    def test_push(self):
        def prepare():
            self.do(self.field, "put north 7 5 f", "remove north 7 2", "new mine top", "put mine 7 6 m")

        self.assertLess(8, self.try_all(prepare, lambda pair: pushing.push(pair, ["north", "mine"]), self.look))

    def test_push_with_a_conflict(self):
        def prepare():
            self.do(self.head, "put north 7 5 h")
            self.do(self.field, "put north 7 5 f")

        self.assertLess(6, self.try_all(prepare, lambda pair: pushing.push(pair, ["north"]), self.look))

    def test_push_of_a_merged_design(self):
        def prepare():
            self.do(self.head, "put top 7 1 t", "put top 7 2 t")
            self.pair(lambda pair: pulling.pull(pair, []))
            self.do(self.field, "merge north all=mine", "put north 7 2 pipe")

        self.assertLess(4, self.try_all(prepare, lambda pair: pushing.push(pair, ["north"]), self.look))

    def test_clone(self):
        def make():
            with Link(self.head) as head:
                cloning.Clone(head, self.field, "anna", [], lambda text: None).make()

        for at in itertools.count():
            self.start_again()
            os.unlink(self.field)
            with Link(self.head) as head:
                cloning.forget(head, "anna", lambda text: None)
            if not self.interrupted(at, make):
                break
            with contextlib.suppress(Fault):
                make()
            if not os.path.exists(self.field):
                # HEAD has the office, and the file is not there: the part was lost with it.
                self.carry("forget", self.head, "--office", "anna")
                make()
            self.assertEqual(self.records(self.head, "top"), self.records(self.field, "top"))
        self.assertLess(3, at)

    def late(self, prepare, step, at, when):
        """A batch to HEAD that is cut off comes there late: before batch `when` of the next try. Returns whether the
        step has so many batches, and that one is HEAD's."""
        self.start_again()
        prepare()
        waiting, count = [], itertools.count()
        whole = batch.Batch.carry_out

        def cut(made, link):
            if next(count) == at:
                waiting.append(made)
                waiting.append(link.place == self.head)
                raise Cut
            whole(made, link)

        def carry_out(made, link):
            if next(count) == when and waiting[1] and link.place == self.head:
                with contextlib.suppress(Refusal):
                    whole(waiting[0], link)
            whole(made, link)

        with unittest.mock.patch.object(batch.Batch, "carry_out", cut), contextlib.suppress(Cut):
            self.pair(step)
        if not waiting:
            return False
        count = itertools.count()
        with unittest.mock.patch.object(batch.Batch, "carry_out", carry_out), contextlib.suppress(Fault):
            self.pair(step)
        self.pair(step)
        self.pair(lambda pair: pulling.pull(pair, []))
        return True

    def try_late(self, prepare, step):
        self.start_again()
        prepare()
        self.pair(step)
        self.pair(lambda pair: pulling.pull(pair, []))
        due = self.look(), len(self.own_names(self.head))
        for at in itertools.count():
            for when in range(6):
                if not self.late(prepare, step, at, when):
                    return
                self.assertEqual(due, (self.look(), len(self.own_names(self.head))), f"batch {at} comes before {when}")

    def test_a_batch_of_a_pull_that_comes_late(self):
        def prepare():
            self.do(self.head, "put top 7 3 t", "put north 7 4 h")
            self.do(self.field, "put north 7 5 f")

        self.try_late(prepare, lambda pair: pulling.pull(pair, []))

    def test_a_batch_of_a_push_that_comes_late(self):
        def prepare():
            self.do(self.head, "put north 7 4 h")
            self.do(self.field, "put north 7 5 f")

        self.try_late(prepare, lambda pair: pushing.push(pair, ["north"]))

    def test_a_push_that_was_interrupted_is_not_mixed_with_what_came_later(self):
        self.start_again()
        self.do(self.field, "put north 7 5 first")
        self.assertTrue(self.interrupted(3, lambda: self.pair(lambda pair: pushing.push(pair, ["north"]))))
        self.assertEqual("first", self.records(self.head, "north")["7:5"])
        self.do(self.field, "put north 7 5 second")
        self.do(self.head, "put north 7 5 third")
        self.assertIn("under it", self.carry("push", self.field, "north"))
        self.assertEqual("third", self.records(self.head, "north")["7:5"])
        self.assertEqual(["conflict 7 5 first third second", "end 1"], self.ask(self.head, "conflicts north.anna"))


class ServiceTests(CarryTest):
    def test_both_sides_by_services(self):
        socket_path = self.serve(self.head)
        self.carry("clone", socket_path, self.field, "north", "--office", "anna")
        self.serve(self.field)
        with Store(f"unix:{self.field}.sock") as field, Store(f"unix:{socket_path}") as head:
            field.put("north", 7, 3, b"field")
            head.put("north", 7, 4, b"head")
            self.carry("pull", self.field)
            self.carry("push", self.field, "north")
            self.assertEqual(list(head.list("north")), list(field.list("north")))
            self.assertEqual(5, len(list(head.list("north"))))
            [entry] = [it for it in head.log(record="7:3") if it.line.startswith("put")]
            self.assertEqual(getpass.getuser(), entry.planner)

    def test_an_office_that_may_not_post_leaves_a_design_at_head(self):
        self.rule({"office": ["anna"], "change": ["north*"], "drop": ["north.*"]})
        socket_path = self.serve(self.head)
        self.carry("clone", socket_path, self.field, "north", "--office", "anna")
        self.do(self.field, "put north 7 3 field")
        self.assertIn("north.anna", self.carry("push", self.field, "north"))
        with Store(f"unix:{socket_path}") as head:
            self.assertEqual(b"field", head.get("north.anna", 7, 3))
            self.assertIsNone(head.get("north", 7, 3))

    def rule(self, rights):
        """Rules by which the tester has these rights, and no others."""
        if not any(map(importlib.util.find_spec, ("tomllib", "tomli"))):
            self.skipTest("neither tomllib nor tomli is there")
        text = ""
        for right, patterns in rights.items():
            text += f"[{right}]\n" + "".join(f'"{it}" = ["{getpass.getuser()}"]\n' for it in patterns)
        Path(f"{self.head}.rules").write_text(text)

    def test_the_rights_that_an_office_needs(self):
        self.rule({"office": ["anna"], "change": ["north*"], "drop": ["north.*"], "post": ["north*"]})
        socket_path = self.serve(self.head)
        self.carry("clone", socket_path, self.field, "north", "--office", "anna")
        self.do(self.field, "put north 7 3 field")
        self.assertEqual("north: pushed\n", self.carry("push", self.field, "north"))
        self.do(self.field, "put north 7 2 field", "new south top")
        self.assertIn("you may not do that in HEAD: 90 Denied", self.carry("push", self.field, "south", status=1))
        self.do(self.field, "put top 7 9 t", "remove top 7 9", "put north 7 2 again", "new north2 top")
        self.carry("pull", self.field)
        self.carry("push", self.field, "north", "north2")
        self.stop(self.head)
        self.assert_same("north")
        self.assertIn("north2", self.designs(self.head))

    def test_who_has_an_office_alone_pulls_and_does_not_push(self):
        self.rule({"office": ["anna"]})
        socket_path = self.serve(self.head)
        self.carry("clone", socket_path, self.field, "north", "--office", "anna")
        self.assertIn("you may not do that in HEAD", self.clone(file=f"{self.folder}/b.alt", office="berta", status=1))
        self.stop(self.head)
        self.do(self.head, "put top 7 3 t", "put north 7 4 n")
        self.serve(self.head)
        self.carry("pull", self.field)
        self.assertEqual("n", self.records(self.field, "north")["7:4"])
        self.do(self.field, "put north 7 5 f", "new mine top", "put top 7 6 f")
        for it in ("north", "top", "mine"):
            self.assertIn("you may not do that in HEAD: 90 Denied", self.carry("push", self.field, it, status=1))
        self.assertIn("north: ahead, 1 changes to push", self.carry("status", self.field))
        self.stop(self.head)
        self.assertEqual({"7:1": "cable", "7:2": "pipe", "7:4": "n", "107:1": "line"}, self.records(self.head, "north"))
        self.assertEqual({"top", "north"}, set(self.designs(self.head)))

    def test_a_service_that_is_not_there(self):
        socket_path = self.serve(self.head)
        self.carry("clone", socket_path, self.field, "--office", "anna")
        self.stop(self.head)
        said = self.carry("pull", self.field, status=3)
        self.assertIn("Do it again", said)
        self.do(self.field, "put top 7 9 x")
        said = self.carry("status", self.field)
        self.assertIn("what came there is unknown", said)
        self.assertIn("top: ahead, 1 changes to push", said)
        # HEAD may be found elsewhere.
        self.carry("pull", "--head", self.head, self.field)
        # The clone remembers it.
        self.carry("push", self.field, "top")
        self.assertEqual("x", self.records(self.head, "top")["7:9"])


class SshTests(CarryTest):
    def test_places(self):
        with unittest.mock.patch.dict(os.environ, ALTCARRY_SSH="ssh -v"):
            words = ssh_words("ssh://anna@far:2222/srv/a b.sock")
        self.assertEqual(["ssh", "-v", "-C"], words[:3])
        self.assertEqual(["-p", "2222", "anna@far", "nc -N -U '/srv/a b.sock'"], words[-4:])
        self.assertEqual(["far", "nc -N -U map.sock"], ssh_words("ssh:far:map.sock")[-2:])
        for it in ("ssh:far", "ssh://far", "ssh://-oProxyCommand=x/y", "ssh:-x:y", "ssh:"):
            with self.assertRaises(Fault):
                ssh_words(it)

    def test_by_a_stand_in(self):
        if shutil.which("nc") is None:
            self.skipTest("no nc")
        stand_in = Path(self.folder, "ssh")
        stand_in.write_text('#!/bin/sh\nfor last; do :; done\nexec sh -c "$last"\n')
        stand_in.chmod(0o755)
        self.by_ssh({"ALTCARRY_SSH": str(stand_in)}, "far")

    def test_by_sshd(self):
        sshd = shutil.which("sshd", path=f"{os.environ['PATH']}:/usr/sbin")
        if sshd is None or shutil.which("nc") is None or os.geteuid() != 0:
            self.skipTest("no sshd, no nc, or not root")
        os.makedirs("/run/sshd", exist_ok=True)
        for it in ("host", "key"):
            subprocess.run(["ssh-keygen", "-q", "-t", "ed25519", "-N", "", "-f", f"{self.folder}/{it}"], check=True)
        with socket.create_server(("127.0.0.1", 0)) as probe:
            port = probe.getsockname()[1]
        Path(self.folder, "config").write_text(
            f"Port {port}\nListenAddress 127.0.0.1\nHostKey {self.folder}/host\n"
            f"AuthorizedKeysFile {self.folder}/key.pub\n"
            f"StrictModes no\nUsePAM no\nPidFile none\nPermitRootLogin prohibit-password\n"
        )
        server = subprocess.Popen([sshd, "-D", "-e", "-f", f"{self.folder}/config"], stderr=subprocess.DEVNULL)
        self.addCleanup(server.wait)
        self.addCleanup(server.terminate)
        known = f"-o UserKnownHostsFile={self.folder}/known -o StrictHostKeyChecking=no"
        options = f"-i {self.folder}/key {known} -o LogLevel=ERROR"
        late = time.monotonic() + 30
        while time.monotonic() < late:
            with contextlib.suppress(OSError), socket.create_connection(("127.0.0.1", port)):
                break
            time.sleep(0.05)
        self.by_ssh({"ALTCARRY_SSH": f"ssh {options}"}, f"{getpass.getuser()}@127.0.0.1:{port}")

    def by_ssh(self, variables, host):
        place = f"ssh://{host}{self.serve(self.head)}"
        self.carry("clone", place, self.field, "north", "--office", "anna", **variables)
        self.do(self.field, "put north 7 3 field")
        self.carry("push", self.field, "north", **variables)
        self.carry("pull", self.field, **variables)
        self.stop(self.head)
        self.assertEqual("field", self.records(self.head, "north")["7:3"])
        self.assert_same("north")


class StatusTests(CarryTest):
    def test_status_as_data(self):
        self.clone("north")
        self.do(self.head, "put north 7 2 head", "put north 7 3 head", "new south top", "put top 8 1 t")
        self.do(self.field, "put north 7 2 field", "new mine top")
        with Link(self.field) as clone, Link(self.head) as head:
            found = {it.design: it for it in status.status(clone, head)}
        self.assertEqual(status.Status("top", "behind", 0, 1), found["top"])
        self.assertEqual(status.Status("north", "both", 1, 2, 1), found["north"])
        self.assertEqual("new here", found["mine"].state)
        self.assertEqual("only at HEAD", found["south"].state)
        rows = json.loads(self.carry("status", "--json", self.field))
        self.assertEqual(["top", "north", "mine", "south"], [it["design"] for it in rows])
        self.assertIn("north: both, 1 changes to push, 2 to pull, 1 in conflict", self.carry("status", self.field))

    def test_status_of_a_push_that_was_interrupted(self):
        self.clone("north")
        self.do(self.field, "put north 7 3 field", "new mine top", "put mine 7 4 field")
        for design, state in ("north", "ahead"), ("mine", "new here"):
            with Link(self.field) as clone, Link(self.head) as head:
                pair = Pair(clone, head, lambda text: None)
                pair.look()
                pushing.prepare(pair, design).begin()
                found = {it.design: it for it in status.status(clone, head)}
                self.assertEqual((state, True), (found[design].state, found[design].push_is_under_way))
                pair.look()
                pushing.finish(pair)
                self.assertEqual("same", {it.design: it.state for it in status.status(clone, head)}[design])

    def test_a_store_may_be_a_clone_and_have_clones(self):
        self.clone("north")
        third = f"{self.folder}/third.alt"
        self.carry("clone", self.field, third, "north", "--office", "berta")
        self.do(third, "put north 7 3 third")
        self.carry("push", third, "north")
        self.carry("push", self.field, "north")
        self.assertEqual("third", self.records(self.head, "north")["7:3"])
        self.do(self.head, "put top 7 4 head")
        self.carry("pull", self.field)
        self.carry("pull", third)
        self.assertEqual("head", self.records(third, "top")["7:4"])


if __name__ == "__main__":
    unittest.main()
