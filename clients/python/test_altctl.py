#!/usr/bin/env python3
"""Tests of the module `altctl` over real files: `test_altctl.py`, with the program's path in the variable ALTCTL, or
else with the one that `./altctl` at the top builds."""
import contextlib
import fcntl
import io
import os
import random
import re
import shutil
import signal
import subprocess
import sys
import tempfile
import threading
import time
import unittest
import unittest.mock
from contextlib import redirect_stdout
from pathlib import Path

sys.dont_write_bytecode = True
HERE = Path(__file__).resolve().parent
sys.path.insert(0, str(HERE))
import altctl
import example
from altctl import Alternative, Change, Conflict, Copied, Ended, FORMS, Record, Refusal, Store, Tally, Tunnel, decode
from altctl import MOST_TOLD, encode, what_is_bad

F_SETPIPE_SZ = 1031  # fcntl has the name from Python 3.10 on.
ALTCTL = os.environ.get("ALTCTL", str(HERE.parent.parent / "altctl"))
NAMED = "1 to 32 of A-Za-z0-9_.-"
NO_NUMBER, NO_VALUE = f"word 4: NUMBER is 0 to {2**64 - 1}", "word 5: VALUE is at most 4,000 bytes, % as %25"
# Words of lines, good and bad ones, by what stands for them in FORMS; and the lines with rows of answer.
NAMES = ["top", "a" * 32, "a" * 33, "a/b", "-", "top@", "top@a", "top@a@", "@", "%41", "~", "1"]
NUMBERS = ["0", "7", "0" * 20, "0" * 21, "1.5", "-1"]
NUMBERS += [f"{it}" for bits in (16, 32, 64) for it in (2**bits - 1, 2**bits)]
WORDS = {
    **dict.fromkeys(["TABLE", "NUMBER", "FIRST", "LAST", "COUNT", "BLOCKS"], NUMBERS),
    "VALUE": ["-", "%", "%4", "%4G", "%fF", "a%41", "%41" * 4000, "%41" * 4001, "a" * 4000, "a" * 4001],
    "SETTLEMENT": ["7:1=mine", "7:1=theirs", "all=mine", "all=theirs", "7:1=all", "65536:1=mine", f"1:{2**64}=mine"],
}
OF_ROWS = {"list", "next", "alts", "checks", "changes", "diff", "conflicts"}


class StoreTests(unittest.TestCase):
    def setUp(self):
        folder = tempfile.TemporaryDirectory()
        self.addCleanup(folder.cleanup)
        self.file = os.path.join(folder.name, "map.alt")
        subprocess.run([ALTCTL, "create", self.file, "64"], check=True, stdout=subprocess.DEVNULL)

    def open(self, **how):
        return Store(self.file, ALTCTL, **how)

    def grown(self, blocks):
        with self.open() as store:
            store.grow(blocks)
            store.commit()
        return self.file

    def refused(self, number, name, detail, call, *words):
        with self.assertRaises(Refusal) as came:
            call(*words)
        self.assertEqual((number, name, detail), (came.exception.number, came.exception.name, came.exception.detail))

    def test_a_record_is_there_after_a_commit(self):
        with self.open() as store:
            store.put("top", 7, 1, b"duct")
            store.commit()
            store.put("top", 7, 2, b"pipe")
        with self.open(cache=0) as store:
            self.assertEqual(b"duct", store.get("top", 7, 1))
            self.assertIsNone(store.get("top", 7, 2))
            self.assertEqual(29, store.free())

    def test_what_was_not_committed_is_undone(self):
        with self.open() as store:
            store.put("top", 7, 1, b"duct")
            store.commit()
            store.put("top", 7, 1, b"pipe")
            store.new("north", "top")
            store.checkpoint("top", "before")
            store.grow(128)
            store.rollback()
            self.assertEqual([Record(7, 1, b"duct")], list(store.list("top")))
            self.assertEqual(["top"], [it.name for it in store.alternatives()])
            self.assertEqual([], list(store.checkpoints("top")))
            store.grow(65)
            store.rollback()
            store.reclaim()
            self.assertEqual(29, store.free())

    def test_each_byte_comes_back(self):
        values = [bytes(range(240)), bytes(range(16, 256)), b"", b"-", b"%2D", b"~", "Straße 7".encode(), b" a b "]
        values += [bytes(range(241)), bytes(range(256)) * 15 + bytes(160), b"-" * 4000]
        with self.open() as store:
            for number, value in enumerate(values):
                store.put("top", 65535, 2**64 - 1 - number, value)
            self.assertEqual(values[::-1], [it.value for it in store.list("top")])
            self.refused(22, "BadLine", NO_VALUE, store.put, "top", 1, 1, bytes(4001))

    def test_a_long_value_is_merged_and_committed(self):
        course, other = b"2600010.5,1200020 " * 100, b"2600010.5,1200021 " * 100
        with self.open() as store:
            store.put("top", 7, 1, course)
            self.assertEqual(29, store.free())
            store.new("a", "top")
            store.put("a", 7, 1, other)
            store.put("top", 7, 1, b"duct")
            self.assertEqual([Change(7, 1, course, other)], list(store.changes("a")))
            self.assertEqual([Conflict(7, 1, course, b"duct", other)], list(store.conflicts("a")))
            self.assertEqual(0, store.merge("a", {(7, 1): "mine"}))
            store.post("a")
            store.commit()
        with self.open() as store:
            self.assertEqual([Record(7, 1, other)], list(store.list("top")))
            self.assertEqual(29, store.free())

    def test_words_of_values(self):
        words = {b"": "-", b"-": "%2D", b"~": "%7E", b"a}": "a}", b"%": "%25", b"a A": "a%20A", b"\xff\n": "%FF%0A"}
        self.assertEqual(words, {value: encode(value) for value in words})
        self.assertEqual(list(words), [decode(word) for word in words.values()])
        self.assertIsNone(decode("~"))

    def test_a_design_is_settled_and_posted(self):
        with self.open() as store:
            store.put("top", 7, 1, b"duct")
            store.new("a", "top")
            store.put("top", 7, 1, b"pipe")
            store.put("a", 7, 1, b"cable A")
            store.put("top", 7, 2, b"hose")
            self.assertEqual([Alternative("top", None), Alternative("a", "top")], list(store.alternatives()))
            self.assertEqual([Change(7, 1, b"duct", b"cable A")], list(store.changes("a")))
            self.assertEqual([Conflict(7, 1, b"duct", b"pipe", b"cable A")], list(store.conflicts("a")))
            self.refused(8, "NotMerged", "", store.post, "a")
            self.refused(9, "Unsettled", "1", store.merge, "a")
            self.refused(10, "NotInConflict", "7:2", store.merge, "a", {(7, 2): "mine"})
            # One change asks for 17 spare blocks, and 1 record changes here: the one that came in from top.
            self.assertEqual(1, store.merge("a", {(7, 1): "mine"}))
            store.post("a")
            self.assertEqual([Record(7, 1, b"cable A"), Record(7, 2, b"hose")], list(store.list("top")))
            self.assertEqual([], list(store.changes("a")))

    def test_a_side_settles_all_conflicts(self):
        self.grown(128)
        with self.open() as store:
            store.put("top", 7, 9, b"duct")
            store.new("a", "top")
            for number in (1, 2, 3):
                store.put("top", 7, number, b"pipe")
                store.put("a", 7, number, b"hose")
            self.refused(9, "Unsettled", "3", store.merge, "a")
            self.refused(10, "NotInConflict", "7:9", store.merge, "a", {(7, 9): "mine"}, "mine")
            due = "word 3: SETTLEMENT is TABLE:NUMBER=mine|theirs"
            self.refused(22, "BadLine", due, store.merge, "a", None, "ours")
            self.assertEqual(2, store.merge("a", {(7, 2): "mine"}, all="theirs"))
            self.assertEqual([b"pipe", b"hose", b"pipe"], [record.value for record in store.list("a", 7, last=3)])
            self.assertEqual(0, store.merge("a", all="mine"))

    def test_versions_are_read_and_compared(self):
        with self.open() as store:
            store.put("top", 7, 1, b"duct")
            store.new("north", "top")
            store.put("north", 7, 1, b"cable")
            store.checkpoint("north", "before")
            store.put("north", 7, 2, b"box")
            store.put("top", 7, 1, b"tube")
            versions = ["north", "north@", "north@before", "top", "top@"]
            self.assertEqual([b"cable", b"duct", b"cable", b"tube", None], [store.get(it, 7, 1) for it in versions])
            self.assertEqual(
                [[b"cable"], [None]], [list(store.get_many(it, [(7, 1)])) for it in ("north@before", "top@")]
            )
            self.assertEqual([Record(7, 1, b"cable")], list(store.list("north@before")))
            self.assertEqual([Record(7, 1, b"duct")], list(store.list("north@")))
            self.assertEqual([], list(store.list("top@")))
            self.assertEqual([Change(7, 2, None, b"box")], list(store.diff("north@before", "north")))
            self.assertEqual([Change(7, 2, b"box", None)], list(store.diff("north", "north@before")))
            self.assertEqual([Change(7, 1, b"duct", b"tube")], list(store.diff("north@", "top")))
            self.assertEqual(list(store.changes("north")), list(store.diff("north@", "north")))
            self.assertEqual(Tally(2, 1, 1, False), store.tally("north"))
            self.refused(6, "IsTop", "", store.tally, "top")
            self.refused(3, "NoSuchCheckpoint", "", store.get, "top@before", 7, 1)
            self.refused(1, "NoSuchAlternative", "", store.diff, "south@before", "north@nope")
            self.refused(22, "BadLine", f"word 2: ALT is {NAMED}", store.put, "north@", 7, 1, b"x")

    def test_parts_and_pages_are_those_of_a_dict(self):
        rng = random.Random(7)
        numbers = [0, 1, 2, 3, 50, 2**63, 2**64 - 2, 2**64 - 1]
        keys = [(table, number) for table in (0, 1, 7, 8, 65535) for number in numbers]
        with Store(self.grown(4096), ALTCTL) as store:
            base = {key: b"%d" % at for at, key in enumerate(rng.sample(keys, 25))}
            store.put_many("top", ((*key, value) for key, value in base.items()))
            store.new("north", "top")
            before = self.edited(store, "north", base, rng.sample(keys, 12), b"before")
            store.checkpoint("north", "before")
            versions = {"north@": base, "north@before": before, "top@": {}}
            versions["north"] = self.edited(store, "north", before, rng.sample(keys, 12), b"now")
            versions["top"] = self.edited(store, "top", base, rng.sample(keys, 12), b"top")
            for at, other in [(a, b) for a in versions for b in versions]:
                self.same_parts(store, rng, versions, numbers, at, other)

    def edited(self, store, alt, records, keys, value):
        """Removes each second key where it is there, and puts the others. Gives the records that are then."""
        left = dict(records)
        for at, key in enumerate(keys):
            if at % 2 and key in left:
                store.remove(alt, *key)
                del left[key]
            else:
                store.put(alt, *key, value)
                left[key] = value
        return left

    def same_parts(self, store, rng, versions, numbers, at, other):
        """Compares parts and pages of a version, and parts of what differs from it to another one, with those of
        dicts."""
        own, its = versions[at], versions[other]
        rows = [Record(*key, own[key]) for key in sorted(own)]
        changes = [Change(*it, own.get(it), its.get(it)) for it in sorted({*own, *its}) if own.get(it) != its.get(it)]
        self.assertEqual(rows, list(store.list(at)))
        self.assertEqual(rows, list(store.scan(at)))
        self.assertEqual(changes, list(store.diff(at, other)))
        for table in (0, 1, 7, 9, 65535):
            self.assertEqual([it for it in rows if it.table == table], list(store.list(at, table)))
            self.assertEqual([it for it in rows if it.table == table], list(store.scan(at, table)))
            self.assertEqual([it for it in changes if it.table == table], list(store.diff(at, other, table)))
            low, high = (rng.choice([None, *numbers, 40]) for _ in range(2))
            is_in = lambda it: it.table == table and (low or 0) <= it.number <= (2**64 if high is None else high)
            self.assertEqual([it for it in rows if is_in(it)], list(store.list(at, table, low, high)))
            self.assertEqual([it for it in changes if is_in(it)], list(store.diff(at, other, table, low, high)))
            number, count = rng.choice(numbers), rng.choice([0, 1, 3, 2**32 - 1])
            page = [it for it in rows if it[:2] >= (table, number)][:count]
            self.assertEqual(page, list(store.next(at, table, number, count)))

    def test_a_range_that_is_turned_round_is_empty(self):
        with self.open() as store:
            store.put_many("top", [(7, 1, b"a"), (7, 2, b"b")])
            self.assertEqual([], list(store.list("top", 7, 2, 1)))
            self.assertEqual([], list(store.diff("top@", "top", 7, 2, 1)))
            self.assertEqual([Record(7, 2, b"b")], list(store.list("top", 7, first=2)))
            self.assertEqual([Record(7, 1, b"a")], list(store.list("top", table=7, last=1)))
            self.assertEqual([Change(7, 2, None, b"b")], list(store.diff("top@", "top", 7, first_number=2)))

    def test_a_scan_pages_to_the_end(self):
        last = (65535, 2**64 - 1)
        for ends in ([], [(7, 2**64 - 1)], [(7, 2**64 - 1), (8, 0)], [last], [(65535, 0), last]):
            for count in (0, 1, 3, 4, 5, 8):
                with self.open() as store, unittest.mock.patch("altctl.PAGE", 4):
                    due = sorted([*((7, number) for number in range(10, 10 + count)), *ends])
                    store.put_many("top", ((*it, b"") for it in due))
                    self.assertEqual(due, [it[:2] for it in store.scan("top")])
                    for table in (6, 7, 8, 65535):
                        self.assertEqual(
                            [it for it in due if it[0] == table], [it[:2] for it in store.scan("top", table)]
                        )

    def test_a_scan_asks_for_no_more_than_a_page(self):
        with Store(self.grown(4096), ALTCTL) as store:
            store.put_many("top", ((7, number, b"") for number in range(2500)))
            store.put("top", 8, 1, b"")
            asked, ask = [], store._ask
            with unittest.mock.patch.object(store, "_ask", lambda *words: asked.append(words) or ask(*words)):
                rows = store.scan("top")
                first = next(rows)
                self.assertEqual([("next", "top", 0, 0, 1000)], asked)
                self.assertEqual(2501, len([first, *rows]))
                self.assertEqual([("next", "top", 7, number, 1000) for number in (1000, 2000)], asked[1:])
                del asked[:]
                self.assertEqual(2500, sum(1 for _ in store.scan("top", 7)))
                self.assertEqual([("next", "top", 7, number, 1000) for number in (0, 1000, 2000)], asked)

    def test_a_scan_goes_on_where_records_change(self):
        with Store(self.grown(4096), ALTCTL) as store:
            store.put_many("top", ((7, number, b"old") for number in range(2500)))
            seen = []
            for record in store.scan("top"):
                store.remove("top", record.table, record.number)
                store.put("top", 8, record.number % 10, b"new")
                seen.append(record)
            self.assertEqual([Record(7, number, b"old") for number in range(2500)], seen[:2500])
            self.assertEqual([Record(8, number, b"new") for number in range(10)], seen[2500:])
            self.assertEqual(seen[2500:], list(store.list("top")))

    def test_what_is_no_part_is_not_asked_for(self):
        with self.open() as store:
            store.put("top", 7, 1, b"a")
            # The place of the table in the line, and a call that sends one.
            calls = [(3, store.list), (3, store.scan), (3, lambda *it: store.next(*it, 1, 1))]
            for place, call in [*calls, (4, lambda *it: store.diff("top@", *it))]:
                for table in ("7", 7.0, b"7", [7]):
                    self.assertRaises(TypeError, call, "top", table)
                for table in (-1, 65536, 2**70):
                    self.refused(22, "BadLine", f"word {place}: TABLE is 0 to 65535", call, "top", table)
                self.assertRaises(ValueError, call, "top 7", 7)
                self.refused(1, "NoSuchAlternative", "", call, "south", 7)
                self.refused(3, "NoSuchCheckpoint", "", call, "top@nope", 7)
            for words in ([7, "1", 2], [7, 1, 2.0], [7, b"1"]):
                self.assertRaises(TypeError, store.list, "top", *words)
                self.assertRaises(TypeError, store.diff, "top@", "top", *words)
            for place, call in ((5, store.list), (6, lambda *it: store.diff("top@", *it))):
                self.assertRaises(ValueError, call, "top", None, 1)
                self.assertRaises(ValueError, call, "top", None, None, 1)
                self.refused(22, "BadLine", f"word {place}: LAST is 0 to {2**64 - 1}", call, "top", 7, 0, 2**64)
            self.assertRaises(TypeError, store.next, "top", 7, 1, "1")
            self.assertRaises(TypeError, store.next, "top", 7, 1, None)
            self.refused(22, "BadLine", NO_NUMBER, store.next, "top", 7, 2**64, 1)
            for count in (2**32, -1):
                self.refused(22, "BadLine", f"word 5: COUNT is 0 to {2**32 - 1}", store.next, "top", 7, 1, count)
            self.refused(1, "NoSuchAlternative", "", store.diff, "south", "top@nope", 7)
            self.assertEqual([Record(7, 1, b"a")], list(store.next("top", 0, 0, 2**32 - 1)))

    def test_blocks_are_counted(self):
        with self.open() as store:
            self.assertEqual(64, store.blocks())
            store.grow(70)
            self.assertEqual(70, store.blocks())
        with self.open() as store:
            self.assertEqual(64, store.blocks())

    def test_a_checkpoint_is_gone_back_to(self):
        with self.open() as store:
            store.put("top", 1, 1, b"a")
            store.checkpoint("top", "before")
            store.remove("top", 1, 1)
            self.assertEqual([], list(store.list("top")))
            store.back("top", "before")
            self.assertEqual(b"a", store.get("top", 1, 1))
            self.assertEqual(["before"], list(store.checkpoints("top")))
            store.put("top", 1, 1, b"b")
            store.new("earlier", "top", "before")
            self.assertEqual(b"a", store.get("earlier", 1, 1))
            self.assertEqual([], list(store.changes("earlier")))
            self.refused(3, "NoSuchCheckpoint", "", store.new, "other", "top", "later")
            store.uncheck("top", "before")
            self.refused(3, "NoSuchCheckpoint", "", store.back, "top", "before")
            self.refused(5, "NoSuchRecord", "", store.remove, "top", 1, 2)

    def test_alternatives_come_and_go(self):
        with self.open() as store:
            store.new("a", "top")
            self.refused(2, "AlternativeExists", "", store.new, "a", "top")
            store.new("b", "a")
            self.refused(7, "HasChildren", "", store.drop, "a")
            store.drop("b")
            store.drop("a")
            self.refused(1, "NoSuchAlternative", "", store.list, "a")
            self.refused(6, "IsTop", "", store.conflicts, "top")
            store.reclaim()
            self.assertEqual(30, store.free())

    def test_a_store_grows(self):
        with self.open() as store:
            for blocks in (0, 63, 64, 2**26 + 1, 2**32 - 1):
                self.refused(21, "BadSize", "", store.grow, blocks)
            for blocks in (-1, 2**32, "many"):
                self.refused(22, "BadLine", f"word 2: BLOCKS is 0 to {2**32 - 1}", store.grow, blocks)
            store.grow(128)
            self.assertEqual(94, store.free())
        with self.open() as store:
            self.assertEqual(30, store.free())
            store.grow(128)
            store.put("top", 7, 1, b"duct")
            store.commit()
        with self.open() as store:
            self.refused(21, "BadSize", "", store.grow, 128)
            self.assertEqual(93, store.free())
            self.assertEqual(b"duct", store.get("top", 7, 1))
        self.assertEqual(128 * 4096, os.path.getsize(self.file))

    def test_a_store_that_is_full_grows(self):
        with self.open() as store:
            for number in range(14):
                store.put("top", 1, number, b"")
                store.checkpoint("top", f"c{number}")
            self.refused(13, "Full", "", store.put, "top", 1, 14, b"")
            store.grow(65)
            store.put("top", 1, 14, b"")
            self.assertEqual(16, store.free())

    def test_a_store_grows_by_itself(self):
        with self.open(grow=128) as store:
            with self.assertRaises(Refusal) as came:
                for number in range(128):
                    store.put("top", 1, number, bytes(4000))
            self.assertEqual((13, 128), (came.exception.number, store.blocks()))
            store.commit()
        with self.open(grow=True) as store:
            for number in range(128):
                store.put("top", 1, number, bytes(4000))
            self.assertGreater(store.blocks(), 128)

    def test_a_store_that_is_only_read_refuses_each_command(self):
        with self.open() as store:
            store.put("top", 1, 1, b"one")
            store.commit()
            self.assertRaises(BlockingIOError, self.open, read_only=True)
        with self.open(read_only=True) as store, self.open(read_only=True) as other:
            self.assertRaises(BlockingIOError, self.open)
            self.refused(24, "ReadOnly", "", store.put, "top", 1, 1, b"two")
            self.refused(24, "ReadOnly", "", store.commit)
            self.assertEqual(b"one", other.get("top", 1, 1))

    def copy_of(self, store, blocks=None):
        """Copies a store, and gives what came and the copy's file."""
        to = os.path.join(os.path.dirname(self.file), f"copy-{len(os.listdir(os.path.dirname(self.file)))}.alt")
        return store.copy(to, blocks), to

    def test_a_new_store_is_copied(self):
        with self.open() as store:
            copied, to = self.copy_of(store)
            self.assertEqual(Copied(64, 34), copied)
            self.assertEqual(Path(self.file).read_bytes(), Path(to).read_bytes())
            for blocks in (64, 65, 1000):
                copied, to = self.copy_of(store, blocks)
                self.assertEqual((Copied(blocks, 34), blocks * 4096), (copied, os.path.getsize(to)))
                with Store(to, ALTCTL) as other:
                    self.assertEqual((blocks, blocks - 34), (other.blocks(), other.free()))

    def test_what_was_committed_is_copied(self):
        with self.open() as store:
            store.grow(128)
            store.put("top", 7, 1, b"duct")
            store.new("north", "top")
            store.put("north", 7, 1, b"pipe")
            store.checkpoint("north", "before")
            store.put("north", 7, 2, b"x" * 4000)
            store.put("top", 7, 1, b"hose")
            store.commit()
            before = self.copy_of(store)
            store.put("top", 7, 3, b"new")
            store.uncheck("north", "before")
            store.new("south", "top")
            store.grow(200)
            after = self.copy_of(store)
            self.assertEqual(b"new", store.get("top", 7, 3))
        # The leaf of top, and for north its own, the one of the checkpoint and that of the base.
        self.assertEqual([Copied(128, 38)] * 2, [before[0], after[0]])
        self.assertEqual(Path(before[1]).read_bytes(), Path(after[1]).read_bytes())
        with Store(after[1], ALTCTL) as copy:
            self.assertEqual([Record(7, 1, b"hose")], list(copy.list("top")))
            self.assertEqual([Record(7, 1, b"duct")], list(copy.list("north@")))
            self.assertEqual([Record(7, 1, b"pipe")], list(copy.list("north@before")))
            self.assertEqual([Conflict(7, 1, b"duct", b"hose", b"pipe")], list(copy.conflicts("north")))
            self.assertEqual(
                [Change(7, 1, b"duct", b"pipe"), Change(7, 2, None, b"x" * 4000)], list(copy.changes("north"))
            )
            self.assertEqual([Alternative("top", None), Alternative("north", "top")], list(copy.alternatives()))

    def test_a_store_that_is_copied_gets_smaller_but_not_too_small(self):
        # Each record takes a leaf, and 40 leaves a root.
        with self.open(grow=True) as store:
            store.put_many("top", ((7, number, bytes(4000)) for number in range(40)))
            store.commit()
            copied, to = self.copy_of(store)
            self.assertEqual(store.blocks(), copied.blocks)
            self.assertEqual(34 + 40 + 1, copied.used)
            small, smaller = self.copy_of(store, copied.used)
            self.assertEqual((copied.used, copied.used), small)
            gone = f"{self.file}.gone"
            self.refused(13, "Full", "", store.copy, gone, copied.used - 1)
            self.refused(13, "Full", "", store.copy, gone, 64)
            for blocks in (63, 0, -1, 2**26 + 1):
                self.refused(21, "BadSize", "", store.copy, gone, blocks)
            self.assertRaises(TypeError, store.copy, gone, "64")
            self.assertFalse(os.path.exists(gone))
        with Store(smaller, ALTCTL) as copy:
            self.assertEqual(0, copy.free())
            self.assertEqual([Record(7, number, bytes(4000)) for number in range(40)], list(copy.list("top")))

    def test_a_copy_of_a_copy_has_the_same_bytes(self):
        rng = random.Random(5)
        with Store(self.grown(1000), ALTCTL) as store:
            for name in ("a", "b"):
                store.new(name, "top")
                store.put_many("top", ((7, rng.randrange(100), b"x" * rng.choice([1, 300])) for _ in range(100)))
                store.checkpoint("top", name)
            store.commit()
            copied, first = self.copy_of(store, 700)
        with Store(first, ALTCTL, read_only=True) as copy:
            copied_again, second = self.copy_of(copy)
        with Store(second, ALTCTL, read_only=True) as copy:
            third = self.copy_of(copy, 700)[1]
            larger = self.copy_of(copy, 900)[1]
        self.assertEqual(copied, copied_again)
        self.assertEqual(Path(first).read_bytes(), Path(second).read_bytes())
        self.assertEqual(Path(first).read_bytes(), Path(third).read_bytes())
        with Store(larger, ALTCTL) as copy:
            self.assertEqual((900, 900 - copied.used), (copy.blocks(), copy.free()))

    def test_a_copy_that_cannot_be_made(self):
        with self.open() as store:
            before = Path(self.file).read_bytes()
            none = f"{self.file}.none/copy"
            for to in (self.file, os.path.dirname(self.file), f"{self.file}/none", none):
                with self.assertRaises(Ended) as came:
                    store.copy(to)
                said = f"altctl: cannot create {to}{'.part' if to == none else ''}\n"
                self.assertEqual((1, said), (came.exception.status, came.exception.said))
            self.assertEqual(30, store.free())
            self.assertEqual(before, Path(self.file).read_bytes())
        self.assertRaises(ValueError, store.copy, f"{self.file}.none")

    def test_a_copy_comes_between_rows(self):
        with Store(self.grown(128), ALTCTL) as store:
            store.put_many("top", ((7, number, b"%d" % number) for number in range(300)))
            rows = store.list("top")
            seen = [next(rows).value]
            self.assertEqual(Copied(128, 34), self.copy_of(store)[0])
            self.assertEqual([b"%d" % number for number in range(300)], seen + [it.value for it in rows])

    def test_each_copy_beside_threads_is_what_a_commit_left(self):
        def work():
            for number in range(100):
                store.put("top", 7, 1, b"%d" % number)
                store.put("top", 7, 2, b"%d" % number)
                store.commit()

        with Store(self.grown(128), ALTCTL) as store:
            store.put_many("top", [(7, 1, b""), (7, 2, b"")])
            store.commit()
            writer = threading.Thread(target=work)
            writer.start()
            files = [self.copy_of(store)[1] for _ in range(10)]
            writer.join()
        for file in files:
            with Store(file, ALTCTL) as copy:
                values = [it.value for it in copy.list("top")]
                self.assertEqual(values[:1] * 2, values)
                self.assertEqual(93, copy.free())

    def test_a_copy_of_a_file_that_has_a_strange_name(self):
        with tempfile.TemporaryDirectory() as folder:
            shutil.move(self.file, os.path.join(folder, "-store"))
            here = os.getcwd()
            try:
                os.chdir(folder)
                program = ALTCTL if os.path.isabs(ALTCTL) else os.path.join(here, ALTCTL)
                with Store("-store", program) as store:
                    os.chdir("/")
                    self.assertEqual(Copied(64, 34), store.copy(Path(folder, "-copy")))
                    os.chdir(folder)
                    self.assertEqual(Copied(80, 34), store.copy(b"-copy-2", 80))
                    self.assertEqual(["-copy", "-copy-2", "-store"], sorted(os.listdir(folder)))
            finally:
                os.chdir(here)

    def test_a_program_that_has_ended_copies_nothing(self):
        with self.assertRaises(Ended), self.open() as store:
            store._other._program.kill()
            store.copy(f"{self.file}.none")
        self.assertFalse(os.path.exists(f"{self.file}.none"))

    def test_many_lines_go_ahead_of_their_answers(self):
        due = {(number % 3, number): b"%d" % number for number in range(1000)}
        with Store(self.grown(4096), ALTCTL) as store:
            store.put_many("top", ((*key, value) for key, value in due.items()))
            self.assertEqual([Record(*key, due[key]) for key in sorted(due)], list(store.list("top")))
            keys = [*due, (4, 1)]
            self.assertEqual([*due.values(), None], list(store.get_many("top", keys)))
            store.remove_many("top", sorted(due)[:-2])
            self.assertEqual(sorted(due)[-2:], [(it.table, it.number) for it in store.list("top")])
            for call in (store.put_many, store.remove_many):
                call("top", [])
            self.assertEqual([], list(store.get_many("top", [])))

    def test_no_pipe_is_too_small_for_many_lines(self):
        # The longest lines and the longest answers there are: each byte of 4,000 is written as three.
        value = bytes(4000)
        with Store(self.grown(4096), ALTCTL) as store:
            for pipe in (store._other.lines, store._other.answers):
                fcntl.fcntl(pipe, F_SETPIPE_SZ, 4096)
            numbers = range(2**64 - 300, 2**64)
            store.put_many("top", ((65535, number, value) for number in numbers))
            self.assertEqual([value] * 300, list(store.get_many("top", ((65535, number) for number in numbers))))
            # Lines that are long and refused, among others with long answers.
            keys = [(65535, 10**1000 if it % 2 else numbers[0]) for it in range(200)]
            self.refused(22, "BadLine", NO_NUMBER, lambda: list(store.get_many("top", keys)))
            self.refused(22, "BadLine", NO_NUMBER, lambda: store.put_many("top", ((*it, value) for it in keys)))
            # The longest answer to a put.
            keys[:] = [(65535, numbers[0])] * 200
            self.refused(22, "BadLine", NO_VALUE, lambda: store.put_many("top", ((*it, value + b"a") for it in keys)))
            self.refused(5, "NoSuchRecord", "", lambda: store.remove_many("top", ((1, it) for it in numbers)))
            self.assertEqual(300, len(list(store.list("top"))))
            # Answers to more lines than a pipe holds.
            short = [(1, number) for number in range(3000)]
            store.put_many("top", ((*it, b"") for it in short))
            store.remove_many("top", short)
            self.assertEqual(300, len(list(store.list("top"))))

    def test_a_refusal_tells_which_of_many_lines_it_was(self):
        with Store(self.grown(4096), ALTCTL) as store:
            for wrong in (0, 59, 60, 119, 120, 199):
                records = [(7, number, b"a" if number != wrong else bytes(4001)) for number in range(200)]
                with self.assertRaises(Refusal) as came:
                    store.put_many("top", records)
                self.assertEqual((22, wrong), (came.exception.number, came.exception.at))
                self.assertIn(f"line {wrong} ", str(came.exception))
                # Each answer was read: the next one is that of the next line. The neighbour is in the same portion.
                self.assertEqual(b"a", store.get("top", 7, wrong ^ 1))
                self.assertIsNone(store.get("top", 7, wrong))
                store.remove_many("top", [(it.table, it.number) for it in store.list("top")])

    def test_many_lines_and_rows_come_between_each_other(self):
        with self.open() as store:
            store.put_many("top", [(7, number, b"%d" % number) for number in range(100)])
            rows = store.list("top")
            values = store.get_many("top", ((it.table, it.number) for it in store.list("top")))
            seen = [next(rows).value, next(values)]
            store.put("top", 7, 99, b"new")
            self.assertEqual([b"0", b"0"], seen)
            self.assertEqual([b"%d" % number for number in range(1, 99)] + [b"99"], [it.value for it in rows])
            self.assertEqual([b"%d" % number for number in range(1, 99)] + [b"new"], list(values))

    def test_what_is_no_record_is_not_written(self):
        with self.open() as store:
            for record in [(7, "1", b"a"), (7, 1, "a"), (7, 1, None), (7, 1), (7.0, 1, b"a")]:
                self.assertRaises((TypeError, ValueError), store.put_many, "top", [record])
            self.assertRaises(ValueError, store.put_many, "a b", [(7, 1, b"a")])
            self.assertRaises(ValueError, list, store.get_many("top\ncommit", [(7, 1)]))
            self.assertEqual([], list(store.list("top")))

    def test_a_program_that_ends_among_many_lines_is_an_error(self):
        with self.assertRaises(Ended), self.open() as store:
            store._other._program.kill()
            store.put_many("top", ((7, number, bytes(4000)) for number in range(1000)))

    def test_rows_stay_whole_where_other_lines_come_between(self):
        with self.open() as store:
            for number in range(40):
                store.put("top", 1, number, b"%d" % number)
            seen = []
            for record in store.list("top"):
                store.put("top", 1, record.number, b"new")
                seen.append(record)
            self.assertEqual([Record(1, number, b"%d" % number) for number in range(40)], seen)
            self.assertEqual({b"new"}, {it.value for it in store.list("top")})

    def test_what_is_no_word_is_not_written(self):
        with self.open() as store:
            for name in ("", "a b", "a\ncommit", "ä"):
                self.assertRaises(ValueError, store.new, name, "top")
            self.assertEqual(30, store.free())
        self.assertRaises(ValueError, store.free)

    def test_a_program_that_ends_early_is_an_error(self):
        with self.assertRaises(Ended) as came, self.open() as store:
            store.put("top", 1, 1, b"a")
            store._other._program.kill()
            store.commit()
        self.assertEqual(-9, came.exception.status)
        with self.open() as store:
            self.assertEqual([], list(store.list("top")))

    def test_a_batch_is_one_of_a_service(self):
        with self.open() as store:
            with self.assertRaises(ValueError), store.batch():
                store.put("top", 1, 1, b"a")
            self.assertEqual([], list(store.list("top")))

    def test_a_file_that_is_no_store_is_an_error(self):
        with open(self.file, "wb") as it:
            it.write(bytes(64 * 4096))
        with self.assertRaises(Ended) as came:
            self.open()
        self.assertEqual((1, "altctl: 19 NotAStore\n"), (came.exception.status, came.exception.said))
        self.assertRaises(FileNotFoundError, Store, self.file + ".none", ALTCTL)

    def test_a_file_of_an_earlier_format_is_an_error(self):
        with open(self.file, "wb") as it:
            it.write(b"ALTSTORE\1\0\0\0\0\x10\0\0" + bytes(64 * 4096 - 16))
        with self.assertRaises(Ended) as came:
            self.open()
        told = "altctl: the file is of an earlier format: tools/upgrade.py OLD NEW carries it over\n"
        self.assertEqual((1, f"altctl: 19 NotAStore\n{told}"), (came.exception.status, came.exception.said))

    def test_why_a_file_cannot_be_opened(self):
        reason = "it is neither a file nor a block device"
        for file in (os.path.dirname(self.file), "/dev/null"):
            with self.assertRaises(Ended) as came:
                Store(file, ALTCTL)
            self.assertEqual((f"altctl: cannot open {file}\n", reason), (came.exception.said, came.exception.reason))
            self.assertTrue(str(came.exception).endswith(f"cannot open {file}: {reason}"))

    @unittest.skipIf(os.geteuid(), "only root may become another user")
    def test_why_a_file_of_others_cannot_be_opened(self):
        os.chmod(self.file, 0o444)
        os.chmod(os.path.dirname(self.file), 0o755)
        child = os.fork()
        if not child:
            os.seteuid(65534)
            reason = None
            with contextlib.suppress(OSError):
                reason = altctl.why_unopened(self.file, False), altctl.why_unopened(self.file, True)
            os._exit(0 if reason == ("Permission denied", None) else 1)
        self.assertEqual(0, os.waitpid(child, 0)[1])

    def test_which_word_of_a_line_is_bad(self):
        with self.open() as store:
            for call, words, reason in (
                (store.put, ("top", 65536, 1, b""), "word 3: TABLE is 0 to 65535"),
                (store.new, ("a/b", "top"), f"word 2: NAME is {NAMED}"),
                (store.list, ("top@a@",), "word 2: AT is ALT, ALT@ or ALT@CHECKPOINT"),
            ):
                with self.assertRaises(Refusal) as came:
                    call(*words)
                self.assertEqual((22, reason), (came.exception.number, came.exception.reason))
            with self.assertRaises(Refusal) as came:
                store.post("top")
            self.assertIsNone(came.exception.reason)
        for line, reason in {
            "touch top": "touch: there is no such line",
            "put top 7 1": "put takes ALT TABLE NUMBER VALUE",
            "list top 7 1": "list takes AT [TABLE [FIRST LAST]]",
            "commit now": "commit takes no other word",
            "put top 7 1 " + "%zz" * 50: "%zz" * 13 + "%..: VALUE is at most 4,000 bytes, % as %25",
            "merge top 7:1=ours": "7:1=ours: SETTLEMENT is TABLE:NUMBER=mine|theirs",
        }.items():
            self.assertEqual(reason, what_is_bad(line))
            # A service does not say what is wrong with a line that it reads itself.
            self.assertEqual(reason, Refusal(22, "BadLine", line=line).reason)

    def named(self, told, line):
        """What the program tells of a bad line, with the word itself in the place of its number."""
        place, rest = re.fullmatch("word ([0-9]+)(.*)", told).groups()
        word = line.split()[int(place) - 1]
        return (word if len(word) <= MOST_TOLD else word[:MOST_TOLD] + "..") + rest

    def test_the_same_lines_are_bad_for_the_program(self):
        chance, seen = random.Random(7), set()
        with self.open(read_only=True) as store:
            for _ in range(4000):
                verb = chance.choice([*FORMS, "touch", "PUT"])
                words = chance.choice(FORMS.get(verb, [""])).replace("..", chance.choice(["", "SETTLEMENT"])).split()
                words = [chance.choice(WORDS.get(it, NAMES)) for it in words]
                if chance.random() < 0.1:
                    words = words[:-1] if chance.random() < 0.5 else [*words, chance.choice(NAMES + NUMBERS)]
                line = " ".join([verb, *words])
                store._write([line])
                answer = store._read()
                is_bad = answer[:2] == ["error", "22"]
                while verb in OF_ROWS and answer[0] not in ("end", "error"):
                    answer = store._read()
                self.assertEqual(self.named(" ".join(answer[3:]), line) if is_bad else None, what_is_bad(line), line)
                seen.add((verb, is_bad))
        due = {(verb, is_bad) for verb in FORMS for is_bad in (True, False)}
        self.assertEqual(due | {("touch", True), ("PUT", True)}, seen)

    def test_one_process_at_a_time(self):
        with self.open():
            self.assertRaises(BlockingIOError, self.open)
            self.assertEqual(1, subprocess.run(["flock", "-n", self.file, "true"]).returncode)
        self.open().close()

    def test_a_second_process_waits_where_it_is_to(self):
        with self.open() as first:
            first.put("top", 1, 1, b"one")
            waiting = threading.Thread(target=lambda: self.open(wait=True).close())
            waiting.start()
            waiting.join(0.3)
            self.assertTrue(waiting.is_alive())
            first.commit()
        waiting.join(30)
        self.assertFalse(waiting.is_alive())

    def test_a_caller_that_holds_the_lock_hands_it_down(self):
        with open(self.file, "rb") as held:
            fcntl.flock(held, fcntl.LOCK_EX)
            words = [ALTCTL, "do", self.file, "free"]
            ran = subprocess.run(words, pass_fds=[held.fileno()], stdout=subprocess.PIPE)
            self.assertEqual((0, b"free 30\n"), (ran.returncode, ran.stdout))
            self.assertEqual(1, subprocess.run(words, stderr=subprocess.DEVNULL).returncode)

    def test_threads_get_their_own_answers(self):
        def work(alt):
            try:
                for number in range(200):
                    store.put(alt, 1, number, f"{alt} {number}".encode())
                    assert store.get(alt, 1, number) == f"{alt} {number}".encode()
                values = [it.value for it in store.list(alt)]
                assert values == [f"{alt} {number}".encode() for number in range(200)]
            except BaseException as it:
                failed.append(it)

        failed = []
        self.grown(4096)
        with self.open() as store:
            threads = []
            for alt in ("a", "b", "c", "d"):
                store.new(alt, "top")
                threads.append(threading.Thread(target=work, args=(alt,)))
            for it in threads:
                it.start()
            for it in threads:
                it.join()
        self.assertEqual([], failed)

    def test_a_signal_of_the_terminal_leaves_the_work_there(self):
        program = (
            "import os, signal\n"
            "from altctl import Store\n"
            f"with Store({self.file!r}, {ALTCTL!r}) as store:\n"
            "    store.put('top', 1, 1, b'one')\n"
            "    try:\n"
            "        os.killpg(0, signal.SIGINT)\n"
            "        signal.pause()\n"
            "    except KeyboardInterrupt: store.commit()\n"
        )
        words = [sys.executable, "-c", program]
        ran = subprocess.run(words, cwd=HERE, start_new_session=True, stderr=subprocess.PIPE)
        self.assertEqual((0, b""), (ran.returncode, ran.stderr))
        with self.open() as store:
            self.assertEqual(b"one", store.get("top", 1, 1))

    def test_a_value_is_bytes(self):
        with self.open() as store:
            for value in ("text", None, 7, [1]):
                self.assertRaises(TypeError, store.put, "top", 1, 1, value)
            for value in (b"one", bytearray(b"one"), memoryview(b"one")):
                store.put("top", 1, 1, value)
                self.assertEqual(b"one", store.get("top", 1, 1))
            store.put("top", 1, 1, bytearray(b"-"))
            self.assertEqual(b"-", store.get("top", 1, 1))

    def test_the_lock_is_held_where_a_standard_stream_is_closed(self):
        program = (
            "from altctl import Store\n"
            f"with Store({self.file!r}, {ALTCTL!r}) as store:\n"
            f"    try: Store({self.file!r}, {ALTCTL!r})\n"
            "    except BlockingIOError: store.put('top', 1, 1, b'one'); store.commit()\n"
        )
        for closed in ["<&-", ">&-", "2>&-", "<&- >&-", "<&- >&- 2>&-"]:
            words = ["sh", "-c", f'exec "$0" -c "$1" {closed}', sys.executable, program]
            self.assertEqual(0, subprocess.run(words, cwd=Path(__file__).parent).returncode, closed)
            with self.open() as store:
                self.assertEqual(b"one", store.get("top", 1, 1), closed)
                store.remove("top", 1, 1)
                store.commit()

    def test_a_name_is_no_option(self):
        with tempfile.TemporaryDirectory() as folder:
            name = os.path.join(folder, "-store")
            os.rename(self.file, name)
            here = os.getcwd()
            try:
                os.chdir(folder)
                for file in ["-store", b"-store", Path("-store")]:
                    with Store(file, os.path.join(here, ALTCTL)) as store:
                        self.assertEqual([("top", None)], list(store.alternatives()))
            finally:
                os.chdir(here)

    def test_the_example(self):
        due = [
            "refused: 9 Unsettled 1",
            "7:1 is b'duct 160 PVC' here, and b'duct 125 PVC' in the parent",
            "merged: 1 record changed",
            "7 1 duct 160 PVC",
            "7 2 duct 110 PVC",
            "7 3 duct 50 HDPE",
        ]
        came, sys.argv = io.StringIO(), ["example.py", self.file, ALTCTL]
        with redirect_stdout(came):
            example.main()
        self.assertEqual(due, came.getvalue().splitlines())


class ServiceTests(unittest.TestCase):
    """The same over the socket of a service."""

    def setUp(self):
        folder = tempfile.TemporaryDirectory()
        self.addCleanup(folder.cleanup)
        self.file = os.path.join(folder.name, "map.alt")
        subprocess.run([ALTCTL, "create", self.file, "256"], check=True, stdout=subprocess.DEVNULL)
        words = [sys.executable, str(HERE.parent.parent / "desk" / "altserve"), "--program", ALTCTL, self.file]
        self.service = subprocess.Popen(words, stderr=subprocess.DEVNULL)
        self.addCleanup(self.service.wait)
        self.addCleanup(self.service.terminate)
        while self.service.poll() is None:
            with contextlib.suppress(FileNotFoundError, ConnectionRefusedError):
                return self.open().close()
            time.sleep(0.01)

    def open(self):
        return Store(f"unix:{self.file}.sock")

    @contextlib.contextmanager
    def stopped(self):
        """The service stands still meanwhile."""
        self.service.send_signal(signal.SIGSTOP)
        try:
            yield
        finally:
            self.service.send_signal(signal.SIGCONT)

    def test_each_change_is_there_for_others(self):
        with self.open() as one, self.open() as other:
            one.new("north", "top")
            one.put("north", 7, 1, b"cable A")
            self.assertEqual(b"cable A", other.get("north", 7, 1))
            other.put("north", 7, 2, b"")
            other.commit()
            other.rollback()
            self.assertEqual([Record(7, 1, b"cable A"), Record(7, 2, b"")], list(one.list("north")))
            self.assertEqual([Change(7, 1, None, b"cable A"), Change(7, 2, None, b"")], list(one.changes("north")))
            for row in one.list("north"):
                one.remove("north", row.table, row.number)
            self.assertEqual([], list(other.list("north")))
            names = [it.name for it in other.alternatives()]
            self.assertCountEqual(["top", "north", ".service"], names)

    def test_many_queries_are_answered_together(self):
        with self.open() as service:
            service.put_many("top", ((7, number, b"%d %%" % number) for number in range(3)))
            service.new("north", "top")
            service.checkpoint("north", "monday")
        self.service.terminate()
        self.service.wait()
        due = [
            [["7", "0", "0%20%25"], ["7", "1", "1%20%25"], ["7", "2", "2%20%25"]],
            [["monday"]],
            [],
        ]
        with Store(self.file, ALTCTL) as store:
            asked = [("list", "top", 7), ("checks", "north"), ("checks", "south"), ("diff", "top", "north")]
            found = store.answers_of(asked)
            self.assertEqual((1, "NoSuchAlternative"), (found[2].number, found[2].name))
            self.assertEqual(due, [found[0], found[1], found[3]])
            self.assertEqual([[]] * 2000, store.answers_of([("list", "top", 8)] * 2000))
            self.assertRaises(ValueError, store.answers_of, [("list", "top\ncommit")])
            lines = ["record 7 1 1%20%25\n", "record 7 2 2%20%25\n"]
            self.assertEqual(lines, store.answer_lines("next", "top", 7, 1, 5))
            self.assertEqual([], store.answer_lines("list", "top", 8))
            self.assertRaises(Refusal, store.answer_lines, "list", "south")
            self.assertEqual(lines, store.answer_lines("next", "top", 7, 1, 5))

    def test_a_command_leads_to_a_service(self):
        passes = (
            "import os, socket, sys, threading\n"
            "it = socket.socket(socket.AF_UNIX); it.connect(sys.argv[1])\n"
            "def back():\n"
            "    while came := it.recv(4096): os.write(1, came)\n"
            "threading.Thread(target=back, daemon=True).start()\n"
            "while came := os.read(0, 4096): it.sendall(came)\n"
        )
        words = [sys.executable, "-c", passes, f"{self.file}.sock"]
        with Store(Tunnel(words)) as far, self.open() as near:
            with far.batch():
                far.put_many("top", ((7, number, bytes(3000)) for number in range(50)))
            self.assertEqual([bytes(3000)] * 50, list(near.get_many("top", ((7, number) for number in range(50)))))
            self.assertEqual([bytes(3000)] * 50, list(far.get_many("top", ((7, number) for number in range(50)))))
            self.assertEqual([[]] * 2000, far.answers_of([("list", "top", 8)] * 2000))
            threading.Timer(0.2, far.abort).start()
            with self.assertRaises(Ended), self.stopped():
                far.put("top", 7, 1, b"a")
        self.assertRaises(Ended, Store, Tunnel([sys.executable, "-c", "pass"]))

    def test_many_lines_one_by_one_and_in_a_batch(self):
        due = {(7, number): b"%d" % number for number in range(100)}
        with self.open() as one, self.open() as other:
            one.put_many("top", ((*key, value) for key, value in due.items()))
            self.assertEqual([*due.values(), None], list(other.get_many("top", [*due, (8, 1)])))
            with self.assertRaises(Refusal), one.batch():
                one.remove_many("top", due)
                one.put_many("top", [(7, 200, b"a"), (7, 201, bytes(4001))])
            self.assertEqual(100, len(list(other.list("top"))))
            with one.batch():
                one.remove_many("top", list(due)[1:])
                one.put_many("top", [(7, 200, b"a")])
                self.assertRaises(ValueError, list, one.get_many("top", due))
                self.assertEqual(100, len(list(other.list("top"))))
            self.assertEqual([Record(7, 0, b"0"), Record(7, 200, b"a")], list(other.list("top")))

    def test_parts_and_pages_are_read(self):
        with self.open() as one, self.open() as other:
            one.new("north", "top")
            one.put_many("north", ((7, number, b"%d" % number) for number in range(1, 1003)))
            self.assertEqual([b"2", b"3"], [it.value for it in other.list("north", 7, 2, 3)])
            self.assertEqual([b"1002"], [it.value for it in other.next("north", 7, 1002, 5)])
            self.assertEqual([Change(7, 5, None, b"5")], list(other.diff("top", "north", 7, 5, 5)))
            self.assertEqual(list(one.list("north")), list(other.scan("north")))
            self.assertEqual([], list(other.scan("north", 8)))
            with one.batch():
                self.assertRaises(ValueError, one.next, "north", 7, 1, 1)
                self.assertRaises(ValueError, one.scan, "north")

    def test_a_service_is_not_copied(self):
        with self.open() as store:
            self.assertRaises(ValueError, store.copy, f"{self.file}.none")
            with store.batch():
                self.assertRaises(ValueError, store.copy, f"{self.file}.none")
        self.assertFalse(os.path.exists(f"{self.file}.none"))

    def test_a_batch_is_made_as_a_whole(self):
        with self.open() as one, self.open() as other:
            with one.batch():
                one.new("north", "top")
                one.put("north", 7, 1, b"a")
                self.assertIsNone(one.merge("north"))
                self.assertEqual(["top", ".service"], [it.name for it in other.alternatives()])
                one.post("north")
            self.assertEqual(b"a", other.get("top", 7, 1))
            self.assertEqual(0, one.merge("north"))

    def test_of_a_batch_that_is_refused_nothing_is_made(self):
        with self.open() as store:
            with self.assertRaises(Refusal) as came, store.batch():
                store.put("top", 7, 1, b"a")
                store.remove("top", 7, 2)
                store.put("top", 7, 3, b"a")
            self.assertEqual("5 NoSuchRecord", str(came.exception))
            with self.assertRaises(Refusal) as came, store.batch():
                store.put("top", 7, 1, b"a")
                store.put(".service", 7, 1, b"a")
            self.assertEqual(
                (90, "Denied", "change .service"), (came.exception.number, came.exception.name, came.exception.detail)
            )
            with self.assertRaises(KeyError), store.batch():
                store.put("top", 7, 1, b"a")
                raise KeyError
            for call in [
                lambda: store.get("top", 7, 1), lambda: list(store.list("top")), store.commit, store.rollback,
                store.batch().__enter__,
            ]:
                with self.assertRaises(ValueError), store.batch():
                    store.put("top", 7, 1, b"a")
                    call()
            with store.batch():
                pass
            self.assertEqual([], list(store.list("top")))

    def test_a_batch_that_depends_on_what_was_seen(self):
        with self.open() as one, self.open() as other:
            one.new("north", "top")
            seen = other.batches()
            self.assertEqual(1, seen)
            one.put("north", 7, 1, b"a")
            with self.assertRaises(Refusal) as came, other.batch({"north": seen, "top": seen}):
                other.put("north", 7, 1, b"b")
            self.assertEqual(
                (103, "Changed", "north 2"), (came.exception.number, came.exception.name, came.exception.detail)
            )
            with other.batch({"north": other.batches()}):
                other.put("north", 7, 1, b"b")
            self.assertEqual(b"b", one.get("north", 7, 1))

    def test_a_call_that_waits_is_aborted(self):
        with self.assertRaises(Ended), self.open() as store, self.stopped():
            threading.Timer(0.2, store.abort).start()
            store.put("top", 7, 1, b"a")

    def test_the_journal_is_read(self):
        with self.open() as store:
            store.new("north", "top")
            store.put("north", 7, 1, b"a b")
            store.put("top", 7, 2, b"c")
            found = list(store.log())
            self.assertEqual(
                [(1, "new north top"), (2, "put north 7 1 a%20b"), (3, "put top 7 2 c")],
                [(it.batch, it.line) for it in found],
            )
            self.assertEqual({store.whoami()}, {it.planner for it in found})
            self.assertEqual(found[:1] + found[1:2], list(store.log(record="7:1")))
            self.assertEqual(found[1:2], list(store.log(alternative="north", last=1)))
            with self.assertRaises(Refusal):
                store.log(nothing="x")
            store.act_for("anna")
            self.assertEqual("anna", store.whoami())
            with self.assertRaises(Refusal) as caught:  # Without rules whom somebody acts for may change nothing.
                store.put("top", 7, 3, b"d")
            self.assertEqual("Denied change ~", str(caught.exception).split(" ", 1)[1])
            with self.assertRaises(Refusal):
                store.act_for("@north")

    def test_a_service_that_ends_is_an_error(self):
        with self.assertRaises(Ended), self.open() as store:
            store.put("top", 7, 1, b"a")
            self.service.terminate()
            self.service.wait()
            store.put("top", 7, 2, b"a")
        self.assertRaises(OSError, self.open)
        with Store(self.file, ALTCTL) as store:
            self.assertEqual([Record(7, 1, b"a")], list(store.list("top")))


if __name__ == "__main__":
    unittest.main()
