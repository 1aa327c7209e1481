"""Tests of the service: batches that depend on what their planners saw."""
import os
import signal
import unittest
from unittest import mock

from service import last_changes, limits
from service.batch import Batch
from service.last_changes import LastChanges, independent
from service_tests.support import ServiceTest


class ChangedTests(ServiceTest):
    def test_a_batch_is_refused_if_what_its_planner_saw_has_changed(self):
        self.start()
        with self.planner() as one, self.planner() as other:
            self.assertEqual(["ok"] * 2 + ["batches 2"], one.ask("new a top", "new b top", "batches"))
            # A line that is refused takes no number.
            self.assertEqual(["error 1 NoSuchAlternative", "batches 2"], one.ask("put nowhere 7 1 x", "batches"))
            self.assertEqual(["ok"], other.ask("put a 7 1 theirs"))
            late = ["ok", "error 91 NotDone 2", "error 103 Changed a 3"]
            self.assertEqual(late, one.ask("begin a=2 top=2", "put a 7 1 mine", "commit"))
            self.assertEqual(["value theirs", "batches 3"], one.ask("get a 7 1", "batches"))
            self.assertEqual(["ok"] * 3, one.ask("begin a=3 top=2", "put a 7 1 mine", "commit"))
            # A post changes the parent, and what changes elsewhere does not count.
            self.assertEqual(["ok"] * 2, other.ask("post a", "put a 7 2 x"))
            self.assertEqual("error 103 Changed top 5", one.ask("begin top=4", "put top 7 1 mine", "commit")[-1])
            self.assertEqual(["ok"] * 3, one.ask("begin b=2", "put b 7 1 mine", "commit"))
            for words in ("begin a", "begin a=", "begin a=-1", "begin a=1 b", "batches now"):
                self.assertEqual(["error 22 BadLine"], one.ask(words), words)
        # A service that was started again does not know which of its earlier batches changed what.
        self.stop()
        self.start()
        with self.planner() as one:
            self.assertEqual(["batches 7"], one.ask("batches"))
            self.assertEqual("error 103 Changed b 7", one.ask("begin b=6", "put b 7 1 x", "commit")[-1])
            self.assertEqual(["ok"] * 3, one.ask("begin b=7", "put b 7 1 x", "commit"))

    def test_a_batch_without_lines_tells_whether_something_has_changed(self):
        self.start()
        with self.planner() as one:
            one.ask("new a top", "put a 7 1 x")
            self.assertEqual(["ok", "ok"], one.ask("begin a=2", "commit"))
            self.assertEqual(["ok", "error 103 Changed a 2"], one.ask("begin a=1", "commit"))
            self.assertEqual(["ok", "ok"], one.ask("begin a=1", "abort"))

    def test_nobody_has_seen_a_batch_that_the_store_does_not_hold(self):
        self.start()
        with self.planner() as one:
            one.ask("new a top", "new b top")
            due = ["ok", "error 91 NotDone 2", "error 103 Changed a 2"]
            self.assertEqual(due, one.ask("begin a=3", "put a 7 1 x", "commit"))
            self.assertEqual(["error 22 BadLine"], one.ask("begin a=2 a=1"))

    def test_of_two_in_one_group_the_later_one_is_refused(self):
        self.start()
        with self.planner() as one, self.planner() as other, self.planner() as third:
            one.ask("new a top", "new b top")
            with self.halted():
                third.send("put b 7 1 x")
                self.until(third.is_read)
                one.send("begin a=2", "put a 7 1 one", "commit", "put top 8 1 one")
                other.send("begin a=2", "put a 7 1 other", "commit", "put top 8 2 other")
            self.assertEqual(["ok"], third.read())
            # The first put of the second one is not carried out, and the line behind its batch is, after it.
            answers = {it: it.read(4) for it in (one, other)}
            [late] = [it for it, answer in answers.items() if answer != ["ok"] * 4]
            self.assertEqual(["ok", "error 91 NotDone 2", "error 103 Changed a 4", "ok"], answers[late])
            self.assertEqual([f"value {'other' if late is one else 'one'}"], one.ask("get a 7 1"))
            self.assertEqual("end 2", one.rows("list top 8")[-1])

    def test_a_batch_that_is_refused_changes_nothing_for_others_in_its_group(self):
        self.start()
        with self.planner() as one, self.planner() as other, self.planner() as third:
            one.ask("new a top", "new b top")
            for number in range(3):
                kept = int(one.ask("batches")[0].split()[1])
                with self.halted():
                    third.send("put b 7 1 x")
                    self.until(third.is_read)
                    one.send("begin", f"put a 7 {number} one", "put nowhere 7 1 one", "commit")
                    other.send(f"begin a={kept}", f"put a 8 {number} other", "commit")
                self.assertEqual(["ok"], third.read())
                self.assertEqual("error 1 NoSuchAlternative", one.read(4)[2])
                self.assertEqual(["ok"] * 3, other.read(3))

    def test_what_is_known_if_the_program_is_killed(self):
        self.start()
        with self.planner() as one:
            one.ask("new a top", "new b top")
            with self.halted() as program:
                one.send("begin a=1", "put a 7 1 x", "commit")
                self.until(one.is_read)
                os.kill(program, signal.SIGKILL)
            self.assertEqual(["ok"] * 3, one.read(3))
            kept = int(one.ask("batches")[0].split()[1])
            late = ["ok", "error 91 NotDone 2", f"error 103 Changed a {kept}"]
            self.assertEqual(late, one.ask("begin a=2", "put a 7 1 y", "commit"))
            self.assertEqual(["ok"] * 3, one.ask("begin b=2", "put b 7 1 y", "commit"))

    def test_whoever_leaves_has_no_line_of_a_refused_batch_carried_out(self):
        self.start()
        with self.planner() as one:
            one.ask("new a top", "put a 7 1 x")
        for number in range(20):
            with self.planner() as one:
                one.send(*["get a 7 1"] * 300, "begin a=1", "put a 7 2 late", "commit", f"put top 7 {number} x")
        with self.planner() as one:
            self.until(lambda: one.rows("list top")[-1] == "end 20")
            self.assertEqual(["none"], one.ask("get a 7 2"))

    def test_what_a_planner_saw_is_held_like_lines(self):
        words = [f"a{n}=0" for n in range(50)]
        self.start_limited(HELD_BYTES=4 * 40 * (limits.LINE_COST + len("a00=0")))
        with self.planner() as one:
            due = ["ok", "error 94 TooLarge", "error 91 NotDone 1", "error 91 NotDone 1"]
            self.assertEqual(due, one.ask(" ".join(["begin", *words]), "put top 7 1 x", "put top 7 2 x", "commit"))
            self.assertEqual(["ok"] * 3, one.ask(" ".join(["begin", *words[:20]]), "put top 7 1 x", "commit"))
            self.assertEqual(["ok"] * 3, one.ask(" ".join(["begin", *words[:30]]), "put top 7 1 x", "commit"))


class LastChangesTests(unittest.TestCase):
    def batch(self, *lines, source=None, **seen):
        return Batch(None, [it.encode() for it in lines], True, seen=seen, source=source)

    def refusal(self, changes, kept, **seen):
        return changes.refusal_of(self.batch(**seen), kept)

    def test_the_last_change_counts(self):
        changes = LastChanges(5)
        self.assertIsNone(self.refusal(changes, 5, a=5))
        self.assertEqual(b"error 103 Changed a 5", self.refusal(changes, 5, a=4))
        changes.note(6, ["a", "b"])
        changes.note(8, ["a"])
        self.assertEqual(b"error 103 Changed a 8", self.refusal(changes, 9, b=6, a=7))
        self.assertIsNone(self.refusal(changes, 9, a=8, b=6, c=5))

    def test_only_the_last_alternatives_are_followed(self):
        changes = LastChanges(0)
        with mock.patch.object(last_changes, "MOST", 3):
            for number, name in enumerate("abcabd", 1):
                changes.note(number, [name])
        self.assertEqual({"a": 4, "b": 5, "d": 6}, changes.batches)
        # Of c, and of all that were never followed, it is known that batch 3 was the last one, or an earlier one.
        self.assertEqual(b"error 103 Changed c 3", self.refusal(changes, 6, c=2))
        self.assertIsNone(self.refusal(changes, 6, c=3, e=3, b=5))

    def test_which_batches_may_share_a_commit(self):
        parents = {b"a": b"top", b"b": b"a"}
        for first, seen, shares in (
            ("put a 7 1 x", {"a": 1}, False),
            ("put a 7 1 x", {"b": 1, "top": 1}, True),
            ("post b", {"a": 1}, False),
            ("post b", {"top": 1}, True),
            ("post a", {"top": 1}, False),
            ("drop b", {"b": 1}, False),
            ("new c b", {"b": 1}, True),
            ("new c b", {"c": 1}, False),
            ("grow 4096", {"a": 1}, True),
        ):
            one, other = self.batch(first), self.batch("put d 7 1 x", **seen)
            self.assertEqual([one, other] if shares else [one], independent([one, other], parents), (first, seen))
            self.assertEqual([other, one], independent([other, one], parents))
        self.assertEqual({b"a": b"top", b"b": b"a"}, parents)

    def test_a_post_of_what_is_new_in_the_group(self):
        batches = [self.batch("new c a", "post c"), self.batch("put d 7 1 x", a=1), self.batch("put d 7 1 x", top=1)]
        self.assertEqual([batches[0], batches[2]], independent(batches, {b"a": b"top"}))

    def test_batches_of_one_planner_stay_in_order(self):
        source = object()
        batches = [self.batch("put a 7 1 x"), self.batch("put b 7 1 x", source=source, a=1)]
        batches.append(self.batch("put c 7 1 x", source=source))
        self.assertEqual(batches[:1], independent(batches, {}))
