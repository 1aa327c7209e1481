"""Tests of the service: batches."""
import contextlib
import json
import os
import signal
import sys
import time
from pathlib import Path

from service import limits
from service_tests.support import ALTCTL, LONG, ServiceTest, kept_batches


# The program with a word of earlier ones: `copy FROM TO`, which leaves a file NAME.copied behind.
OTHER = """#!{python}
import os, shutil, sys

if sys.argv[1] == "copy":
    shutil.copy(sys.argv[-2], sys.argv[-1])
    open(sys.argv[-2] + ".copied", "w").close()
    sys.exit()
os.execv({altctl!r}, [{altctl!r}, *sys.argv[1:]])
"""
# One without the words `serve --planners`.
EARLIER = """#!/bin/sh
if [ "$1" = serve ]; then exit 2; fi
exec {altctl} "$@"
"""


class BatchTests(ServiceTest):
    def test_a_batch_is_made_as_a_whole(self):
        self.start()
        with self.planner() as one, self.planner() as other:
            self.assertEqual(["ok"], one.ask("begin"))
            one.send("new north top", "put north 7 1 a", "put north 7 2 b", "merge north", "# a remark", "post north")
            self.assertEqual(["error 1 NoSuchAlternative"], other.rows("list north"))
            self.assertEqual(["ok", "ok", "ok", "ok 0", "ok", "ok"], one.ask("commit") + one.read(5))
            self.assertEqual(["value b"], other.ask("get top 7 2"))
        [batch] = kept_batches(self.journal)
        self.assertEqual((1, 2, ["north", "top"]), (batch["batch"], batch["records"], batch["alternatives"]))
        self.assertEqual(
            ["new north top", "put north 7 1 a", "put north 7 2 b", "merge north", "post north"], batch["lines"]
        )

    def test_of_a_batch_with_a_refused_line_nothing_is_made(self):
        self.start()
        with self.planner() as one, self.planner() as other:
            self.assertEqual(["ok"], other.ask("put top 1 1 a"))
            other.ask("begin")
            other.send("put top 1 1 b")
            lines = ["begin", "new north top", "put north 7 1 a", "put south 7 2 b", "put north 7 3 c", "commit"]
            others = ["error 91 NotDone 3"]
            self.assertEqual(["ok", *others * 2, "error 1 NoSuchAlternative", *others * 2], one.ask(*lines))
            self.assertEqual(["ok", "ok"], other.ask("commit") + other.read())
            self.assertEqual(["alternative top ~", "alternative .service top", "end 2"], one.rows("alts"))
            self.assertEqual(["value b"], one.ask("get top 1 1"))
        self.assertEqual(["1 put top 1 1 a", "2 put top 1 1 b"], self.log())

    def test_a_refused_line_leaves_no_number_behind(self):
        self.start()
        with self.planner() as one:
            self.assertEqual(["ok"], one.ask("put top 1 1 a"))
            for lines in (
                ["put nowhere 1 1 a"],
                ["begin", "remove top 1 9", "commit"],
                ["begin", "put top 1 2 a", "drop x", "commit"],
            ):
                one.ask(*lines)
                self.assertEqual((1, "end 1"), (one.last_batch(), one.rows("changes .service")[-1]), lines)
            self.assertEqual(["ok"], one.ask("put top 1 3 a"))
            self.assertEqual(["record 1 1 a", "record 1 3 a", "end 2"], one.rows("list top"))

    def test_batches_of_several_lines_share_a_commit(self):
        self.start()
        with contextlib.ExitStack() as stack:
            planners = [stack.enter_context(self.planner()) for _ in range(24)]
            for one in planners:
                one.ask("whoami")
            with self.halted():
                planners[0].send("put top 9 9 a")
                self.until(planners[0].is_read)
                for number, one in enumerate(planners[1:], 1):
                    # Each third is refused at its second line, and each fifth takes back what it has put.
                    last = (
                        "put nowhere 1 1 a"
                        if number % 3 == 0
                        else f"remove top 1 {number}"
                        if number % 5 == 0
                        else "put top 2 2 b"
                    )
                    one.send("begin", f"put top 1 {number} a", last, "commit")
            self.assertEqual(["ok"], planners[0].read())
            for number, one in enumerate(planners[1:], 1):
                refused = ["ok", "error 91 NotDone 2", "error 1 NoSuchAlternative", "error 91 NotDone 2"]
                self.assertEqual(refused if number % 3 == 0 else ["ok"] * 4, one.read(4), number)
            made = [number for number in range(1, 24) if number % 3 and number % 5]
            due = [*(f"record 1 {number} a" for number in made), "record 2 2 b", "record 9 9 a", f"end {len(made) + 2}"]
            self.assertEqual(due, planners[0].rows("list top"))
        lines = [json.loads(it) for it in Path(self.journal).read_text().splitlines()]
        self.assertEqual(17, sum("batch" in it for it in lines))
        self.assertLessEqual(sum("done" in it for it in lines), 4)

    def test_a_batch_that_has_no_room_beside_others_is_tried_by_itself(self):
        os.unlink(self.file)
        self.create(64)
        self.start()
        with self.planner() as one, self.planner() as other:
            one.ask("new a top", "new b top")
            full = next(n for n in range(64) if one.ask(f"put a 1 {n} {LONG}")[0] != "ok")
            while one.ask(f"put b 2 {full} a") == ["ok"]:
                full += 1
            self.assertEqual(["error 13 Full"], other.ask("put b 1 1 a"))
            with self.halted():
                one.send("get top 1 1")
                self.until(one.is_read)
                one.send("drop a")
                other.send("begin", "put b 3 1 a", "put b 3 2 a", "commit")
            self.assertEqual(["none", "ok"], one.read(2))
            self.assertEqual(["ok"] * 4, other.read(4))
        self.assertIn(f"full: {self.file} has no block for a change of ", self.said.read_text())

    def test_batches_of_one_planner_keep_their_order(self):
        os.unlink(self.file)
        self.create(64)
        self.start()
        with self.planner() as one, self.planner() as other:
            one.ask("new a top", "new b top")
            while one.ask(f"put a 1 {time.monotonic_ns()} {LONG}") == ["ok"]:
                pass
            for lines in (["put b 1 1 a"], ["begin", "put b 1 1 a", "put b 1 2 a", "commit"]):
                with self.halted():
                    other.send("get top 1 1")
                    self.until(other.is_read)
                    # There is room only after the drop, and the post needs what comes before it.
                    other.send("drop a")
                    one.send(*lines, "post b", "put top 1 1 c")
                self.assertEqual(["none", "ok"], other.read(2))
                self.assertEqual(["ok"] * (len(lines) + 2), one.read(len(lines) + 2))
                self.assertEqual(["value c", "value a"], one.ask("get top 1 1", "get b 1 1"))
                one.ask("drop b", "remove top 1 1", "remove top 1 2", "new a top", "new b top")
                while one.ask(f"put a 1 {time.monotonic_ns()} {LONG}") == ["ok"]:
                    pass
            # After a refused batch the next ones still see what came before them.
            one.ask("drop a")
            one.ask("begin", "put b 2 1 a", "drop nowhere", "commit")
            lines = ["begin", "new c b", "put c 2 1 a", "commit", "begin", "put c 2 2 a", "post c", "commit", "drop c"]
            self.assertEqual(["ok"] * len(lines), one.ask(*lines))

    def refuse_a_batch(self, one):
        """Has a batch refused, and makes a part of it. Returns whether the program was started again in between."""
        process = self.program()
        lines = ["begin", "new north top", "put north 7 1 a", "drop south", "commit"]
        others = ["error 91 NotDone 3"]
        self.assertEqual(["ok", *others * 2, "error 1 NoSuchAlternative", *others], one.ask(*lines))
        self.assertEqual(["alternative top ~", "alternative .service top", "end 2"], one.rows("alts"))
        self.assertEqual(["ok"] * 4, one.ask("begin", *lines[1:3], "commit"))
        self.assertEqual(["1 new north top", "1 put north 7 1 a"], self.log())
        return self.program() != process

    def test_the_program_takes_a_refused_batch_back(self):
        self.start()
        with self.planner() as one:
            self.assertFalse(self.refuse_a_batch(one))

    def other(self, text):
        program = Path(self.folder, "other")
        program.write_text(text.format(python=sys.executable, altctl=os.path.abspath(ALTCTL)))
        program.chmod(0o755)
        return str(program)

    def test_another_program_copies_by_itself(self):
        self.start("--program", self.other(OTHER))
        with self.planner() as one:
            self.assertEqual("ok", one.ask("backup a")[0].split()[0])
        self.assertTrue(os.path.exists(f"{self.file}.copied"))

    def test_an_earlier_program_is_refused(self):
        status, said = self.failed("--program", self.other(EARLIER))
        self.assertEqual((3, True), (status, "does not know `serve --planners`" in said), said)

    def test_a_batch_is_forgotten(self):
        self.start()
        with self.planner() as one:
            lines = ["begin", "put top 1 1 a", "put top 1 2 a"]
            aborted = ["error 92 Aborted"] * 2
            self.assertEqual(["ok", *aborted, "ok"], one.ask(*lines, "abort"))
            self.assertEqual(["ok", *aborted, "ok"], one.ask(*lines, "rollback"))
            self.assertEqual(["ok", "ok", "none"], one.ask("begin", "commit", "get top 1 1"))
            one.send(*lines)
            self.assertEqual(["ok", *aborted], one.rest())
        with self.planner() as one:
            one.send(*lines)
        with self.planner() as one:
            self.assertEqual(["end 0"], one.rows("list top"))

    def test_what_is_no_line_of_a_batch(self):
        self.start()
        with self.planner() as one:
            for line in ["get top 1 1", "list top", "free", "begin", "whoami", "log", "backup a"]:
                due = ["ok", "error 91 NotDone 2", "error 93 NotInBatch", "error 91 NotDone 2"]
                self.assertEqual(due, one.ask("begin", "put top 1 1 a", line, "commit"), line)
            bad = "error 22 BadLine word 1: there is no such line"
            due = ["ok", bad, "error 91 NotDone 1", "error 91 NotDone 1"]
            self.assertEqual(due, one.ask("begin", "nonsense", "put top 1 1 a", "commit"))
            due = ["ok", "error 90 Denied post .service", "error 91 NotDone 1"]
            self.assertEqual(due, one.ask("begin", "post .service", "commit"))
            self.assertEqual(["end 0"], one.rows("list top"))

    def test_how_large_a_batch_may_be(self):
        self.start_limited(BATCH_LINES=3)
        with self.planner() as one:
            lines = [f"put top 1 {n} a" for n in range(4)]
            self.assertEqual(["ok"] * 5, one.ask("begin", *lines[:3], "commit"))
            due = ["ok", *["error 91 NotDone 4"] * 3, "error 94 TooLarge", "error 91 NotDone 4"]
            self.assertEqual(due, one.ask("begin", *lines, "commit"))
            self.assertEqual(["ok"], one.ask("begin"))
            # Who goes on and on is closed.
            one.send(*lines, *lines)
            self.assertEqual([], one.rest())

    def test_how_many_bytes_a_batch_may_have(self):
        self.start_limited(BATCH_BYTES=2 * len("put top 1 1 a"))
        with self.planner() as one:
            due = ["ok", *["error 91 NotDone 3"] * 2, "error 94 TooLarge", "error 91 NotDone 3", "end 0"]
            self.assertEqual(due[:-1], one.ask("begin", *["put top 1 1 a"] * 3, "commit"))
            self.assertEqual(due[-1:], one.rows("list top"))

    def test_what_one_user_may_hold(self):
        line = "put top 1 1 a"
        self.start_limited(HELD_BYTES=4 * 8 * (len(line) + limits.LINE_COST))
        with self.planner() as one, self.planner() as other:
            one.ask("begin")
            one.send(*[line] * 8)
            self.until(lambda: other.ask("begin", line, "commit")[1:] == ["error 94 TooLarge", "error 91 NotDone 1"])
            # Whoever holds nothing is not kept waiting.
            self.assertEqual(["ok", "value b"], other.ask("put top 1 2 b", "get top 1 2"))
            self.assertEqual(["ok"] * 9, one.ask("commit") + one.read(8))
            self.assertEqual(["ok"] * 3, other.ask("begin", line, "commit"))

    def test_how_long_a_batch_may_be_held(self):
        self.start(change="from service import limits, server\nlimits.HELD_SECONDS = server.TICK = 0.2")
        with self.planner() as one:
            one.ask("begin")
            one.send("put top 1 1 a")
            time.sleep(1)
            self.assertEqual(["error 91 NotDone 2", "error 95 HeldTooLong"], one.ask("commit") + one.read())
            self.assertEqual(["none", "ok"], one.ask("get top 1 1", "put top 1 1 a"))

    def test_batches_that_wait_have_one_commit(self):
        self.start()
        with contextlib.ExitStack() as stack:
            planners = [stack.enter_context(self.planner()) for _ in range(32)]
            for one in planners:
                one.ask("whoami")
            with self.halted():
                planners[0].send("put top 1 0 a")
                time.sleep(0.3)
                for number, one in enumerate(planners[1:-1], 1):
                    one.send(f"put top 1 {number} a")
                planners[-1].send("put nowhere 1 1 a")
            for one in planners[:-1]:
                self.assertEqual(["ok"], one.read())
            self.assertEqual(["error 1 NoSuchAlternative"], planners[-1].read())
            self.assertEqual("end 31", planners[0].rows("list top")[-1])
        lines = [json.loads(it) for it in Path(self.journal).read_text().splitlines()]
        self.assertEqual(31, sum("batch" in it for it in lines))
        self.assertIn(sum("done" in it for it in lines), (1, 2))

    def test_a_batch_goes_on_where_the_program_is_killed(self):
        self.start()
        for lines in (["put top 1 1 a"], ["begin", "put top 1 2 a", "put top 1 3 a", "commit"]):
            with self.planner() as one:
                with self.halted() as program:
                    one.send(*lines)
                    time.sleep(0.2)
                    os.kill(program, signal.SIGKILL)
                self.assertEqual(["ok"] * len(lines), one.read(len(lines)))
        with self.planner() as one:
            self.assertEqual([*(f"record 1 {n} a" for n in (1, 2, 3)), "end 3"], one.rows("list top"))
        self.assertEqual(["1 put top 1 1 a", "2 put top 1 2 a", "2 put top 1 3 a"], self.log())
