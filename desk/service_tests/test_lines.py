"""Tests of the service: lines."""
import os
import signal
import subprocess
import unittest

from service import limits
from service.lines import LINES
from service_tests.support import DESK, HAS_NC, LONG, LONG_VALUE, NAMED, ServiceTest


class LineTests(ServiceTest):
    def test_a_line_is_durable_before_it_is_answered(self):
        self.start()
        with self.planner() as one:
            self.assertEqual(
                ["ok", "ok", "value duct"], one.ask("new north top", "put north 7 1 duct", "get north 7 1")
            )
            os.kill(self.program(), signal.SIGKILL)
            self.assertEqual(["value duct", "none"], one.ask("get north 7 1", "get north 7 2"))
        self.stop(signal.SIGKILL)
        self.start()
        self.assertEqual(0, self.stop())
        self.assertEqual(["value duct"], self.altctl("get north 7 1"))

    def test_lines_are_answered_as_by_the_program(self):
        due = {
            "new north top": "ok",
            "put top 7 1 a": "ok",
            "  put   north 7 1 b \r": "ok",
            "put north 7 2 Stra\xdfe": "ok",
            "# a remark": "",
            "": "",
            "conflicts north": "conflict 7 1 ~ a b|end 1",
            "merge north": "error 9 Unsettled 1",
            "merge north 7:1=mine 7:9=mine": "error 10 NotInConflict 7:9",
            "merge north 7:1=mine": "ok 0",
            "changes north": "change 7 1 a b|change 7 2 ~ Stra%C3%9Fe|end 2",
            "checkpoint north before": "ok",
            "checks north": "checkpoint before|end 1",
            "remove north 7 2": "ok",
            "remove north 7 2 ": "error 5 NoSuchRecord",
            "get north 7 2": "none",
            "back north before": "ok",
            "list north": "record 7 1 b|record 7 2 Stra%C3%9Fe|end 2",
            "post north": "ok",
            "get top 7 1": "value b",
            "uncheck north before": "ok",
            "drop north": "ok",
            "drop top": "error 6 IsTop",
            "nonsense": "error 22 BadLine word 1: there is no such line",
            "put top 7": "error 22 BadLine word 1 takes ALT TABLE NUMBER VALUE",
            "put top 65536 1 a": "error 22 BadLine word 3: TABLE is 0 to 65535",
            "put top 7 1 %2": f"error 22 BadLine {LONG_VALUE}",
            "put a/b 7 1 a": f"error 22 BadLine word 2: ALT is {NAMED}",
            "put a/b 7 1": "error 22 BadLine word 1 takes ALT TABLE NUMBER VALUE",
            "merge a/b 7:1=ours": f"error 22 BadLine word 2: ALT is {NAMED}",
            "new": "error 22 BadLine word 1 takes NAME PARENT [CHECKPOINT]",
            "new a/b top": f"error 22 BadLine word 2: NAME is {NAMED}",
            "new a top@ b": f"error 22 BadLine word 3: PARENT is {NAMED}",
            "new a top b!": f"error 22 BadLine word 4: CHECKPOINT is {NAMED}",
            "new a/b top b c": "error 22 BadLine word 1 takes NAME PARENT [CHECKPOINT]",
            "back a/b c!": f"error 22 BadLine word 2: ALT is {NAMED}",
            "post": "error 22 BadLine word 1 takes ALT",
            "put nowhere 7 1 a": "error 1 NoSuchAlternative",
            "list nowhere": "error 1 NoSuchAlternative",
            "grow 10": "error 21 BadSize",
            "grow 300": "ok",
            "reclaim": "ok",
            "commit": "ok",
        }
        lines = [it for it in due if it]
        for answers in [self.altctl(*lines), None]:
            if answers is None:
                os.unlink(self.file)
                self.create()
                self.start()
                with self.planner() as one:
                    one.send(*due)
                    answers = one.rest()
            self.assertEqual("|".join(filter(None, due.values())), "|".join(answers))

    def test_carriage_returns_are_read_as_by_the_program(self):
        lines = [
            "new a top\r", "new b top\r\r", "new c .service\r\r", "put a 1 1 x\r\r", "get a 1 1", "put a 1 2 x\ry",
            "get a 1 2\r", "get a 1 2\r\r",
            "put a 1 3 \r\r", "get a 1 3", "put a 1 4 x \r", "get a 1 4", "put a 1 4 x\r \r", "get a 1 4", "commit\r\r",
            "\r", "\r\r", "#\r\r", "list a\r",
        ]
        # One of the program's own answers takes the place of the one that the service gives for its alternative.
        due = self.altctl(*lines)
        self.assertIn("value x%0D", due)
        os.unlink(self.file)
        self.create()
        self.start()
        with self.planner() as one:
            one.send(*lines)
            self.assertEqual(due, one.rest())
        puts = ["put a 1 1 x%0D", "put a 1 2 x%0Dy", "put a 1 3 %0D", "put a 1 4 x", "put a 1 4 x%0D"]
        self.assertEqual(["new a top", *puts], [it.split(" ", 1)[1] for it in self.log()])

    def test_each_line_of_the_formats_is_known(self):
        text = (DESK.parent / "docs" / "FORMATS.md").read_text()
        rows = [it.split("`")[1] for it in text[text.index("| Line | Does |") :].split("\n\n")[0].splitlines()[2:]]
        verbs = {it.split()[0].encode() for it in rows} - {b"commit", b"rollback"}
        self.assertEqual(verbs, set(LINES))
        self.start()
        with self.planner() as one:
            self.assertEqual(["blocks 256"], one.ask("blocks"))
            for verb, line in LINES.items():
                answers = one.ask(verb.decode() + " x" * 9)
                due = f"word 1 takes {line.words or 'no other word'}"
                due = "word 3: SETTLEMENT is TABLE:NUMBER=mine|theirs" if verb == b"merge" else due
                self.assertEqual([f"error 22 BadLine {due}"], answers)

    def test_words_of_the_service(self):
        self.start()
        name = subprocess.run(["id", "-un"], stdout=subprocess.PIPE, check=True).stdout.decode().strip()
        with self.planner() as one:
            self.assertEqual(["planner", name, str(os.getuid())], one.ask("whoami")[0].split()[:3])
            # Each line is committed by itself: a commit has nothing to do, and nothing can be taken back.
            self.assertEqual(
                ["ok"] * 4 + ["value a"], one.ask("put top 1 1 a", "commit", "rollback", "abort", "get top 1 1")
            )
            lines = [
                "whoami I", "backup", "backup a b", "log a", "log record=7", "log last=-1", "log last=a", "begin now",
                "commit all",
            ]
            for line in lines:
                self.assertEqual(["error 22 BadLine"], one.ask(line), line)

    def test_the_alternative_of_the_service_is_its_own(self):
        self.start()
        rights = {
            "put .service 1 1 a": "change",
            "drop .service": "drop",
            "post .service": "post",
            "new a .service": "change",
        }
        rights.update({"new .service top": "change", "uncheck .service 0": "change", "merge .service": "change"})
        with self.planner() as one:
            for line, right in rights.items():
                self.assertEqual([f"error 90 Denied {right} .service"], one.ask(line))
            self.assertEqual(["alternative top ~", "alternative .service top", "end 2"], one.rows("alts"))

    @unittest.skipUnless(HAS_NC, "nc -U (netcat-openbsd) is not installed")
    def test_netcat_will_do(self):
        self.start()
        words = ["nc", "-N", "-U", self.socket]
        ran = subprocess.run(words, input=b"put top 7 1 duct\nget top 7 1\n", stdout=subprocess.PIPE, timeout=60)
        self.assertEqual(b"ok\nvalue duct\n", ran.stdout)

    def test_a_line_without_its_end_is_not_carried_out(self):
        self.start()
        with self.planner() as one:
            one.socket.sendall(b"put top 7 1 a\nput top 7 12 value")
            self.assertEqual(["ok", "error 96 HalfLine"], one.rest())
        with self.planner() as one:
            self.assertEqual(["record 7 1 a", "end 1"], one.rows("list top"))

    def test_how_long_a_line_may_be(self):
        self.start()
        with self.planner() as one:
            bad, long = f"error 22 BadLine {LONG_VALUE}", "error 23 LongLine"
            for size, due in [(limits.LINE_BYTES, bad), (limits.LINE_BYTES + 1, long)]:
                self.assertEqual([due, "ok"], one.ask("put top 7 1 ".ljust(size, "a"), "put top 7 1 a"))

    def test_many_lines_are_written_before_an_answer_is_read(self):
        self.start()
        with self.planner() as one:
            lines = [line for n in range(300) for line in (f"put top 1 {n} {n}", f"get top 1 {n}")]
            self.assertEqual([line for n in range(300) for line in ("ok", f"value {n}")], one.ask(*lines))

    def test_a_list_of_more_than_waits_in_memory(self):
        os.unlink(self.file)
        self.create(2048)
        self.start()
        with self.planner() as one:
            count = 3 * limits.UNREAD_BYTES // len(LONG)
            self.assertEqual(["ok"] * count, one.ask(*(f"put top 1 {n} {LONG}" for n in range(count))))
            due = [f"record 1 {n} {LONG}" for n in range(count)] + [f"end {count}"]
            one.send("list top", "list top", "get top 1 0")
            self.assertEqual(2 * due + [f"value {LONG}"], one.rest())

    def test_a_full_store_can_be_emptied(self):
        os.unlink(self.file)
        self.create(64)
        self.start()
        with self.planner() as one:
            one.ask("new a top")
            answers = [one.ask(f"put a 1 {n} {LONG}")[0] for n in range(64)]
            self.assertIn("error 13 Full", answers)
            # Lines that wait together have one commit, and what one of them gives back can be had after it.
            for line in ("drop a", "new a top", "put a 1 1 b"):
                self.assertEqual(["ok"], one.ask(line))
