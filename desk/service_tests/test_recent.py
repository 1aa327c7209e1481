"""Tests of the service: the last entries of the journal, which the store has as records."""
import contextlib
import json
import os
import re
import shutil
import signal
import unittest
from pathlib import Path

from service.batch import Batch
from service.journal import entry_of
from service.recent import FIRST, LONGEST, PARTS, entries_of, last_batch, puts_of
from service.rules import Person
from service_tests.support import ALTCTL, LONG, ServiceTest

# No stamp comes by itself.
NO_STAMPS = "from service import server\nserver.TICK = 1000"
# So many values of 4,000 bytes make an entry that is too long for a record.
LARGE = 17

# The program, and if the file NOW is there, one that commits three of the batches that wait, and ends then.
DYING = """#!/usr/bin/env python3
import os, subprocess, sys

if not os.path.exists({now!r}):
    os.execv({altctl!r}, ["altctl", *sys.argv[1:]])
os.unlink({now!r})
program = subprocess.Popen([{altctl!r}, *sys.argv[1:]], stdin=subprocess.PIPE, stdout=subprocess.PIPE, close_fds=False)
ROWS = (b"@", b"alternative", b"checkpoint", b"change", b"record")
held = set()

def ask(line, is_over):
    program.stdin.write(line)
    program.stdin.flush()
    text = b""
    while not is_over(text):
        text += program.stdout.readline()
    sys.stdout.buffer.write(text)
    sys.stdout.buffer.flush()

for line in sys.stdin.buffer:
    words = line.split(b" ", 2)
    if words[0] == b"go\\n":
        ask(line, lambda text: text.endswith(b"@0\\nok\\n"))
        held.clear()
    elif line.startswith(b"#") or words[1] in held:
        program.stdin.write(line)
        if words[0] == b"later" and len(held) == 3:
            program.communicate(b"go\\n")
            os._exit(9)
    else:
        held |= {{words[1]}} if words[-1] == b"begin\\n" else set()
        ask(line, lambda text: text.count(b"\\n") > 1 and not text.splitlines()[-1].startswith(ROWS))
"""


class RecordTests(unittest.TestCase):
    """Records as texts."""

    def entry(self, *lines):
        batch = Batch(Person(7, "anna", frozenset()), [it.encode() for it in lines])
        return entry_of("2026-01-01T00:00:00.000Z", batch, ["top"])

    def rows(self, key, line):
        """The rows that tell the records of a line."""
        for it in puts_of(key, line):
            _, name, table, number, value = it.split(b" ")
            self.assertEqual((b".service", b"%d" % key), (name, number))
            self.assertLessEqual(len(re.sub(rb"%..", b"x", value)), 4000)
            yield b"change", table, number, b"~", value.replace(b"~", b"%7E")

    def test_an_entry_in_parts(self):
        for size in (1, 100, 4000, 7800, 8000, 60_000):
            lines = [f"put top 1 {it} %41~\\\"{'x' * 3000}" for it in range(size // 3000)]
            lines.append("put top 1 1 " + "x" * (size % 3000))
            line = self.entry(*lines).line(5, 1)[:-1]
            rows = list(self.rows(9, line))
            self.assertEqual({9: (5, line)}, entries_of(reversed(rows), 3), size)
            self.assertEqual([str(FIRST - it).encode() for it in range(len(rows))], [it[1] for it in rows])
        self.assertEqual(PARTS, len(list(self.rows(1, b"x" * LONGEST))))

    def test_numbers(self):
        """Each has the next one, or the one that it has at least."""
        rows, entry = [], self.entry("drop a")
        for key, number in ((3, 6), (4, 6), (7, 6), (8, 20)):
            rows += self.rows(key, entry.line(number, 0)[:-1])
        self.assertEqual([(3, 6), (4, 7), (7, 8), (8, 20)], [(key, it) for key, (it, _) in entries_of(rows, 5).items()])
        texts = [b" ".join(it).decode() for it in rows]
        self.assertEqual(20, last_batch(["checkpoint 5", "end 1"], [*texts, "end 4"]))
        self.assertEqual(5, last_batch(["checkpoint 5", "end 1"], ["end 0"]))

    def test_what_no_service_has_made(self):
        for row in (b"65535 1 ~ abc", b"65535 1 ~ " + b"0" * 8 + b'{"batch":1}', b"1 1 a ~"):
            self.assertRaises(ValueError, entries_of, [[b"change", *row.split(b" ")]], 0)


class RecentTests(ServiceTest):
    def numbers(self):
        lines = map(json.loads, Path(self.journal).read_text().splitlines())
        return [(it["batch"], it["lines"]) for it in lines if "batch" in it]

    def killed(self, *batches):
        """Has batches carried out by a service that is killed then. Returns the entries of its journal."""
        self.start(change=NO_STAMPS)
        with self.planner() as one:
            for lines in batches:
                self.assertEqual([], [it for it in one.ask("begin", *lines, "commit") if it[:2] != "ok"])
        self.stop(signal.SIGKILL)
        return self.numbers()

    def test_what_the_journal_lost_comes_back(self):
        batches = [["new a top", "put a 1 1 x%20y"], ["put a 1 2 b\"\\"], ["merge a", "post a"]]
        batches.append(["put top 1 3 " + LONG[: 3 * 3990], "drop a"])
        due = self.killed(*batches)
        self.assertEqual([(number, lines) for number, lines in enumerate(batches, 1)], due)
        store, journal = Path(self.file).read_bytes(), Path(self.journal).read_bytes()
        begin = journal.index(b'{"batch":1')
        lines = [begin + it.end() for it in re.finditer(b"\n", journal[begin:])]
        for text in (
            *(journal[:it] for it in (begin, begin + 30, *lines, lines[4] - 1)),
            *(journal[: it - 20] + bytes(40) + journal[it + 20 :] for it in lines[:-1]),
            *(journal[: it - 20] + b'\x91garbage\n\n{"batch":77,"time\n' + journal[it + 20 :] for it in lines[:-1]),
            journal[:begin] + bytes(len(journal) - begin),
        ):
            Path(self.file).write_bytes(store)
            Path(self.journal).write_bytes(text)
            self.start()
            with self.planner() as one:
                self.assertEqual("batches 4", one.ask("batches")[0])
                self.assertEqual(["ok"], one.ask("put top 9 9 z"))
            self.assertEqual(0, self.stop())
            self.assertEqual([*due, (5, ["put top 9 9 z"])], self.numbers())
            self.assertEqual(["checkpoint 5", "end 1", "end 0"], self.altctl("checks .service", "changes .service"))

    def test_a_clean_end_leaves_a_stamp_alone(self):
        self.start(change=NO_STAMPS)
        with self.planner() as one:
            self.assertEqual(["ok"] * 3, one.ask("put top 1 1 a", "put top 1 2 a", "put top 1 3 a"))
            self.assertEqual(["checkpoint 0", "end 1"], one.rows("checks .service"))
            self.assertEqual("end 3", one.rows("changes .service")[-1])
        self.assertEqual(0, self.stop())
        self.assertEqual(["checkpoint 3", "end 1", "end 0"], self.altctl("checks .service", "changes .service"))

    def test_a_stamp_comes_a_while_after_a_batch(self):
        self.start()
        with self.planner() as one:
            self.assertEqual(["ok"], one.ask("put top 1 1 a"))
            self.until(lambda: one.rows("checks .service") == ["checkpoint 1", "end 1"])
            self.assertEqual(["end 0"], one.rows("changes .service"))

    def test_an_entry_that_is_too_long_for_a_record(self):
        lines = [f"put top 1 {it} {'x' * 4000}" for it in range(LARGE)]
        due = self.killed(["put top 2 1 a"], lines, ["put top 2 2 a"])
        # What follows it is in the store alone.
        os.truncate(self.journal, Path(self.journal).read_bytes().index(b'{"batch":3'))
        self.start()
        with self.planner() as one:
            self.assertEqual(f"end {LARGE + 2}", one.rows("list top")[-1])
        self.stop()
        self.assertEqual([(1, ["put top 2 1 a"]), (2, lines), (3, ["put top 2 2 a"])], self.numbers())
        self.assertEqual(due, self.numbers())

    def test_a_long_entry_that_is_refused(self):
        lines = [f"put top 1 {it} {'x' * 4000}" for it in range(LARGE)]
        self.start(change=NO_STAMPS)
        with self.planner() as one:
            self.assertEqual(["ok"], one.ask("put top 2 1 a"))
            due = ["ok", *["error 91 NotDone 18"] * LARGE, "error 5 NoSuchRecord", "error 91 NotDone 18"]
            self.assertEqual(due, one.ask("begin", *lines, "remove top 3 3", "commit"))
            self.assertEqual(["ok", "batches 3"], one.ask("put top 2 2 a", "batches"))
        self.stop(signal.SIGKILL)
        due = ["1 put top 2 1 a", "3 put top 2 2 a"]
        for _ in range(2):
            self.assertEqual(due, self.log())
            self.start()
            self.stop()

    def test_a_full_store_can_be_emptied(self):
        os.unlink(self.file)
        self.create(64)
        self.start()
        with self.planner() as one:
            one.ask("new a top")
            for value in ("x" * 4000, "x"):
                number = 0
                while one.ask(f"put a 1 {number} {value}") == ["ok"]:
                    number += 1
            self.assertEqual(["error 13 Full"], one.ask("put top 1 1 a"))
            self.assertEqual(["ok", "ok"], one.ask("drop a", "put top 1 1 a"))
        self.stop()
        self.assertEqual(["drop a", "put top 1 1 a"], [it.split(" ", 1)[1] for it in self.log()[-2:]])
        self.assertEqual(["record 1 1 a", "end 1"], self.altctl("list top"))

    def test_what_is_refused_leaves_no_record_and_no_number(self):
        self.start(change=NO_STAMPS)
        with contextlib.ExitStack() as stack:
            planners = [stack.enter_context(self.planner()) for _ in range(12)]
            for one in planners:
                one.ask("whoami")
            with self.halted():
                planners[0].send("put top 1 0 a")
                self.until(planners[0].is_read)
                for number, one in enumerate(planners[1:], 1):
                    last = "remove top 9 9" if number % 3 == 0 else "put top 2 2 a"
                    one.send("begin", f"put top 1 {number} a", last, "commit")
            for number, one in enumerate(planners):
                answers = one.read(4 if number else 1)
                self.assertEqual(number % 3 == 0 and number > 0, "error 5 NoSuchRecord" in answers)
            rows = one.rows("changes .service")
            self.assertEqual("end 9", rows[-1])
            self.assertNotIn("remove", "".join(rows))
            self.assertEqual((9, "batches 9"), (one.last_batch(), one.ask("batches")[0]))
        self.stop(signal.SIGKILL)
        self.assertEqual([*range(1, 10)], [number for number, _ in self.numbers()])

    def test_the_program_is_killed_within_a_group(self):
        """What was committed is answered so, and the rest is carried out once."""
        program = Path(self.folder, "dying")
        program.write_text(DYING.format(altctl=os.path.abspath(ALTCTL), now=f"{self.folder}/now"))
        program.chmod(0o755)
        Path(self.folder, "now").touch()
        self.start("--program", str(program), change=NO_STAMPS)
        with contextlib.ExitStack() as stack:
            planners = [stack.enter_context(self.planner()) for _ in range(8)]
            for one in planners:
                one.ask("whoami")
            with self.halted():
                planners[0].send("get top 1 1")
                self.until(planners[0].is_read)
                # One that is refused has each of the others carried out as a batch of its own.
                planners[7].send("put nowhere 1 1 a")
                for number, one in enumerate(planners[1:7], 1):
                    one.send(f"put top 1 {number} a")
            planners[0].read()
            self.assertEqual([["ok"]] * 6, [one.read() for one in planners[1:7]])
            self.assertEqual(["error 1 NoSuchAlternative"], planners[7].read())
            self.assertEqual("end 6", planners[0].rows("list top")[-1])
            self.assertRegex(self.said.read_text(), "it was started again, after batch [23]\n")
        self.stop(signal.SIGKILL)
        self.assertEqual([*range(1, 7)], [number for number, _ in self.numbers()])
        self.assertEqual(6, len({lines[0] for _, lines in self.numbers()}))

    def test_records_that_a_planner_puts_there(self):
        self.start()
        with self.planner() as one:
            puts = [f"put top {FIRST - it} {key} 00000000{{}}" for it in range(PARTS) for key in range(1, 12)]
            self.assertEqual(["ok"] * (len(puts) + 2), one.ask("begin", *puts, "commit"))
            self.until(lambda: one.rows("changes .service") == ["end 0"])
            for number in range(3):
                self.assertEqual(["ok"], one.ask(f"put top 1 {number} a"))
            self.assertEqual(4, one.last_batch())
            self.stop(signal.SIGKILL)
        os.truncate(self.journal, Path(self.journal).read_bytes().index(b'{"batch":3'))
        self.start()
        with self.planner() as one:
            self.assertEqual(["batches 4", "ok", "batches 5"], one.ask("batches", "put top 1 3 a", "batches"))
            self.assertEqual(["record 1 3 a"], one.rows("list top 1 3 3")[:-1])
        self.stop()
        self.assertEqual([*range(1, 6)], [number for number, _ in self.numbers()])

    @unittest.skipUnless(shutil.which("strace"), "strace is not installed")
    def test_two_syncs_for_a_commit(self):
        os.unlink(self.file)
        self.create(16384)
        calls = Path(self.folder, "calls")
        self.start(
            change=NO_STAMPS, before=["strace", "-f", "-qq", "-e", "trace=fsync,fdatasync", "-o", str(calls)]
        )
        try:
            with self.planner() as one:
                one.ask("put top 1 0 a")
                before = calls.read_text().count("sync(")
                self.assertEqual(["ok"] * 20, [one.ask(f"put top 1 {it} a")[0] for it in range(20)])
                self.assertEqual(40, calls.read_text().count("sync(") - before)
        finally:
            # The signal is for the service, and not for who looks at it.
            traced = Path(f"/proc/{self.service.pid}/task/{self.service.pid}/children").read_text().split()
            os.kill(int(traced[0]), signal.SIGTERM)
            self.service.wait(60)
            self.service = None
