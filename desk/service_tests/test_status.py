"""What the service tells about itself."""
import os
import re
import subprocess
import sys
import time
import unittest
import unittest.mock

from service.status import FIGURES, MOST_TOLD, Commits, Disk, Room, Teller
from service_tests.support import ALTSERVE, DESK, HAS_TOML, NEEDS_TOML, ServiceTest


class StatusTests(ServiceTest):
    def status(self, *options):
        ran = subprocess.run(
            [sys.executable, ALTSERVE, "status", *options, self.file], stdout=subprocess.PIPE, stderr=subprocess.PIPE
        )
        return ran.returncode, ran.stdout.decode(), ran.stderr.decode()

    def test_the_figures(self):
        self.start()
        with self.planner() as one, self.planner() as other:
            one.ask("new a top", "put a 1 1 a", "put nowhere 1 1 a")
            one.ask("begin", "put a 1 2 a", "put a 1 3 a", "commit")
            other.ask("begin")
            other.send("put a 1 4 a")
            self.until(other.is_read)
            rows = one.rows("status")
            self.assertEqual(f"end {len(rows) - 1}", rows[-1])
            found = {name: float(value) for _, name, value in (it.split() for it in rows[:-1])}
            due = {"blocks": 256, "alternatives": 2, "batches_total": 3, "refused_batches_total": 1, "planners": 2}
            due.update(users=1, logs=0, waiting_planners=0)
            self.assertEqual(due, {name: found[name] for name in due})
            self.assertEqual(found["last_batch"], one.last_batch())
            self.assertEqual(f"free {found['free_blocks']:.0f}", one.ask("free")[0])
            self.assertEqual(os.path.getsize(self.journal), found["journal_bytes"])
            self.assertEqual(len("put a 1 4 a") + 64, found["held_bytes"])
            self.assertLessEqual(found["commits_total"], 3)
            self.assertGreaterEqual(found["commit_seconds_total"], found["sync_seconds_total"])
            self.assertGreaterEqual(found["commit_seconds_total"], found["commit_seconds_slowest"])
            self.assertEqual(["error 22 BadLine"], one.ask("status now"))
            disk = os.statvfs(self.folder)
            self.assertLess(abs(found["disk_free_bytes"] - disk.f_bavail * disk.f_frsize), 1 << 30)
        self.assertEqual({*FIGURES} - {"spare_blocks", "seconds_left", "disk_seconds_left"}, {*found})

    def test_the_command(self):
        self.assertEqual((1, ""), self.status()[:2])
        self.start()
        status, text, _ = self.status()
        self.assertEqual((0, "blocks 256"), (status, text.splitlines()[0]))
        status, text, _ = self.status("--prometheus")
        form = r"# HELP altserve_(\w+) [^\n]+\n# TYPE altserve_\1 (?:gauge|counter)\naltserve_\1 [0-9.]+\n"
        self.assertRegex(text, f"^(?:{form})+$")
        self.assertIn("\naltserve_blocks 256\n", text)

    def test_a_command_that_nobody_reads(self):
        self.start()
        reader, writer = os.pipe()
        os.close(reader)
        words = [sys.executable, ALTSERVE, "status", self.file]
        ran = subprocess.run(words, stdout=writer, stderr=subprocess.PIPE, timeout=60)
        os.close(writer)
        self.assertEqual((0, b""), (ran.returncode, ran.stderr))

    def test_the_page_names_each_figure(self):
        text = (DESK.parent / "docs" / "PLANNERS.md").read_text()
        self.assertEqual(
            {*FIGURES},
            {it for row in re.findall(r"^\| (`[a-z_`, ]+`) \|", text, re.M) for it in re.findall(r"\w+", row)}
            & {*FIGURES},
        )

    @unittest.skipUnless(HAS_TOML, NEEDS_TOML)
    def test_what_is_told(self):
        self.rules('[change]\nnorth = ["*"]')
        self.start(change="from service import batches\nbatches.SLOW_SECONDS = 0.3")
        with self.planner() as one:
            one.ask(
                "put top 1 1 a", "begin", "new north top", "put top 1 1 a", "commit", "begin", "new north top", "commit"
            )
            with self.halted():
                one.send("put north 1 1 a")
                time.sleep(0.5)
            one.ask(*["drop north"] * 20)
        self.assertEqual(0, self.stop())
        said = self.said.read_text()
        self.assertRegex(said, r"denied: \w+, uid \d+: put top 1 1 a: Denied change ~\n")
        self.assertRegex(said, r"denied: \w+, uid \d+: line 2 of a batch: Denied change ~\n")
        self.assertLess(said.count("drop north"), 20)
        self.assertRegex(said, r"ended after batch 2, 2 batches in 2 commits\n$")


class RoomTests(unittest.TestCase):
    def test_how_long_the_blocks_last(self):
        room = Room()
        for now, free in enumerate((100, 60, 20, 90, 50, 25)):
            room.note(now, 256, free)
        self.assertEqual((90, None), (room.spare(), room.seconds_left()))
        room.note(13, 256, 80)
        # Ten blocks in ten seconds, and 80 are left.
        self.assertEqual((80, 80), (room.spare(), room.seconds_left()))
        room.note(14, 512, 336)
        self.assertEqual((None, None), (room.spare(), room.seconds_left()))

    def test_how_long_the_disk_lasts(self):
        disk, free = Disk("map.alt"), iter((900, 800, None, 750, 760, 700))
        with unittest.mock.patch.object(disk, "free", lambda: next(free)):
            for now, due in ((0, None), (9, None), (10, 80), (20, 80), (30, 150), (40, 760 * 40 / 140), (50, 175)):
                disk.note(now)
                self.assertEqual(due, disk.seconds_left(), now)

    def test_the_slowest_commit(self):
        commits = Commits()
        for now, seconds in ((0, 5.0), (10, 1.0), (20, 3.0), (70, 2.0)):
            commits.note(now, 1, 2, seconds)
        self.assertEqual((4, 8, 11.0), (commits.count, commits.batches, commits.seconds))
        self.assertEqual([5.0, 3.0, 2.0, 0.0], [commits.slowest_since(it) for it in (0, 11, 21, 71)])

    def test_how_many_more_events_there_were(self):
        said = []
        teller = Teller(said.append)
        with unittest.mock.patch("time.monotonic", side_effect=[10.1] * 8 + [10.9, 11.0]):
            for number in range(9):
                teller.tell("denied", str(number))
            teller.tell("slow commit", "a")
        self.assertEqual([*(f"denied: {it}" for it in range(5)), "denied: 4 more", "slow commit: a"], said)

    def test_many_events_of_a_kind(self):
        said = []
        teller = Teller(said.append)
        for number in range(100):
            teller.tell("denied", str(number))
            teller.tell("other", str(number)) if number < 3 else None
        self.assertLessEqual(len(said), 3 * MOST_TOLD + 3)
        self.assertIn("other: 2", said)
