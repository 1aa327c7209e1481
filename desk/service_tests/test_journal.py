"""Tests of the service: journal."""
import contextlib
import os
import random
import resource
import subprocess
import unittest
from pathlib import Path

from service.disk_room import DiskRoom
from service_tests.support import LONG, ServiceTest, entries


class JournalTests(ServiceTest):
    def test_the_log_by_planner_alternative_and_record(self):
        self.start()
        with self.planner() as one:
            one.ask(
                "new north top", "put north 7 1 a", "put north 7 2 b", "remove north 7 2", "put top 7 1 c", "grow 300"
            )
            one.ask("begin")
            self.assertEqual(["ok 0", "ok", "ok"], one.ask("merge north 7:1=mine", "post north", "commit"))
            self.assertEqual(["error 90 Denied drop .service"], one.ask("drop .service"))
            all_lines = [
                "1 new north top", "2 put north 7 1 a", "3 put north 7 2 b", "4 remove north 7 2", "5 put top 7 1 c",
            ]
            all_lines += ["6 grow 300", "7 merge north 7:1=mine", "7 post north"]
            due = {
                "": all_lines,
                f"planner={os.getuid()}": all_lines,
                "planner=somebody": [],
                "alternative=north": [it for it in all_lines if it[0] not in "56"],
                "alternative=top": [all_lines[4], all_lines[7]],
                "record=7:2": [all_lines[0], *all_lines[2:4], *all_lines[6:]],
                "record=7:1 alternative=top": [all_lines[4], all_lines[7]],
                "record=07:2 last=3": [all_lines[3], *all_lines[6:]],
                "last=2": all_lines[-2:],
                "last=0": [],
                "after=5": all_lines[5:],
                "after=6 alternative=top last=9": [all_lines[7]],
                "after=7": [],
                "after=99999999999999999999": [],
            }
            for filters, lines in due.items():
                rows = one.rows(f"log {filters}")
                self.assertEqual(lines, [" ".join([it.split()[1], *it.split()[4:]]) for it in rows[:-1]], filters)
                self.assertEqual(f"end {len(lines)}", rows[-1])
                self.assertEqual(lines, self.log(*(f"--{it}" for it in filters.split())))

    def test_the_log_does_not_show_what_the_store_lacks(self):
        self.start()
        with self.planner() as one:
            one.ask("put top 1 1 a")
        self.stop()
        text = Path(self.journal).read_text().splitlines(keepends=True)
        batch = next(it for it in text if '"batch"' in it)
        for lines, is_shown in {
            # The commit was not made: neither with the line whole, nor cut, nor with other bytes.
            (*text, batch.replace('"batch":1', '"batch":2')): False,
            (*text, batch.replace('"batch":1', '"batch":2')[:40]): False,
            (*text, "\0" * 40): False,
            (*text, '{"batch"}\n\0\n'): False,
            # It was, and neither `done` was written nor an answer given.
            (text[0], batch): True,
        }.items():
            Path(self.journal).write_text("".join(lines))
            self.start()
            self.stop()
            self.assertEqual(["1 put top 1 1 a"], self.log())
        # Numbers of batches that were not made do not come again.
        Path(self.journal).write_text("".join(text) + batch.replace('"batch":1', '"batch":2'))
        self.start()
        with self.planner() as one:
            one.ask("put top 1 2 a")
        self.assertEqual(["1 put top 1 1 a", "3 put top 1 2 a"], self.log())

    def test_the_log_after_a_batch_is_the_end_of_the_whole_one(self):
        chance = random.Random(7)
        for _ in range(200):
            number, lines = 0, ['{"opened":"","last":0,"next":1}']
            for _ in range(chance.randint(0, 12)):
                number += 1
                lines.append(
                    f'{{"batch":{number},"time":"","uid":0,"who":"a","alternatives":["b"],"records":1,'
                    f'"lines":["put b 1 {number} x"]}}'
                )
                lines += [f'{{"done":{number}}}'] * chance.randint(0, 1)
                if chance.random() < 0.3:
                    last = number - chance.choice((0, 0, 1, number))
                    number += chance.randint(0, 2)
                    lines.append(f'{{"opened":"","last":{last},"next":{number + 1}}}')
            text = "\n".join(lines) + "\n"
            Path(self.journal).write_text(text[: len(text) - chance.choice((0, 0, 1, chance.randint(0, 99)))])
            whole = entries(self.journal)
            for after in range(number + 2):
                due = [it for it in whole if int(it.split()[1]) > after]
                self.assertEqual(due, entries(self.journal, f"after={after}"), (lines, after))

    def test_a_store_that_was_replaced_by_a_backup(self):
        self.start()
        with self.planner() as one:
            self.assertEqual(["ok"], one.ask("put top 1 1 a"))
            self.assertEqual("ok", one.ask("backup first")[0].split()[0])
            self.assertEqual(["ok", "ok"], one.ask("put top 1 2 a", "put top 1 3 a"))
        self.stop()
        os.replace(f"{self.file}.backups/first", self.file)
        self.start()
        with self.planner() as one:
            self.assertEqual(["record 1 1 a", "end 1"], one.rows("list top"))
            self.assertEqual(["ok"], one.ask("put top 1 4 a"))
        self.assertEqual(["1 put top 1 1 a", "4 put top 1 4 a"], self.log())

    def test_a_journal_that_was_moved_away(self):
        self.start()
        with self.planner() as one:
            one.ask("put top 1 1 a", "put top 1 2 a")
        self.stop()
        os.unlink(self.journal)
        self.start()
        self.assertIn("ends at batch 0, and the store holds batch 2", self.said.read_text())
        with self.planner() as one:
            one.ask("put top 1 3 a")
        self.assertEqual(["3 put top 1 3 a"], self.log())

    def test_no_room_for_the_journal(self):
        most = 2 << 20
        self.start(preexec_fn=lambda: resource.setrlimit(resource.RLIMIT_FSIZE, (most, most)))
        made = []
        with self.planner() as one:
            for number in range(200):
                [answer] = one.ask(f"put top 1 {number % 50} {LONG}")
                if answer != "ok":
                    break
                made.append(f"{number + 1} put top 1 {number % 50} {LONG}")
            self.assertEqual("error 97 NotJournaled EFBIG", answer)
            self.assertEqual(["error 97 NotJournaled EFBIG"], one.ask(f"put top 1 0 {LONG}"))
            lines = [f"put top 1 {number} {LONG}" for number in range(9)]
            answers = ["ok", *["error 91 NotDone 10"] * 9, "error 97 NotJournaled EFBIG"]
            self.assertEqual(answers, one.ask("begin", *lines, "commit"))
            self.assertEqual(["ok"], one.ask("put top 2 1 a"))
            self.assertEqual("end 51", one.rows("list top")[-1])
        self.stop()
        self.assertEqual([*made, f"{len(made) + 1} put top 2 1 a"], self.log())

    def on_a_small_disk(self, blocks, *options, **how):
        """A service over a store on a disk of 16 MiB, which is the folder that is returned."""
        small = os.path.join(self.folder, "small")
        os.mkdir(small)
        if subprocess.run(
            ["mount", "-t", "tmpfs", "-o", "size=16m", "tmpfs", small], stderr=subprocess.DEVNULL
        ).returncode:
            self.skipTest("a mount is not allowed here")
        self.addCleanup(subprocess.run, ["umount", "--lazy", small], check=True)
        self.file = os.path.join(small, "map.alt")
        self.socket, self.journal = f"{self.file}.sock", f"{self.file}.journal"
        self.create(blocks)
        self.start(*options, **how)
        return small

    def filled(self, small, left=0):
        """Fills the disk but for so many bytes, and returns the file that fills it."""
        path = Path(small, "filler")
        with open(path, "wb", buffering=0) as filler:
            with contextlib.suppress(OSError):
                while filler.write(bytes(4096)):
                    pass
            filler.truncate(max(0, filler.tell() - left))
        return path

    def put_until_refused(self, one, table, value):
        """Puts records until one is refused. Returns how many were put, and the refusal."""
        for number in range(2000):
            [answer] = one.ask(f"put top {table} {number} {value}")
            if answer != "ok":
                return number, answer
        return None

    @unittest.skipUnless(os.geteuid() == 0, "only root can mount a small file system")
    def test_a_growth_on_a_full_disk_and_the_way_back(self):
        small = self.on_a_small_disk(64, "--grow")
        value = "x" * 4000
        Path(small, "other").write_bytes(bytes(6 << 20))
        with self.planner() as one:
            count, answer = self.put_until_refused(one, 1, value)
            self.assertEqual("error 105 NoRoom ENOSPC", answer)
            made = [f"{number + 1} put top 1 {number} {value}" for number in range(count)]
            self.assertLess(200, count)
            before = int(one.ask("blocks")[0].split()[1])
            self.assertLess(64, before)
            # Queries go on, and so does what takes no block.
            self.assertEqual([f"value {value}", "ok", "ok"], one.ask("get top 1 0", "new a top", "drop a"))
            self.assertEqual(["error 105 NoRoom ENOSPC"], one.ask(f"put top 1 {count} {value}"))
            lines = ["begin", "put top 2 1 a", f"put top 2 2 {value}", "commit"]
            refused = ["ok", *["error 91 NotDone 3"] * 2, "error 105 NoRoom ENOSPC"]
            self.assertEqual(refused, one.ask(*lines))
            # Room is made on the disk, and the journal's entries go to another one.
            os.unlink(os.path.join(small, "other"))
            self.assertEqual(["ok"], one.ask("put top 2 1 a"))
            os.symlink(self.folder, f"{self.file}.archives")
            self.assertEqual("ok", one.ask(f"archive old {count}")[0].split()[0])
            self.assertEqual(["ok"] * 400, one.ask(*(f"put top 3 {number} {value}" for number in range(400))))
            self.assertLessEqual(before, int(one.ask("blocks")[0].split()[1]))
        self.assertEqual(0, self.stop())
        self.assertEqual(made, self.log("--archive", f"{self.folder}/old")[:count])
        # What a growth has added in vain can be cut off.
        blocks = int(self.altctl("blocks")[0].split()[1])
        os.truncate(self.file, blocks * 4096)
        rows = self.altctl("list top")
        self.assertEqual(f"end {count + 401}", rows[-1])

    @unittest.skipUnless(os.geteuid() == 0, "only root can mount a small file system")
    def test_a_full_disk(self):
        small = self.on_a_small_disk(256)
        with self.planner() as one:
            self.assertEqual(["ok"], one.ask("put top 1 0 a"))
            # The store's blocks have room by now, so what is wanting first is room for the journal.
            filler = self.filled(small, 64 << 10)
            count, answer = self.put_until_refused(one, 2, LONG)
            self.assertEqual(("error 97 NotJournaled ENOSPC", True), (answer, count > 0))
            self.assertEqual(["error 98 NoBackup ENOSPC", "value a"], one.ask("backup a", "get top 1 0"))
            # A growth takes no room, but the new blocks have none.
            self.assertEqual(["ok", "value a"], one.ask("grow 4096", "get top 1 0"))
            self.assertEqual("error 97 NotJournaled ENOSPC", one.ask(f"put top 2 {count} {LONG}")[0])
        # A service that is started on the full disk finds the room that the store's blocks have.
        self.assertEqual(0, self.stop())
        self.start()
        with self.planner() as one:
            self.assertEqual(["value a"], one.ask("get top 1 0"))
            self.assertEqual("error 97 NotJournaled ENOSPC", one.ask(f"put top 2 {count} {LONG}")[0])
            filler.unlink()
            self.assertEqual(["ok"], one.ask("put top 3 1 b"))
            self.assertEqual(f"end {count + 2}", one.rows("list top")[-1])
        self.assertEqual(0, self.stop())
        long = [f"put top 2 {number} {LONG}" for number in range(count)]
        lines = ["put top 1 0 a", *long, "grow 4096", "put top 3 1 b"]
        self.assertEqual(lines, [it.split(" ", 1)[1] for it in self.log()])
        said = self.said.read_text()
        self.assertIn(f"not journaled: {self.journal}: No space left on device\n", said)
        self.assertNotIn("altctl ended", said)

    @unittest.skipUnless(os.geteuid() == 0, "only root can mount a small file system")
    def test_a_full_disk_where_no_room_can_be_held(self):
        change = "from service import disk_room\ndisk_room._fallocate, disk_room.FIRM = None, {}"
        small = self.on_a_small_disk(64, "--grow", change=change)
        value = "x" * 4000
        with self.planner() as one:
            filler = self.filled(small, 5 << 20)
            count, answer = self.put_until_refused(one, 1, value)
            self.assertEqual(("error 105 NoRoom ENOSPC", True), (answer, count > 50))
            self.assertEqual([f"value {value}", "ok"], one.ask("get top 1 0", "new a top"))
            filler.unlink()
            self.assertEqual(["ok"], one.ask(f"put top 1 {count} {value}"))
            self.assertEqual(f"end {count + 1}", one.rows("list top")[-1])
        self.assertEqual(0, self.stop())

    @unittest.skipUnless(os.geteuid() == 0, "only root can mount a small file system")
    def test_a_disk_that_has_less_room_than_the_store(self):
        """What was used and is not needed any more is used again once there is no more room."""
        self.on_a_small_disk(65536)
        with self.planner() as one:
            for number in range(120):
                lines = [f"put top 1 {number} a", *["put top 1 1 a"] * 59]
                self.assertEqual(["ok"] * 62, one.ask("begin", *lines, "commit"), number)
            self.assertEqual("end 120", one.rows("list top")[-1])
        self.assertEqual(0, self.stop())
        self.assertNotIn("no room", self.said.read_text())

    def test_a_large_batch_takes_little_room(self):
        """It takes some 40,000 blocks, of which few are written. They are given back after it."""
        os.unlink(self.file)
        self.create(100_000)
        with open(self.file, "rb") as file:
            room = DiskRoom(file.fileno())
            if room.file is None:
                self.skipTest("no room can be held in this file system")
            room.close()
        self.start()
        with self.planner() as one:
            lines = [f"put top 1 {number * 7919 % 20011} a" for number in range(20_000)]
            self.assertEqual(["ok"] * 20_002, one.ask("begin", *lines, "commit"))
            self.until(lambda: int(one.ask("free")[0].split()[1]) > 99_000)
            self.assertLess(os.stat(self.file).st_blocks * 512, 64 << 20)
            self.assertEqual(["value a"], one.ask("get top 1 7919"))
