"""Backups that are made while batches go on."""
import fcntl
import os
import subprocess
import sys
import tempfile
import threading
import time
import unittest
from pathlib import Path
from unittest import mock

from service import backups, pacing
from service.backups import Copy
from service_tests.support import ALTCTL, LONG, ServiceTest

# A program whose copy ends only once there is a file `go`; if that has a number, only that many copies end. It notes
# each copy, and reads the store itself first, as a program would.
SLOW = """#!{python}
import os, subprocess, sys, time

if sys.argv[1] == "copy":
    with open({log!r}, "a+") as log:
        print("copy", file=log, flush=True)
        log.seek(0)
        number = len(log.readlines())
    with open(sys.argv[-2], "rb") as store:
        store.read(300_000)
        ran = subprocess.run([{altctl!r}, *sys.argv[1:]])
        while not os.path.exists({go!r}) or number > int(open({go!r}).read() or 9):
            time.sleep(0.02)
    sys.exit(ran.returncode)
os.execv({altctl!r}, [{altctl!r}, *sys.argv[1:]])
"""


class BackupTests(ServiceTest):
    def start_slow(self):
        self.copies, self.go = Path(self.folder, "copies"), Path(self.folder, "go")
        program = Path(self.folder, "slow")
        program.write_text(SLOW.format(python=sys.executable, log=str(self.copies), altctl=ALTCTL, go=str(self.go)))
        program.chmod(0o755)
        self.start("--program", str(program))

    def count(self):
        return len(self.copies.read_text().splitlines()) if self.copies.exists() else 0

    def in_backup(self, name, *lines):
        ran = subprocess.run([ALTCTL, "do", f"{self.file}.backups/{name}", *lines], stdout=subprocess.PIPE, timeout=60)
        return ran.stdout.decode().splitlines()

    def test_batches_go_on_meanwhile(self):
        self.start_slow()
        with self.planner() as one, self.planner() as other, self.planner() as third:
            one.ask("put top 1 1 a")
            one.send("backup a", "get top 1 2")
            self.until(self.count)
            third.send("backup b")
            for number in range(2, 12):
                self.assertEqual(["ok"], other.ask(f"put top 1 {number} a"))
            self.assertEqual(1, self.count())
            self.go.touch()
            # The next line of its planner waits for it, and another backup, too.
            self.assertEqual(["ok", "value a"], [one.read()[0].split()[0], one.read()[0]])
            self.assertEqual("ok", third.read()[0].split()[0])
        self.assertEqual(2, self.count())
        self.assertIn(self.in_backup("a", "list top")[-1], [f"end {it}" for it in range(1, 11)])
        self.assertEqual(["end 11"], self.in_backup("b", "list top")[-1:])
        self.assertEqual(
            0, subprocess.run([ALTCTL, "check", f"{self.file}.backups/a"], stdout=subprocess.DEVNULL).returncode
        )

    def test_blocks_that_become_free_meanwhile(self):
        self.start_slow()
        for lines in (["reclaim"], ["begin", "put top 1 1 b", "reclaim", "commit"], None, ["merge a 1:1=mine"]):
            with self.planner() as one, self.planner() as other:
                before = self.count()
                self.go.unlink(missing_ok=True)
                one.send("backup a")
                self.until(lambda: self.count() > before)
                if lines is None:
                    os.kill(self.program(), 9)
                    lines = ["put top 1 2 a"]
                other.ask("put top 1 1 a")
                other.ask(*lines)
                other.ask("put top 1 3 a")
                self.go.touch()
                self.assertEqual("ok", one.read()[0].split()[0])
                self.assertEqual(2, self.count() - before, lines)
                self.assertEqual(["value a"], self.in_backup("a", "get top 1 3"))

    def test_changes_beside_the_last_copy(self):
        os.unlink(self.file)
        self.create(16384)
        self.start_slow()
        with self.planner() as one, self.planner() as other, self.planner() as third:
            other.ask("new a top")
            one.send("backup a")
            for number in (1, 2):
                self.until(lambda: self.count() == number)
                other.ask("reclaim", f"put top 1 {number} a")
                self.go.with_name("next").write_text(str(number))
                os.replace(self.go.with_name("next"), self.go)
            self.until(lambda: self.count() == 3)
            self.assertEqual(["ok"], other.ask("put top 1 3 a"))
            # What may have blocks freed waits, and whoever asks does not.
            other.send("merge a", "put top 1 4 a")
            self.assertEqual(["value a"], third.ask("get top 1 3"))
            time.sleep(0.5)
            self.assertEqual(["none"], third.ask("get top 1 4"))
            self.go.write_text("")
            self.assertEqual(["ok 3", "ok"], other.read(2))
            self.assertEqual("ok", one.read()[0].split()[0])
        self.assertEqual(3, self.count())
        self.assertEqual(["value a"], self.in_backup("a", "get top 1 2"))

    def test_how_many_blocks_are_used_beside_the_last_copy(self):
        copy = Copy.__new__(Copy)
        # 17 for each change of 128 lines and as many records, twice, as many for one more, and 17: 8,755.
        for spare, free, progress, due in (
            (18755, 18755, 0.0, True),
            (18755, 18754, 0.0, False),
            (18755, 13755, 0.5, True),
            (18755, 13754, 0.5, False),
            (18755, 8755, 1.0, True),
            (18755, 8754, 1.0, False),
            (8754, 8754, 0.5, False),
        ):
            copy.spare, copy.free = spare, free
            with mock.patch.object(Copy, "_progress", return_value=progress):
                self.assertEqual(due, copy._has_blocks(), (spare, free, progress))

    def test_blocks_become_free_each_time(self):
        """The third copy is made while changes wait, as the store is small."""
        self.start_slow()
        with self.planner() as one, self.planner() as other:
            one.send("backup a")
            for number in (1, 2):
                self.until(lambda: self.count() == number)
                other.ask("reclaim", f"put top 1 {number} a")
                self.go.with_name("next").write_text(str(number))
                os.replace(self.go.with_name("next"), self.go)
            self.until(lambda: self.count() == 3)
            other.send("put top 1 3 a")
            time.sleep(0.5)
            self.go.write_text("")
            self.assertEqual("ok", one.read()[0].split()[0])
        self.assertEqual(["value a", "none"], self.in_backup("a", "get top 1 2", "get top 1 3"))

    def children(self):
        return Path(f"/proc/{self.service.pid}/task/{self.service.pid}/children").read_text().split()

    def test_an_earlier_backup_that_somebody_reads(self):
        self.start()
        with self.planner() as one:
            self.assertEqual("ok", one.ask("backup a")[0].split()[0])
            name, link = f"{self.file}.backups/a", Path(self.folder, "link")
            due = Path(name).read_bytes()
            with open(name, "rb") as reader:
                one.ask("put top 1 1 a", "backup a")
                time.sleep(0.5)
                self.assertEqual(due, reader.read())
            due = Path(name).read_bytes()
            os.link(name, link)
            one.ask("put top 1 2 a", "backup a")
            time.sleep(0.5)
            self.assertEqual(due, link.read_bytes())
            # A backup may be a link to elsewhere, and what is there stays.
            os.unlink(name)
            os.symlink(link, name)
            one.ask("put top 1 3 a", "backup a")
            time.sleep(0.5)
            self.assertEqual((due, False), (link.read_bytes(), os.path.islink(name)))

    def test_a_service_that_is_killed_meanwhile(self):
        self.start_slow()
        with self.planner() as one:
            one.send("backup a")
            self.until(self.count)
            [copy] = [it for it in self.children() if b"\0copy\0" in Path(f"/proc/{it}/cmdline").read_bytes()]
            self.stop(9)
            self.until(lambda: not os.path.exists(f"/proc/{copy}") or is_dead(copy))

    def test_too_few_blocks_are_free(self):
        os.unlink(self.file)
        self.create(128)
        self.start_slow()
        with self.planner() as one, self.planner() as other:
            one.send("backup a")
            self.until(self.count)
            for number in range(120):
                self.assertEqual(["ok"], other.ask(f"put top 1 {number % 7} {LONG}"))
            self.go.touch()
            self.assertEqual("ok", one.read()[0].split()[0])
        self.assertEqual(2, self.count())

    def test_a_service_that_ends_meanwhile(self):
        self.start_slow()
        with self.planner() as one:
            one.send("backup a")
            self.until(self.count)
            self.service.send_signal(15)
            self.assertEqual(["error 99 Stopped", ""], one.read(2))
        self.assertEqual(0, self.service.wait(60))
        self.service = None
        self.assertEqual([], os.listdir(f"{self.file}.backups"))

    def test_each_copy_is_a_state_that_was_committed(self):
        self.copy_beside_writers(15)

    def test_a_copy_for_which_changes_wait_is_a_state_that_was_committed(self):
        # None is made again, nor while nothing else is done.
        change = "from service import backups\nbackups.TRIES, backups.Backups.copy_alone = 0, None"
        self.copy_beside_writers(5, change=change)

    def copy_beside_writers(self, count, **how):
        os.unlink(self.file)
        self.create(8192)
        self.start(**how)
        is_over = threading.Event()

        def write():
            with self.planner() as one:
                number = 0
                while not is_over.is_set():
                    number += 1
                    one.ask("begin", *(f"put top {table} {number % 200} {number}" for table in range(1, 6)), "commit")

        writers = [threading.Thread(target=write) for _ in range(3)]
        for it in writers:
            it.start()
        try:
            with self.planner() as one:
                for _ in range(count):
                    self.assertEqual("ok", one.ask("backup a")[0].split()[0])
                    tables = [self.in_backup("a", f"list top {it}") for it in range(1, 6)]
                    # A batch puts the same into five tables.
                    rows = [[it.split()[2:] for it in table[:-1]] for table in tables]
                    self.assertEqual([rows[0]] * 5, rows)
        finally:
            is_over.set()
            for it in writers:
                it.join()

    def test_several_commits_before_the_slot_is_read(self):
        for commits, is_open, spoils in (
            ([1], False, False),
            ([2], False, True),
            ([2], True, False),
            ([1, 2], True, False),
        ):
            copy = Copy.__new__(Copy)
            copy.store, copy.free, copy.commits, copy.is_spoiled, copy.is_open = None, 1000, 0, False, is_open
            with mock.patch.object(backups, "free_blocks", return_value=1000):
                for it in commits:
                    copy.note([], it)
            self.assertEqual((sum(commits), spoils), (copy.commits, copy.is_spoiled), (commits, is_open))


def state_of(process):
    return Path(f"/proc/{process}/stat").read_text().rsplit(")", 1)[1].split()[0]


def is_dead(process):
    """Whether it waits for nothing but to be asked for its status."""
    try:
        return state_of(process) == "Z"
    except OSError:
        return True


def stopped(process):
    """Waits until it stands still."""
    while state_of(process) not in "TZ":
        time.sleep(0.001)
    return True


class PacingTests(unittest.TestCase):
    """A program that writes, and files that go."""

    def setUp(self):
        folder = tempfile.TemporaryDirectory()
        self.addCleanup(folder.cleanup)
        self.path = Path(folder.name, "file")

    def paced(self, write_out, paths=None):
        """Runs a program that writes for half a second, at its pace."""
        text = f"import time\nfile = open({str(self.path)!r}, 'wb', buffering=0)\nuntil = time.monotonic() + 0.5\n"
        text += "while time.monotonic() < until: file.write(bytes(4096))"
        with subprocess.Popen([sys.executable, "-c", text]) as process:
            program = os.pidfd_open(process.pid)
            try:
                with mock.patch.object(pacing, "write_out", lambda file, *_: write_out(process.pid, file)):
                    count = lambda: pacing.written_by(process.pid)  # noqa: E731
                    pacing.pace(program, paths or [f"{self.path}.none", str(self.path)], count)
            finally:
                os.close(program)
        return process.returncode

    def test_a_program_stands_still_while_the_device_is_at_work(self):
        seen = []

        def write_out(process, file):
            for _ in range(100):
                if state_of(process) == "T":
                    break
                time.sleep(0.01)
            before = os.fstat(file).st_size
            time.sleep(0.01)
            seen.append((state_of(process), os.fstat(file).st_size - before))

        self.assertEqual(0, self.paced(write_out))
        self.assertGreater(len(seen), 2)
        self.assertLessEqual({*seen}, {("T", 0), ("Z", 0)})
        self.assertGreater(self.path.stat().st_size, 0)

    def test_a_program_goes_on_where_nothing_can_be_written_out(self):
        write_out = mock.Mock(side_effect=OSError(5, "a fault of the device"))
        self.assertEqual(0, self.paced(write_out))
        write_out.assert_called()
        self.assertEqual(0, self.paced(lambda *_: None, [f"{self.path}.none"]))

    def test_what_is_written_goes_to_the_device(self):
        with open(self.path, "w+b") as file:
            file.write(bytes(1 << 20))
            file.flush()
            for has_call in (True, False):
                with mock.patch.object(pacing, "_sync_file_range", pacing._sync_file_range if has_call else None):
                    pacing.write_out(file.fileno(), 0, 1 << 20)
            self.assertEqual(bytes(1 << 20), self.path.read_bytes())

    def test_where_a_copy_has_written(self):
        one = pacing.PIECE
        for size, first, last, due in (
            (one // 2, 0, one // 2, [0]),
            (3 * one, one // 2, 3 * one, [0, 1, 2]),
            (9 * one, 5 * one + 1, 7 * one, [5, 6, 7]),
            (9 * one, 8 * one + 1, 9 * one, [8]),
            (9 * one, 9 * one, 9 * one + 100, []),
            (9 * one, 4 * one, 4 * one, []),
        ):
            self.assertEqual([(it * one, one) for it in due], list(pacing.pieces(size, first, last)), (first, last))
        for first, last in ((None, 1), (1, None)):
            self.assertEqual([(0, 0)], list(pacing.pieces(9 * one, first, last)))

    def test_all_that_a_copy_writes_is_there(self):
        store, part = f"{self.path}.alt", Path(f"{self.path}.part")
        subprocess.run([ALTCTL, "create", store, "4096"], check=True, stdout=subprocess.DEVNULL)
        lines = "".join(f"put top 1 {number} {LONG}\n" for number in range(2000)) + "commit\n"
        subprocess.run([ALTCTL, "run", store], check=True, input=lines, text=True, stdout=subprocess.DEVNULL)
        pieces, seen, outside = pacing.pieces, [b""], []

        def watched(size, first, last):
            """The pieces, which have to hold all that has changed since the last time. The first blocks come at last,
            and are few."""
            found, before, now = list(pieces(size, first, last)), seen[-1], part.read_bytes()
            before = before.ljust(len(now), b"\0")  # New blocks are a hole.
            blocks = [it for it in range(34 * 4096, len(now), 4096) if now[it : it + 4096] != before[it : it + 4096]]
            changed = {it // pacing.PIECE for it in blocks}
            outside.extend(changed - {begin // pacing.PIECE for begin, _ in found})
            seen.append(now)
            return found

        with subprocess.Popen([ALTCTL, "copy", store, str(self.path)], stdout=subprocess.DEVNULL) as process:
            program = os.pidfd_open(process.pid)
            with mock.patch.object(pacing, "pieces", watched):
                pacing.pace(program, [str(part)], lambda: stopped(process.pid) and pacing.written_by(process.pid))
            os.close(program)
        self.assertEqual((0, []), (process.returncode, outside))
        self.assertGreater(len({*seen}), 2)

    def test_blocks_of_a_file_that_goes(self):
        with open(self.path, "wb") as file:
            file.write(bytes(3 * pacing.STEP + 1))
        kept, sizes = pacing.held(str(self.path)), []
        self.path.unlink()
        with mock.patch.object(os, "ftruncate", lambda _, size: sizes.append(size)):
            with mock.patch.object(pacing, "has_alone", return_value=True):
                pacing._let_go(os.dup(kept))
        self.assertEqual([2 * pacing.STEP + 1, pacing.STEP + 1, 1, 0], sizes)
        os.close(kept)

    def test_a_file_that_others_have_stays_whole(self):
        self.path.write_bytes(b"a" * 100)
        for is_open, is_linked in ((True, False), (False, True)):
            link = self.path.with_name("link")
            os.link(self.path, link)
            kept, reader = pacing.held(str(link)), open(link, "rb") if is_open else None
            link.unlink()
            if not is_linked:
                self.path.unlink()
            (pacing.let_go if is_linked else pacing._let_go)(kept)
            if reader is not None:
                self.assertEqual(b"a" * 100, reader.read())
                reader.close()
                self.path.write_bytes(b"a" * 100)
            else:
                self.assertEqual(b"a" * 100, self.path.read_bytes())

    def test_a_file_that_its_program_removes(self):
        """Its blocks become free bit by bit, since the file is held until the program has ended."""
        self.path.write_bytes(bytes(3 * pacing.STEP))
        text = f"import os, time; time.sleep(0.2); os.unlink({str(self.path)!r})"
        sizes, ended, real = [], threading.Event(), os.ftruncate

        def ftruncate(file, size):
            real(file, size)
            sizes.append(size)
            if not size:
                ended.set()

        with subprocess.Popen([sys.executable, "-c", text]) as process:
            program = os.pidfd_open(process.pid)
            with mock.patch.object(os, "ftruncate", ftruncate):
                with mock.patch.object(pacing, "has_alone", return_value=True):
                    pacing.pace(program, [str(self.path)], lambda: None)
                    self.assertTrue(ended.wait(60))
            os.close(program)
        self.assertEqual(([2 * pacing.STEP, pacing.STEP, 0], False), (sizes, self.path.exists()))

    def test_a_file_that_others_have_for_a_moment(self):
        if os.major(self.path.parent.stat().st_dev) == 0:
            self.skipTest("it cannot be seen here who has a file open")
        for looks, due in ((1, 0), (20, 100)):
            self.path.write_bytes(b"a" * 100)
            kept, reader = pacing.held(str(self.path)), open(self.path, "rb")
            seen, count = os.dup(kept), []
            self.path.unlink()

            def sleep(_):
                count.append(1)
                if len(count) == looks:
                    reader.close()

            with mock.patch.object(pacing.time, "sleep", sleep):
                pacing._let_go(kept)
            self.assertEqual(due, os.fstat(seen).st_size, looks)
            os.close(seen)
            reader.close()

    def test_who_has_a_file_alone(self):
        self.path.touch()
        with open(self.path, "r+b") as one:
            self.assertEqual(os.major(self.path.stat().st_dev) != 0, pacing.has_alone(one.fileno()))
            with open(self.path, "rb"):
                self.assertFalse(pacing.has_alone(one.fileno()))

    def test_only_plain_files_are_held(self):
        link, pipe = self.path.with_name("link"), self.path.with_name("pipe")
        self.path.touch()
        link.symlink_to(self.path)
        os.mkfifo(pipe)
        for path in (link, pipe, self.path.parent, self.path.with_name("none")):
            self.assertIsNone(pacing.held(str(path)), path)
        file = pacing.held(str(self.path))
        self.assertTrue(fcntl.fcntl(file, fcntl.F_GETFD) & fcntl.FD_CLOEXEC)
        os.close(file)
