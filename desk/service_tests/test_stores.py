"""Tests of the service: stores."""
import contextlib
import os
import signal
import socket
import stat
import subprocess
import time
from pathlib import Path

from service_tests.support import ALTCTL, ALTSERVE, DESK, LONG, NAMED, ServiceTest


class StoreTests(ServiceTest):
    def test_a_backup(self):
        self.start()
        with self.planner() as one:
            one.ask("put top 1 1 a")
            word, size, seconds = one.ask("backup first")[0].split()
            self.assertEqual(("ok", os.path.getsize(f"{self.file}.backups/first")), (word, int(size)))
            self.assertGreaterEqual(float(seconds), 0)
            one.ask("put top 1 1 b")
            self.assertEqual("ok", one.ask("backup second")[0].split()[0])
            one.ask("put top 1 1 c")
            self.assertEqual("ok", one.ask("backup second")[0].split()[0])
        for name, value in {"first": "a", "second": "c"}.items():
            copy = f"{self.file}.backups/{name}"
            ran = subprocess.run([ALTCTL, "do", copy, "get top 1 1"], stdout=subprocess.PIPE, timeout=60)
            self.assertEqual(f"value {value}\n", ran.stdout.decode())
        self.assertEqual(["first", "second"], sorted(os.listdir(f"{self.file}.backups")))
        self.assertEqual(0o700, stat.S_IMODE(os.stat(f"{self.file}.backups").st_mode))

    def test_names_of_backups(self):
        self.start()
        with self.planner() as one:
            for name in ["../a", "a/b", "/tmp/a", ".", "..", ".a", "-a", "a" * 33, "%2E%2E"]:
                self.assertEqual(["error 22 BadLine"], one.ask(f"backup {name}"), name)
        self.assertFalse(os.path.exists(f"{self.file}.backups"))

    def test_a_backup_that_fails(self):
        Path(f"{self.file}.backups").write_text("no folder")
        self.start()
        with self.planner() as one:
            self.assertEqual(["error 98 NoBackup EEXIST", "ok"], one.ask("backup a", "put top 1 1 a"))
        self.stop()
        due = ["altserve: no backup: a could not be made", f"altserve: {self.file}.backups: File exists"]
        self.assertEqual(due, self.said.read_text().splitlines()[1:3])
        os.unlink(f"{self.file}.backups")
        os.makedirs(f"{self.file}.backups/a/b")
        self.start()
        with self.planner() as one:
            self.assertEqual(["error 98 NoBackup EISDIR"], one.ask("backup a"))
        self.assertIn("altserve: no backup: a could not be made\naltserve: ", self.said.read_text())
        self.assertEqual(["a"], os.listdir(f"{self.file}.backups"))

    def test_a_backup_at_which_a_device_fails(self):
        program = Path(self.folder, "failing")
        text = f'#!/bin/sh\nif [ "$1" = copy ]; then echo altctl: stopped >&2; exit 3; fi\nexec {ALTCTL} "$@"\n'
        program.write_text(text)
        program.chmod(0o755)
        self.start("--program", str(program))
        with self.planner() as one:
            self.assertEqual(["error 98 NoBackup EIO", "ok"], one.ask("backup a", "put top 1 1 a"))
        self.assertEqual([], os.listdir(f"{self.file}.backups"))
        due = ["no backup: a could not be made", "a device failed, or there is no space", "altctl: stopped"]
        self.assertEqual([f"altserve: {it}" for it in due], self.said.read_text().splitlines()[1:4])

    def test_what_an_interrupted_backup_leaves_is_removed(self):
        folder = Path(f"{self.file}.backups")
        folder.mkdir()
        others = [".a", ".a.17", ".profile", "a", "b.17.part"]
        for name in (".a.17.part", *others):
            (folder / name).write_bytes(b"a part")
        (folder / ".b.17.part").symlink_to(folder / "a")
        (folder / ".c.17.part").mkdir()
        self.start()
        self.assertEqual(sorted([".b.17.part", ".c.17.part", *others]), sorted(os.listdir(folder)))

    def test_what_lies_behind_a_link_is_not_removed(self):
        elsewhere = Path(self.folder, "elsewhere")
        elsewhere.mkdir()
        (elsewhere / ".a.17.part").write_bytes(b"of another service")
        os.symlink(elsewhere, f"{self.file}.backups")
        self.start()
        self.assertEqual([".a.17.part"], os.listdir(elsewhere))
        with self.planner() as one:
            self.assertEqual("ok", one.ask("backup b")[0].split()[0])
        self.assertEqual([".a.17.part", "b"], sorted(os.listdir(elsewhere)))

    def test_a_second_service_is_refused(self):
        self.start()
        first, said = self.service, self.said
        self.said = Path(f"{self.file}.second")
        status, text = self.failed(change="from service import limits\nlimits.LOCK_SECONDS = 0.3")
        due = f"altserve: {self.file}: another process has it\naltserve: it is in use by process "
        self.assertEqual((1, due), (status, text[: len(due)]))
        self.service, self.said = first, said
        self.assertEqual(1, subprocess.run(["flock", "-n", self.file, "true"]).returncode)
        os.kill(self.program(), signal.SIGKILL)
        self.assertEqual(1, subprocess.run(["flock", "-n", self.file, "true"]).returncode)
        self.stop()
        self.assertEqual(0, subprocess.run(["flock", "-n", self.file, "true"]).returncode)

    def test_the_lock_outlives_a_service_that_is_killed(self):
        self.start()
        with self.planner() as one, self.halted() as program:
            one.send("put top 1 1 a")
            time.sleep(0.3)
            self.stop(signal.SIGKILL)
            self.assertEqual(1, subprocess.run(["flock", "-n", self.file, "true"]).returncode)
            os.kill(program, signal.SIGCONT)
            self.assertEqual(0, subprocess.run(["flock", self.file, "true"], timeout=60).returncode)
        self.start()

    def test_a_file_that_is_no_store(self):
        Path(self.file).write_bytes(bytes(64 * 4096))
        status, text = self.failed()
        self.assertEqual((3, True), (status, "altctl: 19 NotAStore\n" in text and "status 1 at its start" in text))
        os.unlink(self.file)
        self.assertEqual(1, self.failed()[0])

    def test_a_store_without_room_for_the_alternative(self):
        self.assertEqual(["ok"] * 511, self.altctl(*(f"new a{n} top" for n in range(510)), "commit"))
        status, text = self.failed()
        self.assertEqual((3, True), (status, "12 TooMany" in text), text)

    def test_an_alternative_that_no_service_has_made(self):
        for lines in (["new .service top"], ["checkpoint .service a"], ["checkpoint .service 1"]):
            self.assertEqual(["ok", "ok"], self.altctl(*lines, "commit"))
            status, text = self.failed()
            self.assertEqual((3, True), (status, "is not one that a service has made" in text), text)

    def test_a_store_with_as_many_alternatives_as_it_may_have(self):
        self.start()
        with self.planner() as one:
            lines = [f"new a{n} top" for n in range(509)]
            self.assertEqual(["ok"] * 508 + ["error 12 TooMany"], one.ask(*lines))
            self.assertEqual(["ok", "ok", "ok"], one.ask("put top 1 1 a", "drop a1", "new a1 top"))

    def test_a_term_ends_it(self):
        self.start()
        with self.planner() as one, self.planner() as other:
            with self.halted():
                one.send("put top 1 1 a")
                time.sleep(0.3)
                other.send("put top 1 2 a", "begin", "put top 1 3 a")
                self.service.send_signal(signal.SIGTERM)
                time.sleep(0.3)
            self.assertEqual(["ok", ""], one.read(2))
            self.assertEqual(0, self.service.wait(60))
        self.assertFalse(os.path.exists(self.socket))
        self.assertEqual(["record 1 1 a", "end 1"], self.altctl("list top"))

    def test_a_store_that_is_lost(self):
        program = f"{self.folder}/altctl"
        os.symlink(os.path.abspath(ALTCTL), program)
        self.start("--program", program)
        with self.planner() as one, self.planner() as other:
            with self.halted() as it:
                one.send("put top 1 1 a", "put top 1 2 a")
                time.sleep(0.3)
                other.send("put top 1 3 a")
                os.unlink(program)
                os.kill(it, signal.SIGKILL)
            # The first line had not been sent, so nothing was made.
            self.assertEqual(["error 99 Stopped"] * 2 + [""], one.read(3))
            self.assertEqual(["error 99 Stopped"], other.read())
        self.assertEqual(3, self.service.wait(60))

    def test_a_store_that_is_lost_after_a_line_was_sent(self):
        program = f"{self.folder}/altctl"
        os.symlink(os.path.abspath(ALTCTL), program)
        self.start("--program", program)
        with self.planner() as one:
            self.assertEqual(["ok"], one.ask("put top 1 1 a"))
            with self.halted() as it:
                one.send("put top 1 2 a", "put top 1 3 a")
                time.sleep(0.3)
                os.unlink(program)
                os.kill(it, signal.SIGKILL)
            # The program may have had both lines, so whether they were committed is not known.
            self.assertEqual(["error 101 Unsure"] * 2 + [""], one.read(3))
        self.assertEqual(3, self.service.wait(60))

    def test_a_store_that_grows(self):
        os.unlink(self.file)
        self.create(64)
        for options, due in {("--grow-to", "80"): 80, ("--grow",): 160}.items():
            self.start(*options)
            with self.planner() as one:
                answers = one.ask(*(f"put top 1 {n} {LONG}" for n in range(60)))
                self.assertEqual(
                    ["ok"] * 60 if due == 160 else ["error 13 Full"], answers if due == 160 else answers[-1:]
                )
                self.assertEqual([f"blocks {due}"], one.ask("blocks"))
            self.stop()
        self.assertEqual(60, sum(it.startswith("record") for it in self.altctl("list top")))

    def test_the_program_of_a_clone_is_found(self):
        path = os.environ["PATH"]
        with open(self.said, "wb") as said:
            self.service = subprocess.Popen([ALTSERVE, self.file], stderr=said, env={"PATH": path})
        self.until(lambda: b": batches to " in self.said.read_bytes())
        self.assertIn(str(DESK.parent), Path(f"/proc/{self.program()}/exe").resolve().as_posix())

    def test_a_flood(self):
        self.start_limited(GROUP=4)
        with contextlib.ExitStack() as stack, self.planner() as other:
            for text in (b"put top 1 1 a\n" * 9000, b"begin\nput top 1 1 b\nput nowhere 1 1 b\ncommit\n" * 3000):
                for _ in range(6):
                    one = stack.enter_context(self.planner())
                    one.socket.setblocking(False)
                    with contextlib.suppress(BlockingIOError):
                        one.socket.sendall(text)
            for number in range(5):
                self.assertEqual(["ok"], other.ask(f"put top 2 {number} a"))
            self.assertEqual("end 5", other.rows("list top 2")[-1])

    def test_a_reader_that_never_reads(self):
        self.start(change="from service import limits, server\nlimits.UNREAD_SECONDS = 1\nserver.TICK = 0.2")
        with self.planner() as one, self.planner() as other:
            other.ask(*(f"put top 1 {n} {LONG}" for n in range(40)))
            one.send(*["list top"] * 60)
            self.assertEqual(["ok", "value b"], other.ask("put top 2 1 b", "get top 2 1"))
            self.until(lambda: self.is_closed(one))
            self.assertEqual(["ok"], other.ask("put top 2 1 c"))

    def is_closed(self, one):
        """Whether the service has closed a connection."""
        try:
            one.socket.send(b"# a remark\n", socket.MSG_DONTWAIT)
        except BlockingIOError:
            return False
        except OSError:
            return True
        return False

    def test_two_carriage_returns(self):
        lines = ["new a top\r", "new b .service\r\r", "put a 1 1 x\r\r", "get a 1 1\r"]
        due = self.altctl(*lines)
        bad = f"error 22 BadLine word 3: PARENT is {NAMED}"
        self.assertEqual(["ok", bad, "ok", "value x%0D"], due)
        self.start()
        with self.planner() as one:
            self.assertEqual(due, one.ask(*lines))
