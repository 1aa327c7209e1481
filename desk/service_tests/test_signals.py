"""Signals, and what a machine may be short of."""
import contextlib
import os
import re
import resource
import signal
import time
from pathlib import Path

from service_tests.support import ServiceTest


def catches(process, number):
    """Whether a process has a handler of its own for a signal."""
    caught = re.search(r"^SigCgt:\s*(\w+)", Path(f"/proc/{process}/status").read_text(), re.MULTILINE)
    return bool(int(caught[1], 16) >> number - 1 & 1)


class SignalTests(ServiceTest):
    def test_a_signal_to_the_whole_group(self):
        for it in (signal.SIGTERM, signal.SIGINT):
            self.start(start_new_session=True)
            with self.planner() as one:
                self.assertEqual(["ok"], one.ask(f"put top 1 {it} a"))
                os.killpg(self.service.pid, it)
                self.assertEqual([""], one.read())
            self.assertEqual(0, self.service.wait(60))
            self.service = None
        self.assertEqual("end 2", self.altctl("list top")[-1])

    def test_a_signal_as_soon_as_the_socket_is_there(self):
        for it in (signal.SIGHUP, signal.SIGTERM):
            for _ in range(5):
                self.launch()
                self.until(lambda: os.path.exists(self.socket))
                self.service.send_signal(it)
                if it == signal.SIGHUP:
                    self.until(lambda: b": batches to " in self.said.read_bytes())
                self.assertEqual(0, self.stop())

    def test_a_signal_while_the_lock_is_waited_for(self):
        self.start()
        first, said = self.service, self.said
        self.said = Path(f"{self.file}.second")
        self.launch()
        self.until(lambda: catches(self.service.pid, signal.SIGTERM))
        time.sleep(1)
        self.assertEqual(1, self.stop())
        self.service, self.said = first, said


class ShortageTests(ServiceTest):
    def test_no_descriptors_are_left(self):
        self.start(preexec_fn=lambda: resource.setrlimit(resource.RLIMIT_NOFILE, (32, 32)))
        with contextlib.ExitStack() as stack:
            planners = [stack.enter_context(self.planner()) for _ in range(60)]
            self.until(lambda: b"no connection can be accepted now" in self.said.read_bytes())
            self.assertEqual(["ok"], planners[0].ask("put top 1 1 a"))
            self.assertEqual("end 1", planners[0].rows("log")[-1])
            self.assertIn(planners[0].ask("backup a")[0].split()[:2], (["ok", "1048576"], ["error", "98"]))
            used = self.seconds()
            time.sleep(1)
            self.assertLess(self.seconds() - used, 0.5)
        with self.planner() as one:
            self.assertEqual(["value a"], one.ask("get top 1 1"))

    def seconds(self):
        """The processor time that the service has used."""
        words = Path(f"/proc/{self.service.pid}/stat").read_text().rsplit(")", 1)[1].split()
        return (int(words[11]) + int(words[12])) / os.sysconf("SC_CLK_TCK")

    def test_no_process_can_be_started_for_a_moment(self):
        change = f"""import errno, os, time
from service import store
real = store.Program
def program(*words):
    if os.path.exists({self.folder + "/short"!r}):
        os.unlink({self.folder + "/short"!r})
        raise OSError(errno.EAGAIN, "no process")
    return real(*words)
store.Program = program"""
        self.start(change=change)
        with self.planner() as one:
            Path(self.folder, "short").touch()
            os.kill(self.program(), signal.SIGKILL)
            self.assertEqual(["ok"], one.ask("put top 1 1 a"))
        self.assertFalse(os.path.exists(f"{self.folder}/short"))

    def test_a_store_that_is_moved_away(self):
        for path, is_replaced in [(self.file, True), (self.journal, True), (self.file, False), (self.journal, False)]:
            self.start()
            with self.planner() as one:
                one.ask("put top 1 1 a")
                os.rename(path, f"{path}.old")
                if path == self.file:
                    self.assertEqual(["error 98 NoBackup ESTALE"], one.ask("backup a"))
                if is_replaced:
                    Path(path).write_bytes(Path(f"{path}.old").read_bytes())
                self.assertEqual(["error 99 Stopped", ""], one.ask("put top 1 2 a") + one.read())
            self.assertEqual(3, self.service.wait(60))
            self.service = None
            self.assertIn("was moved, removed or replaced", self.said.read_text())
            os.replace(f"{path}.old", path)
            self.assertEqual(["record 1 1 a", "end 1"], self.altctl("list top"))
