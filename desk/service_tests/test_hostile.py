"""Tests of the service: hostile."""
import contextlib
import os
import resource
import socket
import subprocess
import time

from service_tests.support import ALTCTL, LONG, ServiceTest


class HostileTests(ServiceTest):
    def test_a_planner_who_stops_in_the_middle_of_a_line(self):
        self.start()
        with self.planner() as one, self.planner() as other:
            one.socket.sendall(b"put top 1 1 a\nput top 1")
            self.assertEqual(["ok", "value a", "ok"], one.read() + other.ask("get top 1 1", "put top 1 2 b"))
            one.socket.sendall(b" 3 c\n")
            self.assertEqual(["ok"], one.read())

    def test_a_planner_who_sends_a_line_of_a_gigabyte(self):
        self.start()
        with self.planner() as one, self.planner() as other:
            part = b"a" * (1 << 20)
            for number in range(1024):
                one.socket.sendall(part)
                if number % 64 == 0:
                    self.assertEqual(["ok"], other.ask("put top 1 1 a"))
            self.assertEqual(["error 23 LongLine", "ok"], one.ask("", "put top 1 2 b"))
        self.assertLess(self.memory(), 64 << 20)

    def test_a_planner_who_sends_without_end_in_a_batch(self):
        self.start()
        with self.planner() as one, self.planner() as other:
            one.send("begin")
            text = b"".join(b"put top 1 1 %d\n" % n for n in range(10_000))
            with self.assertRaises(OSError):
                for _ in range(1000):
                    one.socket.sendall(text)
            self.assertEqual(["ok"], other.ask("put top 1 1 a"))
        self.assertLess(self.memory(), 128 << 20)

    def test_a_planner_who_reads_nothing(self):
        self.start(change="from service import limits, server\nlimits.UNREAD_SECONDS = 2\nserver.TICK = 0.2")
        with self.planner() as one, self.planner() as other:
            other.ask(*(f"put top 1 {n} {LONG}" for n in range(100)))
            with contextlib.suppress(BlockingIOError):
                one.socket.setblocking(False)
                for _ in range(100_000):
                    one.send(*["list top"] * 10)
            self.assertEqual(["ok", "value b"], other.ask("put top 2 1 b", "get top 2 1"))
            late = time.monotonic() + 2.5
            while time.monotonic() < late:
                self.assertEqual(["ok"], other.ask("put top 2 1 c"))
                time.sleep(0.05)
            one.socket.setblocking(True)
            with contextlib.suppress(ConnectionError):
                while one.socket.recv(1 << 20):
                    pass
            with self.assertRaises(OSError):
                one.send("get top 1 1")
        self.assertLess(self.memory(), 64 << 20)

    def test_a_planner_who_reads_slowly(self):
        self.start(change="from service import limits, server\nlimits.UNREAD_SECONDS = 3\nserver.TICK = 0.2")
        with self.planner() as one:
            one.ask(*(f"put top 1 {n} {LONG}" for n in range(100)))
            one.send(*["list top"] * 4)
            came = b""
            for _ in range(50):
                time.sleep(0.1)
                came += one.socket.recv(60_000)
            self.assertEqual(4, (came + "\n".join(one.rest()).encode()).count(b"end 100"))

    def test_no_room_for_answers_that_are_not_read(self):
        os.unlink(self.file)
        self.create(480)
        lines = [f"put top 1 {number} {LONG}" for number in range(350)]
        text = "".join(f"{it}\n" for it in [*lines, "commit"]).encode()
        subprocess.run([ALTCTL, "run", self.file], input=text, stdout=subprocess.DEVNULL, check=True)
        most = 2 << 20
        self.start(preexec_fn=lambda: resource.setrlimit(resource.RLIMIT_FSIZE, (most, most)))
        with self.planner() as one, self.planner() as other:
            one.send("list top")
            self.assertLess(len(one.rest()), 351)
            self.assertEqual(["ok", "value a"], other.ask("put top 1 1 a", "get top 1 1"))

    def test_a_planner_who_writes_no_lines_of_a_batch(self):
        self.start_limited(BATCH_LINES=10)
        with self.planner() as one:
            self.assertEqual(["ok"], one.ask("begin"))
            one.send(*["nonsense"] * 30)
            self.assertEqual([], one.rest())

    def test_many_ask_for_the_log(self):
        self.start()
        with contextlib.ExitStack() as stack:
            planners = [stack.enter_context(self.planner()) for _ in range(12)]
            self.assertEqual(["ok"], planners[0].ask("put top 1 1 a"))
            for one in planners:
                one.send("log", "get top 1 1", "log last=0")
            planners.pop().socket.close()
            for one in planners:
                self.assertEqual(["end 1", "value a", "end 0"], one.read(4)[1:])

    def test_too_many_planners(self):
        self.start_limited(PLANNERS=4 * 3)
        with contextlib.ExitStack() as stack:
            planners = [stack.enter_context(self.planner()) for _ in range(4)]
            for one in planners[:3]:
                self.assertEqual(["ok"], one.ask("put top 1 1 a"))
            self.assertEqual(["error 100 TooManyPlanners", ""], planners[3].read(2))
            planners[0].socket.shutdown(socket.SHUT_WR)
            self.assertEqual([""], planners[0].read())
            with self.planner() as one:
                self.assertEqual(["ok"], one.ask("put top 1 1 a"))

    def test_planners_who_come_and_go(self):
        self.start()
        count = len(os.listdir(f"/proc/{self.service.pid}/fd"))
        for _ in range(300):
            with self.planner() as one:
                self.assertEqual(["ok"], one.ask("put top 1 1 a"))
                one.send("list top", "log last=1", "begin", "put top")
        with self.planner() as one:
            self.assertEqual(["ok"], one.ask("put top 1 1 b"))
        self.until(lambda: len(os.listdir(f"/proc/{self.service.pid}/fd")) == count)
