"""What one planner or one user does costs others little."""
import contextlib
import os
import signal
import threading
import time
import unittest
from pathlib import Path

from service import limits
from service_tests.support import HAS_TOML, LONG, LONG_VALUE, NEEDS_TOML, NOBODY, ServiceTest


class FairnessTests(ServiceTest):
    @contextlib.contextmanager
    def flood(self, count, text):
        """So many planners send the text again and again, and read what they are answered."""
        is_over = threading.Event()
        with contextlib.ExitStack() as stack:
            planners = [stack.enter_context(self.planner()) for _ in range(count)]
            counts = [0] * count

            def send(one):
                with contextlib.suppress(OSError):
                    while not is_over.is_set():
                        one.socket.sendall(text)

            def read(number, one):
                with contextlib.suppress(OSError):
                    while came := one.socket.recv(1 << 16):
                        counts[number] += came.count(b"\n")

            threads = [threading.Thread(target=send, args=(it,)) for it in planners]
            threads += [threading.Thread(target=read, args=it) for it in enumerate(planners)]
            for it in threads:
                it.start()
            try:
                yield counts
            finally:
                is_over.set()
                for it in planners:
                    it.socket.shutdown(2)
                for it in threads:
                    it.join()

    def test_a_single_line_beside_floods(self):
        # With groups of few batches, whoever came first would have all of them.
        self.start_limited(GROUP=8)
        floods = {
            "lines": b"put top 7 1 a\n" * 500,
            "refused batches": b"begin\nput top 7 1 a\nput nowhere 7 1 a\ncommit\n" * 200,
            "queries": b"get top 7 1\n" * 500,
            "lists": b"list top\n" * 100,
            "logs": b"log last=5\n" * 100,
        }
        with self.planner() as one:
            for what, text in floods.items():
                with self.flood(12, text):
                    begun = time.monotonic()
                    for number in range(5):
                        self.assertEqual(
                            ["ok", "value a"], one.ask(f"put top 8 {number} a", f"get top 8 {number}"), what
                        )
                    self.assertLess(time.monotonic() - begun, 20, what)

    def test_each_planner_has_its_share(self):
        self.start_limited(GROUP=8)
        with self.flood(24, b"put top 7 1 a\n" * 500) as counts:
            time.sleep(4)
            found = list(counts)
        self.assertGreater(min(found), sum(found) / len(found) / 2, found)

    def test_connections_that_come_together_are_accepted_together(self):
        self.start()
        with contextlib.ExitStack() as stack:
            with self.halted(), self.planner() as one:
                one.send("put top 1 1 a")
                self.until(one.is_read)
                planners = [stack.enter_context(self.planner()) for _ in range(40)]
                for number, it in enumerate(planners):
                    it.send(f"put top 2 {number} a")
            for it in planners:
                self.assertEqual(["ok"], it.read())
        lines = Path(self.journal).read_text().splitlines()
        self.assertLess(sum(it.startswith('{"done"') for it in lines), 8)


class BoundTests(ServiceTest):
    def test_long_queries_that_wait(self):
        self.start()
        line = b"get top 7 1 " + b"a" * (limits.LINE_BYTES - 100) + b"\n"
        with contextlib.ExitStack() as stack, self.planner() as other:
            for _ in range(40):
                one = stack.enter_context(self.planner())
                one.socket.setblocking(False)
                with contextlib.suppress(BlockingIOError):
                    while True:
                        one.socket.sendall(line)
            for _ in range(20):
                self.assertEqual(["ok"], other.ask("put top 1 1 a"))
        self.assertLess(self.memory(), 128 << 20)

    def test_lines_that_do_not_end(self):
        self.start_limited(HELD_BYTES=32 << 20)
        with contextlib.ExitStack() as stack, self.planner() as other:
            planners = [stack.enter_context(self.planner()) for _ in range(60)]
            for one in planners:
                one.socket.sendall(b"put top 1 1 " + b"a" * (limits.LINE_BYTES - 100))
            self.assertEqual(["ok"], other.ask("put top 1 1 a"))
            for one in planners:
                one.send("")
            answers = [one.read()[0] for one in planners]
            # A quarter of what may be held has room for seven or eight of them.
            bad = f"error 22 BadLine {LONG_VALUE}"
            self.assertEqual({bad, "error 94 TooLarge"}, set(answers))
            self.assertIn(answers.count(bad), (7, 8))
            self.assertEqual(["ok"], planners[-1].ask("put top 1 2 a"))
        self.assertLess(self.memory(), 64 << 20)

    def test_batches_that_are_held(self):
        self.start_limited(HELD_BYTES=64 << 20)
        text = b"begin\n" + b"put top 1 1 a\n" * 50_000
        with contextlib.ExitStack() as stack, self.planner() as other:
            planners = [stack.enter_context(self.planner()) for _ in range(12)]
            for one in planners:
                one.socket.sendall(text)
            self.assertEqual(["ok"], other.ask("put top 1 1 a"))
            answers = []
            for one in planners:
                one.send("commit")
                answers.append(one.read(50_002)[1:])
            made = [it for it in answers if it[0] == "ok"]
            self.assertGreaterEqual(len(made), 4)
            self.assertTrue(any("error 94 TooLarge" in it for it in answers))
            self.assertTrue(all(set(it) == {"ok"} for it in made))
        self.assertLess(self.memory(), 96 << 20)

    def fill(self, uid):
        """Starts a process of another user that has the service hold as much as it may, and leaves as many answers
        unread."""
        ready, is_ready = os.pipe()
        child = os.fork()
        if child:
            os.close(is_ready)
            self.addCleanup(os.close, ready)
            self.addCleanup(os.waitpid, child, 0)
            self.addCleanup(os.kill, child, signal.SIGKILL)
            return ready
        try:
            os.setuid(uid)
            planners = [self.planner() for _ in range(34)]
            for one in planners[:2]:
                one.send("begin", *["put top 1 1 " + "a" * 1_000_000] * 38)
            for one in planners[2:]:
                one.send(*["list top"] * 10)
            while not all(it.is_read() for it in planners):
                time.sleep(0.05)
            os.write(is_ready, b"1")
            time.sleep(600)
        finally:
            os._exit(1)

    @unittest.skipIf(os.geteuid(), "only root can connect as other users")
    @unittest.skipUnless(HAS_TOML, NEEDS_TOML)
    def test_all_that_five_users_may_have_held_and_unread(self):
        self.rules('[change]\n"*" = ["*"]')
        self.start()
        with self.planner() as one:
            one.ask(*(f"put top 1 {n} {LONG}" for n in range(100)))
            os.chmod(self.folder, 0o711)
            os.chmod(self.socket, 0o666)
            # One after another: if two batches meet the limit at once, both may be refused.
            for number in range(5):
                self.assertEqual(b"1", os.read(self.fill(NOBODY - number), 1))
            found = {name: float(value) for _, name, value in (it.split() for it in one.rows("status")[:-1])}
            self.assertEqual(["ok"], one.ask("put top 2 1 a"))
        # Four have nearly a quarter each, and the fifth has what is left.
        self.assertGreater(found["held_bytes"], 4 * 2 * 38 * 1_000_000)
        self.assertLessEqual(found["held_bytes"], limits.HELD_BYTES)
        self.assertGreater(found["unread_bytes"], 5 * 32 << 20)
        self.assertLess(self.memory(), 600 << 20)

    def test_a_long_answer_that_comes_first(self):
        self.start()
        with self.planner() as one:
            lines = ["put nowhere 1 1 a"] * 60_000
            one.send("begin", *lines, "commit")
            due = ["ok", "error 1 NoSuchAlternative", *["error 91 NotDone 1"] * 60_000]
            self.assertEqual(due, one.read(60_002))
            self.assertEqual(["ok"], one.ask("put top 1 1 a"))

    def test_long_answers_that_nobody_reads(self):
        self.start()
        count = len(os.listdir(f"/proc/{self.service.pid}/fd"))
        text = b"begin\n" + b"put nowhere 1 1 a\n" * 60_000 + b"commit\n"
        for _ in range(20):
            with self.planner() as one:
                one.socket.sendall(text)
                one.send("get top 1 1")
        with self.planner() as one:
            self.assertEqual(["ok"], one.ask("put top 1 1 b"))
        self.until(lambda: len(os.listdir(f"/proc/{self.service.pid}/fd")) <= count + 3)

    def test_answers_beyond_the_room_for_files(self):
        self.start_limited(UNREAD_BYTES=10_000, UNREAD_FILES=4 << 20)
        with self.planner() as one, self.planner() as other:
            one.ask(*(f"put top 1 {n} {LONG}" for n in range(100)))
            other.send("list top")
            self.assertLess(len(other.rest()), 101)
            self.assertEqual("end 51", one.rows("list top 1 0 50")[-1])
            self.assertEqual("end 51", one.rows("list top 1 0 50")[-1])

    def test_memory_stays(self):
        self.start()
        with self.planner() as one:
            lines = [f"put top 1 {n % 500} {n}" for n in range(10_000)]
            one.ask(*lines)
            before = self.memory("VmRSS")
            for _ in range(3):
                self.assertEqual(["ok"] * len(lines), one.ask(*lines))
            self.assertLess(self.memory("VmRSS"), before + (4 << 20))


class LeavingTests(ServiceTest):
    def test_lines_that_were_sent_before_a_close(self):
        self.start()
        for number in range(20):
            with self.planner() as one:
                lines = [f"put top {number} {n} a" for n in range(50)]
                one.send("list top", "log", *lines[:25], "begin", *lines[25:], "commit", "begin", "put top 9999 1 a")
                if number % 2:
                    one.read(2)
        with self.planner() as one:
            self.until(lambda: one.rows("list top")[-1] == f"end {20 * 50}")
            self.assertEqual(["end 0"], one.rows("list top 9999"))

    def test_whoever_leaves_at_any_moment(self):
        self.start_limited(PLANNERS=4 * 2)
        with self.planner() as one:
            one.ask("put top 1 1 a")
            for text in (
                b"", b"log\n", b"list top\nlog\n", b"begin\nput top 1 1 a\n", b"put top 1 1 a\n" * 200, b"put top",
                b"log last=1\n" * 300,
            ):
                for _ in range(60):
                    with contextlib.suppress(OSError), self.planner() as other:
                        other.socket.sendall(text)
            self.until(lambda: one.ask("put top 1 1 a") == ["ok"])
            self.assertEqual(["ok"], one.ask("put top 1 1 a"))
        self.assertEqual(0, self.stop())
