"""Tests of the desk: the texts are read in pieces, and nobody who asks waits for more than one of them."""
import asyncio
import contextlib
import threading
import time
import unittest
import unittest.mock

import finding
from desk_tests.support import ALTCTL, LONGEST_WAIT, DeskTest
from door import TokenDoor
from pieces import CALM_SECONDS, PIECE_SECONDS, REST_SECONDS, Pieces
from webserver import Desk

ROW_SECONDS = 0.001
ROWS_OF_PIECE = round(PIECE_SECONDS / ROW_SECONDS)


class Clock:
    """A clock that goes on by work with rows and by waiting alone, and what is due at some time."""

    def __init__(self):
        self.now, self.due = 100.0, []

    def monotonic(self):
        return self.now

    def sleep(self, seconds):
        self.now += seconds
        while self.due and self.due[0][0] <= self.now:
            self.due.pop(0)[1]()


class PiecesTests(unittest.TestCase):
    def setUp(self):
        self.clock, self.pieces, self.taken = Clock(), Pieces(), []
        mock = unittest.mock.patch("pieces.time", self.clock)
        mock.start()
        self.addCleanup(mock.stop)

    def asks(self, begin, end):
        """Somebody asks from one time to another."""
        question = self.pieces.question()
        its = [(100 + begin, question.__enter__), (100 + end, lambda: question.__exit__(None, None, None))]
        self.clock.due = sorted([*self.clock.due, *its], key=lambda it: it[0])

    def work(self, count):
        """Works with rows, each of which takes a thousandth of a second."""

        def rows():
            for row in range(count):
                self.clock.sleep(ROW_SECONDS)
                yield row

        for row in self.pieces.of(rows()):
            self.taken.append((self.clock.now - 100, row))
        self.assertEqual(list(range(count)), [row for _, row in self.taken])

    def between(self, begin, end):
        return sum(begin < at < end for at, _ in self.taken)

    def test_work_that_nobody_disturbs_has_no_rests(self):
        self.work(1000)
        self.assertAlmostEqual(101, self.clock.now)

    def test_whoever_asks_waits_for_one_piece_at_most(self):
        for begin, end in ((0.1005, 0.4), (0.6005, 0.6105), (2.0005, 4)):
            self.asks(begin, end)
        self.work(1000)
        self.assertLessEqual(self.between(0.1005, 0.4), ROWS_OF_PIECE)
        self.assertLessEqual(self.between(2.0005, 4), ROWS_OF_PIECE)
        # Nor does the work go on between two questions of a page.
        self.assertEqual(0, self.between(0.1005 + PIECE_SECONDS, 0.4 + CALM_SECONDS))
        self.assertEqual(0, self.between(0.6105 + PIECE_SECONDS, 0.6105 + CALM_SECONDS))
        self.assertEqual(1000, len(self.taken))

    def test_two_who_ask_at_the_same_time(self):
        self.asks(0.1005, 0.5)
        self.asks(0.2005, 0.3)
        self.work(1000)
        self.assertEqual(0, self.between(0.1005 + PIECE_SECONDS, 0.5 + CALM_SECONDS))

    def test_the_work_goes_on_however_long_somebody_asks(self):
        """Each rest has an end, so the service does not give up the connection."""
        self.asks(0.1005, 1000)
        self.work(1000)
        rests = [after - before for (before, _), (after, _) in zip(self.taken, self.taken[1:])]
        self.assertLess(max(rests), REST_SECONDS + PIECE_SECONDS)
        self.assertGreater(self.clock.now - 100, 900 // (ROWS_OF_PIECE + 1) * REST_SECONDS)

    def test_work_that_somebody_waits_for_has_half_of_the_time(self):
        self.asks(0.1005, 1000)
        with self.pieces.wanted():
            self.work(1000)
        self.assertLess(self.clock.now - 100, 2.2)
        # Once nobody waits any more it stands still again.
        self.taken, self.clock.now = [], 100
        self.work(ROWS_OF_PIECE + 1)
        self.assertGreater(self.clock.now - 100, REST_SECONDS)


class ReadingTests(DeskTest):
    """A desk in this process."""

    COUNT = 400

    def fill(self):
        super().fill(self.COUNT)

    def test_no_text_is_read_while_somebody_asks(self):
        self.serve()
        asyncio.run(self.read_while_somebody_asks())

    async def read_while_somebody_asks(self):
        desk, read, holding = Desk(self.socket, TokenDoor(0), ALTCTL), [], threading.Event()
        self.addCleanup(holding.set)

        def count(texts, attributes):
            """No row is read in less than this, so a piece has no more of them than fit, on any machine."""
            time.sleep(ROW_SECONDS)
            read.append(attributes["mat"])

        async with contextlib.asynccontextmanager(desk.following)(None):
            with unittest.mock.patch.object(finding.Texts, "_count", count):
                reading = asyncio.ensure_future(desk.read_texts("top"))
                await self.until(lambda: read)
                question = asyncio.ensure_future(desk.asked(lambda designs: holding.wait(LONGEST_WAIT)))
                await asyncio.sleep(0)
                before = len(read)
                await asyncio.sleep(50 * PIECE_SECONDS)
                self.assertLessEqual(len(read) - before, ROWS_OF_PIECE + 1)
                self.assertLess(len(read), self.COUNT)
                holding.set()
                self.assertTrue(await question)
                await reading
            self.assertEqual(["PVC"] * self.COUNT, read)
            [texts] = desk.designs.finder.texts.values()
            self.assertEqual(list(range(1, self.COUNT + 1)), texts.numbers)

    async def until(self, is_so):
        late = time.monotonic() + LONGEST_WAIT
        while not is_so():
            self.assertLess(time.monotonic(), late)
            await asyncio.sleep(0.001)
