"""Whose requests come next, and how much work a group may be. Nothing here depends on how quick the machine is."""
import unittest
from collections import Counter
from types import SimpleNamespace

from service import limits
from service.batch import Batch
from service.planner import SMALL
from service.turns import Pace, Turns, work_of


def batch_of(lines, size=10):
    """A batch of so many lines, each of so many bytes."""
    return Batch(None, [b"x" * size] * lines)


class Waiting:
    """A planner who waits with requests, one at a time. One that floods has endless ones."""

    turn = SMALL

    def __init__(self, name, *requests, uid=1, floods=False):
        self.name, self.person, self.requests, self.floods = name, SimpleNamespace(uid=uid), list(requests), floods
        self.doubt, self.had = 0, Counter()

    @property
    def first(self):
        return self.requests[0] if self.requests else None

    def is_ready(self, _=None):
        return self.first is not None

    def next_request(self):
        return self.requests[0] if self.floods else self.requests.pop(0)


def flood(name, lines, uid=1):
    return Waiting(name, batch_of(lines), uid=uid, floods=True)


def taken(turns, waiting, work):
    """The names of those who have turns in a group, in order. `waiting` becomes who waits after it."""
    who = {it: None for it in waiting if it.is_ready()}
    found = turns.take(who, work)
    waiting[:] = who
    return [it.name for it, _ in found]


class TurnsTests(unittest.TestCase):
    def test_how_much_work_a_batch_is(self):
        batches = batch_of(1), batch_of(64), batch_of(1, 1024), batch_of(1, 1 << 16)
        self.assertEqual([1, 64, 2, 65], [work_of(it) for it in batches])

    def test_one_of_each_then_a_second_one(self):
        waiting = [flood(it, 1) for it in "abc"]
        self.assertEqual([*"abcabca"], taken(Turns(SMALL, work_of), waiting, 7))

    def test_a_group_ends_with_the_batch_that_fills_it(self):
        turns, waiting = Turns(SMALL, work_of), [flood("a", 60)]
        self.assertEqual(["a"] * 2, taken(turns, waiting, 100))
        self.assertEqual(["a"] * 2, taken(turns, waiting, 120))
        self.assertEqual(["a"], taken(turns, waiting, 1))

    def test_whoever_waits_is_in_the_next_group_beside_floods(self):
        """64 planners, of whom 20 flood: each line of the 44 others is in the first group after it came."""
        for lines in (1, 2, 16, 64):
            turns, waiting = Turns(SMALL, work_of), [flood(f"flood {it}", lines) for it in range(20)]
            for _ in range(20):
                taken(turns, waiting, 200)
            others = [Waiting(f"other {it}") for it in range(44)]
            for _ in range(50):
                for it in others:
                    it.requests.append(batch_of(1))
                waiting += others
                names = taken(turns, waiting, 200)
                self.assertEqual({it.name for it in others}, {it for it in names if it.startswith("other")}, lines)
                # The batch that fills a group may be more than the rest of it.
                self.assertLess(sum(lines if it.startswith("flood") else 1 for it in names), 200 + lines)

    def test_those_who_flood_have_equal_shares_of_the_work(self):
        turns = Turns(SMALL, work_of)
        sizes = {f"{lines} lines, {it}": lines for lines in (1, 3, 20, 64) for it in range(5)}
        waiting, had = [flood(name, lines) for name, lines in sizes.items()], Counter()
        for _ in range(200):
            for name in taken(turns, waiting, 100):
                had[name] += sizes[name]
        self.assertEqual(sizes.keys(), had.keys())
        # No two differ by more than one batch of each.
        self.assertLessEqual(max(had.values()) - min(had.values()), 64 + 64)

    def test_many_single_lines_do_not_keep_a_batch_waiting(self):
        turns, large = Turns(SMALL, work_of), Waiting("large", batch_of(64))
        others = [Waiting(f"other {it}") for it in range(1000)]
        waiting, groups = [large], 0
        while large.is_ready():
            late = [it for it in others if not it.is_ready()]
            for it in late:
                it.requests.append(batch_of(1))
            waiting += late
            taken(turns, waiting, 100)
            groups += 1
        # Each of the thousand has one line before it, and nobody a second one.
        self.assertLessEqual(groups, 1000 // 100 + 1)

    def test_who_comes_late_is_little_ahead(self):
        turns, waiting, had = Turns(SMALL, work_of), [flood("early", 1)], Counter()
        for _ in range(50):
            taken(turns, waiting, 100)
        waiting.append(flood("late", 1))
        for _ in range(20):
            had.update(taken(turns, waiting, 50))
        # By the lines of the largest batch that shares a commit, and one of each, whatever the early one had before.
        self.assertIn(had["late"] - had["early"], range(limits.SMALL_LINES + 3))

    def test_a_user_has_a_quarter_while_others_wait(self):
        turns = Turns(SMALL, work_of)
        waiting = [flood(f"many {it}", 1, uid=1) for it in range(60)]
        waiting += [flood(f"{uid}", 1, uid=uid) for uid in (2, 3, 4)]
        found = Counter(it.split()[0] for it in taken(turns, waiting, 80))
        self.assertEqual({"many": 20, "2": 20, "3": 20, "4": 20}, found)
        # What the others do not want is not left undone.
        waiting = [*waiting[:60], Waiting("one", batch_of(1), uid=2)]
        found = Counter(it.split()[0] for it in taken(turns, [it for it in waiting if it.name[0] in "mo"], 80))
        self.assertEqual(80, sum(found.values()))
        self.assertEqual(1, found["one"])

    def test_how_many_batches_of_one_planner(self):
        turns, waiting = Turns(SMALL, work_of), [flood("a", 1), flood("b", 1)]
        waiting[1].doubt = 1
        found = Counter(taken(turns, waiting, 1000))
        self.assertEqual({"a": limits.GROUP_OF_ONE, "b": 1}, found)


class PaceTests(unittest.TestCase):
    def paced(self, work, seconds, commit_seconds, count=200):
        pace = Pace()
        for _ in range(count):
            pace.note(work, seconds, commit_seconds)
        return pace.work()

    def test_a_group_takes_about_half_as_long_as_its_commit(self):
        # A line takes 0.1 ms, so 20 ms have room for 200.
        self.assertAlmostEqual(200, self.paced(200, 0.02, 0.04), delta=2)
        self.assertAlmostEqual(20, self.paced(200, 0.2, 0.04), delta=2)

    def test_a_quick_disk(self):
        # 10 ms at least.
        self.assertAlmostEqual(100, self.paced(100, 0.01, 0.0001), delta=2)

    def test_at_least_one_line_and_at_most_the_limit(self):
        self.assertEqual(1, self.paced(1, 1.0, 0.01))
        self.assertEqual(limits.GROUP, self.paced(1000, 0.01, 1.0))

    def test_heavy_lines_are_noticed_at_once(self):
        pace = Pace()
        pace.note(pace.work(), 20.0, 0.01)
        self.assertEqual(1, pace.work())

    def test_single_lines_say_little_of_full_groups(self):
        pace = Pace()
        before = pace.work()
        for _ in range(10):
            # Ten times as long as a line in a group.
            pace.note(1, 10 * pace.work_seconds, 0.01)
        self.assertGreater(pace.work(), 0.9 * before)
