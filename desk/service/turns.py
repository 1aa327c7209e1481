"""Whose requests come next, and how much work a group of them may be."""
import math
from heapq import heappop, heappush
from typing import Callable, Dict, List, Optional, Tuple

from service import limits
from service.batch import Batch
from service.limits import of_one_user
from service.planner import Admits, Planner, Request

# How much of the time of its commit a group may take, and how many seconds in any case: with less, a quick disk would
# have a commit for few lines.
OF_COMMIT, LEAST_SECONDS = 0.5, 0.01
# How much a group changes what is expected of the next one.
CHANGE = 0.1
# How far behind the others in work one may count as who had less lately: by a batch of as many lines as may be small.
AHEAD = limits.SMALL_LINES
# A request that has its turn, and its planner.
Taken = Tuple[Planner, Request]
# A planner in a queue: how much work it had, how much its next request is, and its place among those who wait.
Place = Tuple[int, int, int, Planner]


def work_of(request: Request) -> int:
    """A line counts one, and one more for each KiB."""
    return len(request.lines) + request.bytes // 1024 if isinstance(request, Batch) else 1


class Turns:
    """Start-time fair queueing: next is the planner who had least work, and of those who had the same, the one whose
    request is the smallest. `now` is the most that one who was next had; whoever had less counts as little less, so
    nobody can save up turns."""

    def __init__(self, turn: int, work_of: Callable[[Request], int] = lambda _: 1):
        self.turn, self.work_of, self.now = turn, work_of, 0
        # How much work those are that were taken last.
        self.taken = 0

    def take(self, waiting: Dict[Planner, None], work: int, admits: Optional[Admits] = None) -> List[Taken]:
        """Takes first requests that have this turn, until they are that much work. While others wait no user has more
        than a quarter of it. Whoever had a turn is last in `waiting` then."""
        taken: List[Taken] = []
        counts: Dict[Planner, int] = {}
        of_users: Dict[int, int] = {}
        quarter: float = max(1, of_one_user(work))
        queue = self._queue([it for it in waiting if it.turn == self.turn and it.is_ready(admits)])
        # Those who wait for a second turn, a heap; and those of users who had a quarter.
        again: List[Place] = []
        later: List[Place] = []
        self.taken = 0
        while work > self.taken and (queue or again or later):
            if not queue and not again:
                queue, later, quarter = later[::-1], [], math.inf
            is_next = not again or bool(queue) and queue[-1] < again[0]
            had, size, place, planner = turn = queue.pop() if is_next else heappop(again)
            uid = planner.person.uid
            of_user, count = of_users.get(uid, 0), counts.get(planner, 0) + 1
            if of_user >= quarter:
                later.append(turn)
                continue
            taken.append((planner, planner.next_request()))
            self.now, planner.had[self] = max(self.now, had), had + size
            of_users[uid], counts[planner] = of_user + size, count
            self.taken += size
            # Where one batch may be refused, the next one may need to know.
            may_more = planner.turn == self.turn and count < limits.GROUP_OF_ONE and not planner.doubt
            if may_more and planner.is_ready(admits):
                heappush(again, (had + size, self.work_of(planner.first), place, planner))
        for planner in counts:
            waiting.pop(planner, None)
            if planner.first is not None:
                waiting[planner] = None
        return taken

    def _queue(self, planners: List[Planner]) -> List[Place]:
        """Planners in the order of their turns, the next one last."""
        least = self.now - AHEAD
        queue = [(max(it.had[self], least), self.work_of(it.first), place, it) for place, it in enumerate(planners)]
        queue.sort(reverse=True)
        return queue


class Pace:
    """How much work a group may be: as much as takes about half as long as its commit, by what the last groups took."""

    def __init__(self) -> None:
        self.commit_seconds, self.work_seconds = LEAST_SECONDS, 50e-6

    def work(self) -> int:
        return max(1, min(limits.GROUP, int(max(OF_COMMIT * self.commit_seconds, LEAST_SECONDS) / self.work_seconds)))

    def note(self, work: int, seconds: float, commit_seconds: float) -> None:
        """A group took this long, and its commit."""
        # In a small group much of the time is not that of its work.
        share = min(1.0, work / self.work())
        self.work_seconds += CHANGE * share * (seconds / work - self.work_seconds)
        self.commit_seconds += CHANGE * (commit_seconds - self.commit_seconds)
