"""What the service tells about itself: figures for whoever asks, and lines for whoever operates it."""
import os
import time
from collections import deque
from typing import Callable, Deque, Dict, Iterator, Optional, Tuple, Union

# Each figure, whether it only rises (a counter) or not (a gauge), and what it is.
FIGURES = {
    "blocks": ("gauge", "blocks of the store"),
    "free_blocks": ("gauge", "free blocks, as the line free gives them"),
    "spare_blocks": ("gauge", "blocks that were free after the last marking that was seen"),
    "seconds_left": ("gauge", "how long the spare blocks last, at the rate between the markings that were seen"),
    "disk_free_bytes": ("gauge", "what is free on the disk of the store"),
    "disk_seconds_left": ("gauge", "how long that lasts, at the rate of the last hour"),
    "alternatives": ("gauge", "alternatives, without the service's own"),
    "last_batch": ("gauge", "the number of the last batch"),
    "batches_total": ("counter", "batches that were committed"),
    "refused_batches_total": ("counter", "batches that were refused when they were carried out"),
    "commits_total": ("counter", "commits"),
    "commit_seconds_total": ("counter", "the time that groups of batches took, from the first line to the last answer"),
    "commit_seconds_slowest": ("gauge", "the time that the slowest group of the last minute took"),
    "sync_seconds_total": ("counter", "the time that syncs of the journal took"),
    "planners": ("gauge", "connections"),
    "users": ("gauge", "users with connections"),
    "waiting_planners": ("gauge", "planners with a line that waits"),
    "held_bytes": ("gauge", "lines that are held or wait"),
    "unread_bytes": ("gauge", "answers that are not read yet"),
    "logs": ("gauge", "answers to log that are under way"),
    "journal_bytes": ("gauge", "the size of the journal"),
    "memory_bytes": ("gauge", "the memory of the service"),
    "up_seconds": ("gauge", "since the service was started"),
}
Value = Union[int, float]
# A commit that takes longer is told.
SLOW_SECONDS = 1.0
# How many lines a second are told of one kind of event.
MOST_TOLD = 5
# How many markings are remembered.
MARKINGS = 50
# How often the disk is looked at, and how long that is remembered.
DISK_SECONDS, DISK_REMEMBERED = 10, 3600


class Room:
    """How many blocks are spare: those that are free after a marking, which a rise of the free blocks shows."""

    def __init__(self) -> None:
        self.blocks, self.free = 0, 0
        self.markings: Deque[Tuple[float, int]] = deque(maxlen=MARKINGS)

    def note(self, now: float, blocks: int, free: int) -> None:
        if blocks != self.blocks:
            self.markings.clear()
        elif free > self.free:
            self.markings.append((now, free))
        self.blocks, self.free = blocks, free

    def spare(self) -> Optional[int]:
        return self.markings[-1][1] if self.markings else None

    def seconds_left(self) -> Optional[float]:
        """None if it is not known, or if nothing was used."""
        if len(self.markings) < 2:
            return None
        (first, before), (last, after) = self.markings[0], self.markings[-1]
        return after * (last - first) / (before - after) if after < before else None


class Disk:
    """What is free on the disk of a file, and how that changes."""

    def __init__(self, file: str) -> None:
        self.folder = os.path.dirname(os.path.abspath(file))
        self.seen: Deque[Tuple[float, int]] = deque(maxlen=DISK_REMEMBERED // DISK_SECONDS + 1)

    def note(self, now: float) -> None:
        if self.seen and now < self.seen[-1][0] + DISK_SECONDS:
            return
        free = self.free()
        if free is not None:
            self.seen.append((now, free))

    def free(self) -> Optional[int]:
        try:
            found = os.statvfs(self.folder)
        except OSError:
            return None
        return found.f_bavail * found.f_frsize

    def seconds_left(self) -> Optional[float]:
        """None if it is not known, or if nothing was used."""
        if len(self.seen) < 2:
            return None
        (first, before), (last, after) = self.seen[0], self.seen[-1]
        return after * (last - first) / (before - after) if after < before else None


class Commits:
    """Commits and the batches in them."""

    def __init__(self) -> None:
        self.count, self.batches, self.refused, self.seconds, self.sync_seconds = 0, 0, 0, 0.0, 0.0
        self.slowest: Deque[Tuple[float, float]] = deque()

    def note(self, now: float, count: int, batches: int, seconds: float) -> None:
        """Notes that so many batches were committed, by so many commits."""
        self.count, self.batches, self.seconds = self.count + count, self.batches + batches, self.seconds + seconds
        # Only those that may still be the slowest of a minute.
        while self.slowest and self.slowest[-1][1] <= seconds:
            self.slowest.pop()
        self.slowest.append((now, seconds))

    def slowest_since(self, since: float) -> float:
        while self.slowest and self.slowest[0][0] < since:
            self.slowest.popleft()
        return self.slowest[0][1] if self.slowest else 0.0


class Teller:
    """Tells events, but no more than a few of a kind in a second."""

    def __init__(self, say: Callable[[object], None]):
        self.say, self.second, self.counts = say, 0, {}

    def tell(self, kind: str, text: str) -> None:
        second = int(time.monotonic())
        if second != self.second:
            for it, count in self.counts.items():
                if count > MOST_TOLD:
                    self.say(f"{it}: {count - MOST_TOLD} more")
            self.second, self.counts = second, {}
        self.counts[kind] = self.counts.get(kind, 0) + 1
        if self.counts[kind] <= MOST_TOLD:
            self.say(f"{kind}: {text}")


def memory() -> int:
    """The memory of this process, in bytes."""
    with open("/proc/self/statm") as file:
        return int(file.read().split()[1]) * os.sysconf("SC_PAGE_SIZE")


def status_lines(figures: Dict[str, Optional[Value]]) -> Iterator[str]:
    """The answer to the line `status`. What is not known is left out."""
    known = [f"status {name} {told(value)}" for name, value in figures.items() if value is not None]
    yield from known
    yield f"end {len(known)}"


def told(value: Value) -> str:
    return f"{value:.6f}" if isinstance(value, float) else str(value)


def prometheus(rows: Iterator[str]) -> Iterator[str]:
    """The text that Prometheus reads, made of the answer to `status`."""
    for _, name, value in (it.split(" ") for it in rows):
        kind, text = FIGURES[name]
        yield f"# HELP altserve_{name} {text}"
        yield f"# TYPE altserve_{name} {kind}"
        yield f"altserve_{name} {value}"
