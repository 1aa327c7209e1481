"""Any moment back: a new store, made of a backup and of the batches that the journal and its archives have after it."""
import contextlib
import os
import subprocess
from typing import Callable, Iterator, List, Sequence, Tuple

from service.archives import dropped_from, is_after, is_moment
from service.batch import refused_place
from service.durable import give_name
from service.journal import last_number
from service.journal_log import Filter, Log
from service.locking import locked
from service.recent import stamp_of
from service.store import Fatal, Store
from service.stream import answered

# As many lines are carried out between two commits.
LINES = 4096


class Impossible(Exception):
    """There is no such state, or it cannot be made from this backup."""


class Past:
    """A journal, and archives of its older entries."""

    def __init__(self, journal: str, archives: Sequence[str]):
        with contextlib.ExitStack() as files:
            logs = [(it, files.enter_context(contextlib.closing(Log(it)))) for it in (*archives, journal)]
            self.files = files.pop_all()
        journal_log = logs[-1][1]
        # The last batch in the store.
        self.last = kept = journal_log.kept(journal_log.size())
        # The journals, oldest first, each with the last batch that counts of it, and the ranges of the numbers that
        # count.
        self.logs: List[Tuple[Log, int]] = []
        self.ranges: List[Tuple[int, int]] = []
        # The oldest of them, and the archive that comes before it.
        self.oldest = journal, dropped_from(journal_log.file).archive
        for path, log in [logs[-1], *sorted(logs[:-1], key=lambda it: -dropped_from(it[1].file).highest)]:
            dropped, archive = dropped_from(log.file)
            if dropped >= kept or path != journal and last_number(log.file, log.size()) < kept:
                continue
            found = log.ranges(log.size(), kept)
            self.logs.insert(0, (log, kept))
            self.ranges[:0] = [(max(first, dropped + 1), last) for first, last in found if last > dropped]
            self.oldest = path, archive
            kept = max((min(last, dropped) for first, last in found if first <= dropped), default=0)
        # Of the batches up to this one, none is here.
        self.before = kept

    def close(self) -> None:
        self.files.close()

    def rows(self, after: int) -> Iterator[Tuple[int, str, bytes]]:
        """The number, the time and a line, for each line of the batches after a number."""
        for log, kept in self.logs:
            after = max(after, dropped_from(log.file).highest)
            for text in log.entries(Filter(after=after, is_in_full=True), kept):
                for row in text.splitlines():
                    if row.startswith(b"entry "):
                        _, at, time, _, line = row.split(b" ", 4)
                        yield int(at), time.decode("ascii"), line

    def last_until(self, until: str) -> int:
        """The last batch up to a moment."""
        if not until:
            return self.last
        if not is_moment(until):
            raise Impossible(f"{until} is no number of a batch, and no time like 2026-01-31T12:00:00Z")
        if until.isdigit():
            return int(until)
        number = 0
        for at, time, _ in self.rows(0):
            if is_after(at, time, until):
                break
            number = at
        if not number and self.before:
            raise Impossible(self.what_is_missing())
        return number

    def look(self, backup: int, number: int) -> None:
        """Raises Impossible if a state cannot be made from a backup of another one."""
        if number < backup:
            raise Impossible(f"the backup is as of batch {backup}, after batch {number}")
        if backup < self.before and backup < number:
            raise Impossible(self.what_is_missing(f"the backup is as of batch {backup}, and "))
        for it in (backup, number):
            if it > self.before and not any(first <= it <= end for first, end in self.ranges):
                last = f"the last state that the journal tells, batch {self.last}"
                raise Impossible(f"batch {it} is not among those that led to {last}")

    def what_is_missing(self, why: str = "") -> str:
        path, archive = self.oldest
        return (
            f"{why}{path} begins after batch {self.before}\n"
            f"it is possible from a backup as of batch {self.before} or later,"
            f" or with --archive and the archive {archive}"
        )


def restored(
    backup: str, journal: str, archives: Sequence[str], new: str, until: str, altctl: str, say: Callable[[object], None]
) -> Tuple[int, int]:
    """Makes the file `new`. Returns the number of its last batch, and how many batches were carried out after the
    backup."""
    part = f"{new}.part"
    for it in (new, part):
        if os.path.lexists(it):
            raise Impossible(f"{it} is there already")
    past = Past(journal, archives)
    try:
        if subprocess.run([altctl, "copy", "--", backup, part], stdout=subprocess.DEVNULL).returncode:
            raise Impossible(f"{backup} could not be copied to {part}")
        lock = locked(part)
        try:
            number, count = carried_out(Store(part, altctl, ["--grow"], lock, say), past, until)
            give_name(part, new, lock)
        finally:
            os.close(lock)
        return number, count
    finally:
        past.close()
        if os.path.lexists(part):
            os.unlink(part)


def carried_out(store: Store, past: Past, until: str) -> Tuple[int, int]:
    """Carries out the batches after the last one in a store, up to a number or a time."""
    try:
        number = past.last_until(until)
        past.look(store.kept, number)
        count, lines = 0, []
        for at, batch in batches_after(past, store.kept, number):
            if len(lines) + len(batch) > LINES and lines:
                commit(store, lines, at - 1)
                lines = []
            count += 1
            lines += [(at, it) for it in batch]
        commit(store, lines, number)
        return number, count
    finally:
        store.end()


def batches_after(past: Past, after: int, last: int) -> Iterator[Tuple[int, List[bytes]]]:
    """The batches after a number, up to another one, with their lines."""
    number, lines = 0, []
    for at, _, line in past.rows(after):
        if at > last:
            break
        if at != number and lines:
            yield number, lines
            lines = []
        number = at
        lines.append(line)
    if lines:
        yield number, lines


def commit(store: Store, lines: List[Tuple[int, bytes]], number: int) -> None:
    """Carries out lines, each of a batch, and makes them durable as of the last one. A stamp has a place of its own, as
    there may be as many lines as a batch can have."""
    sent = [[line for _, line in lines], stamp_of(number)]
    *carried, stamp = answered(store.program, sent if lines else sent[1:]).verdicts
    if stamp is None or None in carried:
        raise Fatal("the program ended")
    for answers in carried:
        place = refused_place(answers)
        if place is not None and place < len(lines):
            at, line = lines[place]
            raise Impossible(f"batch {at}: {line.decode()}: {answers[place].decode()}")
    faults = [it for answers in (*carried, stamp) for it in answers if it.startswith(b"error ")]
    if faults:
        raise Fatal(f"it could not be committed: {faults[-1].decode()}")
