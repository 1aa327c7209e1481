"""What is sent of batches that are carried out together, and what came of each of them."""
from typing import List, NamedTuple, Optional, Sequence, Tuple

from service.batch import Batch, refused_place
from service.entries import Effect, Entries
from service.journal import Entry, entry_of
from service.program import Program
from service.recent import LONGEST, puts_of, stamp_of
from service.rules import Rules
from service.stream import Verdict, answered

# A line that is always refused, so what stands before it is only tried.
REFUSED = b"drop top"


class Sent(NamedTuple):
    """A batch on its way to the program: what is sent, what it changes, and which alternatives there are then; the
    number of its record, or 0, and the line that the file gets; and if it is to be refused, how many of its lines are
    tried, and the place and the answer."""

    batch: Batch
    lines: List[bytes]
    effect: Effect
    entries: Entries
    key: int = 0
    entry: Optional[Entry] = None
    due: Optional[Tuple[int, int, bytes]] = None

    def is_first_told(self) -> bool:
        """Whether the file tells it before its commit."""
        return not self.key and self.due is None


def sent_of(batch: Batch, at: str, entries: Entries, rules: Rules, number: int, key: int) -> Sent:
    """What is sent of a batch, which changes these. It may get this number, and its record that one, the least that
    they can have. If the batch is to be refused, it is tried as far as that line."""
    effect = entries.take(batch, rules)
    due = [batch.due] if batch.due is not None else []
    if effect.refused is not None:
        place, answer = effect.refused
        due.append((place + 1, place, answer))
    batch.own = 0
    if due:
        first = min(due, key=lambda it: it[1])
        return Sent(batch, [*batch.lines[: first[0]], REFUSED], effect, entries, due=first)
    if not batch.is_told_first and batch.bytes <= LONGEST:
        entry = entry_of(at, batch, effect.touched)
        line = entry.line(number, effect.records)[:-1]
        if len(line) <= LONGEST:
            puts = puts_of(key, line)
            batch.own = len(puts)
            return Sent(batch, batch.lines + puts, effect, entries, key, entry)
    batch.is_told_first = batch.is_alone = True
    return Sent(batch, batch.lines + stamp_of(number), effect, entries)


class Came(NamedTuple):
    """What came of a group: whether its stamp is committed, the verdict on each batch, by how many commits they came
    into the store, and the rest as in Outcome."""

    is_stamped: bool
    verdicts: List[Verdict]
    commits: int
    room: List[bytes]
    is_sent: bool


def carried_out(program: Program, group: Sequence[Sent], stamps: List[List[bytes]]) -> Came:
    """Has a group carried out, behind a stamp if there is one. Changes of one alternative that follow one another take
    fewer blocks, so all are sent as one batch first. If one is refused, and with it all, each is sent as its own."""
    is_one, commits = len(group) > 1 and not group[0].batch.is_doubtful, 0
    verdicts, room, is_sent = answered(program, [*stamps, *([one_of(group)] if is_one else [it.lines for it in group])])
    is_stamped = bool(stamps) and is_made(verdicts[0])
    if is_one:
        parts = parts_of_one(group, verdicts[-1])
        if parts is None and room:
            if is_stamped:
                stamps, commits = [], 1
            verdicts, room, is_sent = answered(program, [*stamps, *(it.lines for it in group)])
            is_stamped = is_stamped or bool(stamps) and is_made(verdicts[0])
        else:
            verdicts = [*verdicts[:-1], *(parts or [None] * len(group))]
    made = [is_made(it) for it in verdicts]
    # Those between two that are refused share a commit.
    commits += sum([now > before for before, now in zip([False, *made], made)])
    return Came(is_stamped, verdicts[len(stamps) :], commits, room, is_sent)


def is_made(verdict: Verdict) -> bool:
    return verdict is not None and refused_place(verdict) is None


def one_of(group: Sequence[Sent]) -> List[bytes]:
    """The lines of a group as those of one batch: first those of planners, then the records."""
    lines = [line for it in group for line in it.batch.lines]
    return lines + [line for it in group for line in it.lines[len(it.batch.lines) :]]


def parts_of_one(group: Sequence[Sent], answers: Verdict) -> Optional[List[Verdict]]:
    """The verdict on each of a group that was sent as one batch; None if that was refused or has none."""
    place = None if answers is None else refused_place(answers)
    if answers is None or place is not None and place < len(answers) - 1:
        return None
    parts: List[Verdict] = []
    at = 0
    for it in group:
        count = len(it.batch.lines)
        ok = answers[at : at + count] if place is None else [b"ok"] * count
        parts.append([*ok, *[b"ok"] * (len(it.lines) - count), answers[-1]])
        at += count
    return parts
