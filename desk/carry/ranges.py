"""Numbers for new features, taken at HEAD in ranges for a clone: an office gives its features numbers that nobody
else gives.

| Record of `.numbers`, an alternative under `top` | Value |
|---|---|
| (64000, V) | JSON: of each table the first number that nobody was given. A batch removes V and puts V + 1 |
| (64001, 0), in a clone | JSON: of each table the number at which the clone's range ends |

HEAD gives a range before the clone notes it. If that is interrupted, these numbers are skipped, and are nobody's."""
import json
from typing import Dict, List, NamedTuple, Optional, Tuple

from altctl import Refusal
from carry.batch import Batch
from carry.links import Fault, Link
from carry.pair import told

OWN, NEXT, ENDS = ".numbers", 64000, 64001
RANGE, GEOMETRY = 1000, 100
LAST = 2**63 - 1
TRIES, PARTS = 20, 16
NO_ALTERNATIVE, NO_SUCH_RECORD = 1, 5


class State(NamedTuple):
    """The number of the record, None if there is no alternative for it, and what the records say."""

    version: Optional[int]
    firsts: Dict[str, int]
    ends: Dict[str, int]


def state(link: Link) -> State:
    found, ends = link.store.answers_of([("list", OWN, NEXT), ("list", OWN, ENDS)])
    if isinstance(found, Refusal):
        if found.number != NO_ALTERNATIVE:
            raise found
        return State(None, {}, {})
    try:
        values = [
            json.loads(link.store.get(OWN, int(rows[0][0]), int(rows[0][1]))) if rows else {} for rows in (found, ends)
        ]
        return State(
            int(found[0][1]) if found else 0, *({it: int(number) for it, number in values.items()} for values in values)
        )
    except (AttributeError, TypeError, ValueError):
        raise Fault(f"{OWN} has a record that is none of numbers") from None


def write(link: Link, old: State, firsts: Dict[str, int], ends: Dict[str, int]) -> None:
    batch = Batch()
    if old.version is None:
        batch.add("new", OWN, "top")
    elif old.version:
        batch.add("remove", OWN, NEXT, old.version)
    batch.add("put", OWN, NEXT, (old.version or 0) + 1, json.dumps(firsts, sort_keys=True).encode())
    if ends:
        batch.add("put", OWN, ENDS, 0, json.dumps(ends, sort_keys=True).encode())
    batch.carry_out(link)


def take(clone: Link, head: Link, table: int, count: int) -> Tuple[int, int]:
    """Sees that the clone has at least so many numbers of a table to give. Returns the first one, and that after the
    last."""
    here, name = state(clone), str(table)
    if here.ends.get(name, 0) - here.firsts.get(name, 0) >= count:
        return here.firsts[name], here.ends[name]
    count = -(-count // RANGE) * RANGE
    first = take_there(head, name, count)
    write(clone, here, {**here.firsts, name: first}, {**here.ends, name: first + count})
    return first, first + count


def take_there(head: Link, table: str, count: int) -> int:
    for _ in range(TRIES):
        there = state(head)
        first = there.firsts.get(table) or free_number(head, int(table))
        if table in there.ends:
            if first + count > there.ends[table]:
                raise Fault(
                    f"HEAD is a clone itself, and its own range of table {table} is used up: take one there first"
                )
        if first + count > LAST:
            raise Fault(f"table {table} has no numbers left")
        try:
            write(head, there, {**there.firsts, table: first + count}, {})
            return first
        except Refusal as refusal:
            if refusal.number not in (2, NO_SUCH_RECORD):
                raise Fault(told(refusal, "HEAD")) from refusal
    raise Fault(f"others take numbers of table {table} all the time: try again")


def free_number(link: Link, table: int) -> int:
    """The first number above those of the table's features in all alternatives: each round of questions leaves a
    sixteenth."""
    [rows] = link.store.answers_of([("alts",)])
    places = [(alt, it) for alt, _ in rows if alt != OWN for it in (table, table + GEOMETRY)]
    low, high = 0, LAST
    while low < high:
        step = max(1, (high - low) // PARTS)
        marks = list(range(low + 1, high + 1, step))
        taken = [it for it in marks if it <= high]
        answers = link.store.answers_of([("next", alt, its, number, 1) for number in taken for alt, its in places])
        found = [
            int(rows[0][1]) if rows and int(rows[0][0]) == its else -1
            for rows, (_, its) in zip(answers, places * len(taken))
        ]
        highest = reached(taken, found, len(places))
        if highest is None:
            high = low
        else:
            low, high = highest[0], min(high, highest[1] - 1 if highest[1] else high)
    return low + 1


def reached(marks: List[int], found: List[int], each: int) -> Optional[Tuple[int, Optional[int]]]:
    """The highest number that was found, and the first mark at or above which there is none."""
    best, end = None, None
    for at, number in enumerate(marks):
        here = max(found[at * each : (at + 1) * each])
        if here < 0:
            end = number
            break
        best = max(best or 0, here)
    return None if best is None else (best, end)


def asked(text: str) -> Tuple[int, int]:
    """`TABLE` or `TABLE:COUNT`."""
    table, _, count = text.partition(":")
    made = int(table), int(count or RANGE)
    if not (1 <= made[0] < GEOMETRY and 1 <= made[1] <= 10**9):
        raise ValueError
    return made
