"""What differs between versions of a store, as dicts from key to the values before and after; None stands for no
value."""
from typing import Dict, Iterable, List, Optional, Sequence, Tuple

from altctl import Refusal, Store, decode
from carry.batch import Key

Value = Optional[bytes]
Differences = Dict[Key, Tuple[Value, Value]]


def differences(store: Store, pairs: Sequence[Tuple[str, str]], tables: Iterable[int]) -> List[Differences]:
    """What differs from the first version of each pair to the second, in these tables, or in all if there are none.
    All are asked for at once."""
    parts = [(it,) for it in tables] or [()]
    answers = iter(store.answers_of([("diff", *pair, *part) for pair in pairs for part in parts]))
    found = []
    for _ in pairs:
        rows = {}
        for _ in parts:
            answer = next(answers)
            if isinstance(answer, Refusal):
                raise answer
            rows.update({(int(it[0]), int(it[1])): (decode(it[2]), decode(it[3])) for it in answer})
        found.append(rows)
    return found


def values(store: Store, at: str, keys: Iterable[Key]) -> Dict[Key, Value]:
    keys = sorted(keys)
    return dict(zip(keys, store.get_many(at, keys)))


def between(first: Differences, second: Differences) -> Differences:
    """What differs from one version to another, if each is given by what differs from a third one to it."""
    found = {}
    for key in first.keys() | second.keys():
        third = (first.get(key) or second[key])[0]
        sides = tuple(it[key][1] if key in it else third for it in (first, second))
        if sides[0] != sides[1]:
            found[key] = sides
    return found


def after(rows: Differences) -> Dict[Key, Value]:
    return {key: sides[1] for key, sides in rows.items()}


def clashes(mine: Differences, theirs: Differences) -> List[Key]:
    """The keys that two sides changed to different values."""
    return sorted(key for key in mine.keys() & theirs.keys() if mine[key][1] != theirs[key][1])


class Rebase:
    """How a design gets another base. `base_rows` has what differs from its old base to the new one, `rows` what
    differs from its present records to those that it ends with, and `now` the present value at each key of `base_rows`.
    The merge that brings the new base in has the settlements `settled`, all for the design's own side; after it, `rest`
    makes the records what the design ends with."""

    def __init__(self, base_rows: Differences, rows: Differences, now: Dict[Key, Value]):
        self.settled, self.rest = {}, {}
        for key in base_rows.keys() | rows.keys():
            present = rows[key][0] if key in rows else now[key]
            due = rows[key][1] if key in rows else present
            merged = present
            if key in base_rows:
                old, new = base_rows[key]
                if present == old:
                    merged = new
                elif present != new:
                    self.settled[key] = "mine"
            if merged != due:
                self.rest[key] = due
