"""Numbers for new features, so that two designs never give the same one.

The alternative `.numbers` under `top` has one record, (64000, V): JSON of each table with the first number that nobody
has been given. Whoever needs numbers takes them a thousand at a time, in a batch that removes record V and puts V + 1:
if another planner was faster, record V is gone, the batch is refused as a whole, and it is tried again.

A clone of a store gives only numbers that its HEAD has given it (`altcarry clone --numbers`): there record (64001, 0)
has JSON of each of these tables with the number at which its range ends."""
import contextlib
import json
from typing import Dict, Optional, Tuple

from altctl import Refusal
from maps.layer import layer_at, next_number
from maps.records import GEOMETRY, Fault

OWN, STATE, ENDS = ".numbers", 64000, 64001
RANGE = 1000
LAST = 2**63 - 1
TRIES = 100
NO_ALTERNATIVE, IS_THERE, NO_SUCH_RECORD = 1, 2, 5


def take(store, table: int, count: int, is_service: bool) -> range:
    """Takes at least so many numbers of a table, for good: nobody else is given them. They are whole thousands, but in
    the range of a clone just as many as asked for. On a store without a service this is a commit, so it comes before
    other changes."""
    for _ in range(TRIES):
        version, firsts = state(store)
        ends = ranges_end(store)
        first = firsts.get(table) or free_number(store, table)
        unit = 1 if table in ends else RANGE
        taken = -(-count // unit) * unit
        if first + taken > ends.get(table, LAST + 1):
            raise Fault(too_few(table, first, table in ends))
        if write(store, version, {**firsts, table: first + taken}, is_service):
            return range(first, first + taken)
    raise Fault(f"others take numbers of table {table} all the time")


def too_few(table: int, first: int, is_clone: bool) -> str:
    if is_clone:
        return f"this clone has not so many numbers of table {table} left: altcarry pull --numbers {table} takes more"
    return f"table {table} has no free numbers left: its features have numbers up to {first - 1}"


def renew(store, is_service: bool) -> None:
    """Makes `.numbers` anew of what `top` is now: until then it holds the version of `top` that it was made of."""
    version, firsts = state(store)
    if not version:
        return
    ends = ranges_end(store)
    try:
        with store.batch() if is_service else contextlib.nullcontext():
            store.remove(OWN, STATE, version)
            store.drop(OWN)
            store.new(OWN, "top")
            store.put(OWN, STATE, version + 1, text_of(firsts))
            if ends:
                store.put(OWN, ENDS, 0, text_of(ends))
        if not is_service:
            store.commit()
    except Refusal:  # This planner may not do that, or another one was faster: it can stay as it is.
        if not is_service:
            store.rollback()


def pass_over(store, table: int, number: int, is_service: bool) -> None:
    """Lets no number up to this one be given, if numbers of this table were ever taken."""
    for _ in range(TRIES):
        version, firsts = state(store)
        if firsts.get(table, LAST + 1) > number or write(store, version, {**firsts, table: number + 1}, is_service):
            return


def state(store) -> Tuple[Optional[int], Dict[int, int]]:
    """The number of the record, 0 if there is none and None if there is no alternative for it, and what the record
    says."""
    found = own_records(store, STATE)
    if found is None:
        return None, {}
    return (found[0].number, numbers_in(found[0])) if found else (0, {})


def ranges_end(store) -> Dict[int, int]:
    """In a clone, the number at which the range of a table ends that its HEAD has given it."""
    found = own_records(store, ENDS)
    return numbers_in(found[0]) if found else {}


def own_records(store, table: int) -> Optional[list]:
    """The records of one of these tables, None if there is no alternative for it."""
    try:
        return list(store.list(OWN, table))
    except Refusal as refusal:
        if refusal.number != NO_ALTERNATIVE:
            raise
        return None


def numbers_in(row) -> Dict[int, int]:
    """The number of each table that a record has."""
    try:
        return {int(it): int(number) for it, number in json.loads(row.value).items()}
    except (AttributeError, TypeError, ValueError):
        raise Fault(f"{OWN} has a record {row.table} that is none of numbers") from None


def write(store, version: Optional[int], firsts: Dict[int, int], is_service: bool) -> bool:
    """Makes this the record in place of that version. False if another planner was faster."""
    try:
        with store.batch() if is_service else contextlib.nullcontext():
            if version is None:
                store.new(OWN, "top")
            elif version:
                store.remove(OWN, STATE, version)
            store.put(OWN, STATE, (version or 0) + 1, text_of(firsts))
    except Refusal as refusal:
        if refusal.number in (IS_THERE, NO_SUCH_RECORD) and is_service:
            return False
        raise
    if not is_service:
        store.commit()
    return True


def text_of(firsts: Dict[int, int]) -> bytes:
    return json.dumps({str(it): firsts[it] for it in sorted(firsts)}).encode()


def free_number(store, table: int) -> int:
    """The first number above those of a table's features in all alternatives."""
    alts = [it.name for it in store.alternatives() if it.name != OWN]
    return 1 + max(last_number(store, alt, it) for alt in alts for it in (table, table + GEOMETRY))


def last_number(store, at: str, table: int) -> int:
    """The highest number of a table's features, 0 if there is none."""
    low, high = 0, LAST  # The highest one is at or above `low`, if there is any, and at or below `high`.
    while low < high:
        middle = (low + high + 1) // 2
        if any(it.table == table and it.number <= LAST for it in store.next(at, table, middle, 1)):
            low = middle
        else:
            high = middle - 1
    return low


def first_of_fields(store, table: int) -> int:
    """The first number for a field that no alternative has had in this table."""
    found = (layer_at(store, it.name, table) for it in store.alternatives())
    return max([1, *(next_number(it) for it in found if it)])
