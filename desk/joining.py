"""Conflicts as people settle them. A *clash* is what a design and its parent have both changed differently: a field of
a feature, its course, or all of it. Each takes a choice of its own; what one side alone has changed is joined.
maps/merging.py has how."""
import hashlib
from typing import Dict, List, NamedTuple, Optional, Tuple

from maps import Fault, numbers
from maps.merging import SIDES, Choices, Clash, Merging, Plan
from maps.merging import merge as make_merge

MOST_JOINED = 5000  # conflicts; of more, each record is settled as a whole
REST = "rest"  # The key of the choice for all clashes that have none of their own.
Feature = Tuple[int, int]


class Clashes:
    """The clashes of a design. `features` has those of each feature, or record that is of none, and `by_key` each by
    what it is called, `7:1.dn` or `7:1`. The mark of a clash is another one where a value of it is, so a choice is
    known to be for it. """

    def __init__(self, clashes: List[Clash], is_by_field: bool):
        self.is_by_field, self.features = is_by_field, {}
        self.by_key = {str(it): it for it in clashes}
        for it in sorted(clashes, key=lambda it: it[:2]):
            self.features.setdefault(it[:2], []).append(it)
        self.marks = {key: mark_of(repr(it)) for key, it in self.by_key.items()}
        self.marks[REST] = mark_of(repr(sorted(self.marks.items())))


class Choice(NamedTuple):
    side: str
    mark: str


def mark_of(text: str) -> str:
    return hashlib.sha256(text.encode("utf-8", "backslashreplace")).hexdigest()[:16]


def clashes_of(store, alt: str, conflicts: Dict[Feature, tuple]) -> Clashes:
    """What needs a choice of these conflicts of records."""
    if len(conflicts) > MOST_JOINED:
        return by_record(conflicts)
    try:
        return Clashes(merging_of(store, alt, {}, None).make().open if conflicts else [], True)
    except Fault:
        return by_record(conflicts)


def by_record(conflicts) -> Clashes:
    return Clashes([Clash(*key, "", it.base, it.parent, it.mine) for key, it in conflicts.items()], False)


def merging_of(store, alt: str, sides: Dict[Tuple[int, int, str], str], rest: Optional[str]) -> Merging:
    return Merging(store, alt, Choices(sides, rest), lambda table, count: numbers.take(store, table, count, True))


def can_be(clash: Clash) -> List[str]:
    """The sides that may be chosen for a clash. Of two features that were added under one number both can be kept."""
    is_number = (
        not clash.field
        and clash.base is None
        and not isinstance(clash.mine, bytes)
        and None not in (clash.parent, clash.mine)
    )
    return [*SIDES, *(["both"] if is_number else [])]


def merge(store, alt: str, clashes: Clashes, choices: Dict[str, str], seen: Dict[str, int]) -> Dict[Feature, int]:
    """Merges by these choices as one batch, which is refused if something seen has changed. Gives the new numbers of
    own features where both are kept."""
    rest = choices.get(REST) if choices.get(REST) in SIDES else None
    sides = {clash[:3]: choices[key] for key, clash in clashes.by_key.items() if choices.get(key) in can_be(clash)}
    if clashes.is_by_field:
        plan = merging_of(store, alt, sides, rest).make()
    else:
        plan = Plan()
        plan.settlements = {it[:2]: sides.get(it[:3], rest) for it in clashes.by_key.values()}
        plan.open = [it for it in clashes.by_key.values() if plan.settlements[it[:2]] is None]
    if plan.open:
        raise Fault(f"{len(plan.open)} conflicts have no choice yet")
    make_merge(store, alt, plan, True, seen)
    return plan.renamed
