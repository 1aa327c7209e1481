"""A record, followed through the lines of a service's journal: what it was in each alternative, and which lines have
changed it.

The journal has each `put` and `remove` of a record, but not what a merge or a post has changed, so the record is
followed through all alternatives. What it was before the journal began is *unknown*, for each alternative by itself. A
merge or a post from one unknown value to another may have changed nothing."""
from collections import defaultdict
from typing import Dict, Iterator, List, NamedTuple, Optional, Tuple, Union

from altctl import Entry, decode

Key = Tuple[int, int]


class Unknown:
    """A value that no line of the journal tells. Each is another one."""


Value = Union[bytes, None, Unknown]


class Change(NamedTuple):
    """What a batch has made of a record in an alternative: the line that did it, at which place of the batch, and the
    values before and after."""

    entry: Entry
    place: int
    before: Value
    after: Value

    def is_by_hand(self) -> bool:
        return self.entry.line.startswith(("put ", "remove "))

    def is_unknown(self) -> bool:
        return isinstance(self.before, Unknown) and isinstance(self.after, Unknown)


def differ(one: Value, other: Value) -> Optional[bool]:
    """Whether two values differ, None if nothing tells it. What a line has put is taken to differ from what is
    unknown."""
    if isinstance(one, Unknown) and isinstance(other, Unknown):
        return None if one is not other else False
    return isinstance(one, Unknown) or isinstance(other, Unknown) or one != other


class Followed:
    """A record in all alternatives, line by line. `changes` has what each batch has changed in an alternative."""

    def __init__(self, key: Key, parents: Dict[str, Optional[str]]):
        self.key, self._parents = key, dict(parents)
        self.changes: Dict[Tuple[int, str], Change] = {}
        self._states: Dict[str, List[Tuple[int, Value]]] = defaultdict(lambda: [(0, Unknown())])
        self._bases: Dict[str, Value] = defaultdict(Unknown)
        self._batch, self._place = 0, 0

    def value(self, alt: str, batch: Optional[int] = None) -> Value:
        """What the alternative has behind that batch, or behind the last one."""
        return next(value for number, value in reversed(self._states[alt]) if batch is None or number <= batch)

    def unknown(self) -> Iterator[Tuple[Unknown, str]]:
        """What is unknown, each with the version of the store that has it now."""
        for alt in list(self._parents):
            for value, at in ((self.value(alt), alt), (self._bases[alt], f"{alt}@")):
                if isinstance(value, Unknown):
                    yield value, at

    def take(self, entry: Entry) -> None:
        self._place = self._place + 1 if self._batch == entry.batch else 0
        self._batch = entry.batch
        verb, alt, *words = entry.line.split()
        if verb in ("put", "remove"):
            self._change(entry, alt, decode(words[2]) if verb == "put" else None)
        elif verb == "back":
            self._change(entry, alt, Unknown())
        elif verb == "new":
            self._parents[alt] = words[0]
            self._bases[alt] = self.value(words[0]) if len(words) == 1 else Unknown()
            self._set(alt, self._bases[alt])
        elif verb == "drop":
            self._parents.pop(alt, None)
            self._bases.pop(alt, None)
            self._set(alt, Unknown())
        elif verb == "merge" and self._parents.get(alt):
            self._merge(entry, alt, self._parents[alt], dict(it.split("=") for it in words))
        elif verb == "post" and self._parents.get(alt):
            self._post(entry, alt, self._parents[alt])

    def _set(self, alt: str, value: Value) -> None:
        self._states[alt].append((self._batch, value))

    def _change(self, entry: Entry, alt: str, after: Value) -> None:
        there = self.changes.get((entry.batch, alt))
        before = there.before if there else self.value(alt)
        found = Change(entry, self._place, before, after)
        if there and found.is_by_hand() and not there.is_by_hand():
            found = there._replace(after=after)  # A merge that puts joined values is a merge.
        self.changes[entry.batch, alt] = found
        self._set(alt, after)

    def _merge(self, entry: Entry, alt: str, parent: str, sides: Dict[str, str]) -> None:
        theirs, mine, base = self.value(parent), self.value(alt), self._bases[alt]
        is_theirs, is_own = differ(theirs, base), differ(mine, base)
        self._bases[alt] = theirs
        side = sides.get(f"{self.key[0]}:{self.key[1]}")
        if side is None and is_theirs and is_own and differ(mine, theirs):
            # Without a side there was no conflict, so what is unknown is the same as the base.
            side = sides.get("all") or ("theirs" if isinstance(mine, Unknown) else "mine")
        if side == "mine":
            self._change(entry, alt, mine)  # What its batch puts behind that is of the merge.
        elif is_theirs is False or differ(mine, theirs) is False:
            pass
        elif side == "theirs" or is_theirs or is_own is False:
            self._change(entry, alt, theirs)
        elif is_own is None:
            self._set(alt, Unknown())

    def _post(self, entry: Entry, alt: str, parent: str) -> None:
        self._bases[alt] = self.value(alt)
        if differ(self.value(alt), self.value(parent)) is not False:
            self._change(entry, parent, self.value(alt))
