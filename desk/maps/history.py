"""Who changed which field of a feature, when, and from what to what, as the journal of a service tells it: the records
of the feature and of its layer are followed, and what is unknown of them is read in the store if that still has it.
What was changed while no service ran is in no journal, and is told with the next change."""
import contextlib
import itertools
from typing import Any, Callable, Dict, Iterable, Iterator, List, NamedTuple, Optional, Tuple

from altctl import Entry
from maps import geometry
from maps.attributes import Fields, object_of
from maps.following import Change, Followed, Key, Unknown, Value
from maps.layer import Layer, free_name, layer_of, layers, to_text
from maps.records import GEOMETRY, IMPORTS, Fault, part_keys, read, value_at

MOST_TOLD = 100
SHOWN = 60  # characters of a value
TRIES = 3  # of reading journal and store at the same batch


class Event(NamedTuple):
    """What a batch has changed of a feature in an alternative: `text` tells how, and `changes` each field."""

    batch: int
    time: str
    planner: str
    text: str
    changes: List[str]


def history(store, feature: Key, entries: Optional[Callable[[Key], Iterable[Entry]]] = None) -> List[Event]:
    """The batches that have changed a feature, the latest first. `entries` gives the lines of a journal that may have
    changed a record; without it the store is one of a service, which is asked for them."""
    if entries:
        return list(itertools.islice(History(store, feature, entries).events(), MOST_TOLD))
    of_service = lambda key: list(store.log(record=f"{key[0]}:{key[1]}"))
    for tries in range(TRIES, 0, -1):
        batch, found = store.batches(), History(store, feature, of_service)
        if store.batches() == batch or tries == 1:
            break
    return list(itertools.islice(found.events(), MOST_TOLD))


class History:
    """The records of a feature and of its layer, followed."""

    def __init__(self, store, feature: Key, entries: Callable[[Key], Iterable[Entry]]):
        self._store, (self._table, number) = store, feature
        parents = {it.name: it.parent for it in store.alternatives()}
        self._versions = [*parents, *(f"{it}@" for it, parent in parents.items() if parent)]
        keys = feature, (self._table + GEOMETRY, number), (0, self._table)
        self._attributes, self._course, self._layer = (Followed(it, parents) for it in keys)
        self._known: Dict[Unknown, Optional[bytes]] = {}
        for followed in (self._attributes, self._course, self._layer):
            for it in entries(followed.key):
                followed.take(it)
            there = {unknown: at for unknown, at in followed.unknown() if at in self._versions}
            self._known.update((unknown, store.get(at, *followed.key)) for unknown, at in there.items())
        present = [layers(store, it).get(self._table) for it in parents]
        self._present: List[Layer] = [it for it in present if it]

    def events(self) -> Iterator[Event]:
        """The batches, the latest first. What programs do in alternatives of their own is left out."""
        places: Dict[Tuple[int, str], int] = {}
        for its in (self._attributes.changes, self._course.changes):
            for key, change in its.items():
                places[key] = max(places.get(key, 0), change.place)
        due = sorted((it for it in places if not it[1].startswith(".")), key=lambda it: (it[0], places[it]))
        for batch, alt in reversed(due):
            found = [its.changes.get((batch, alt)) for its in (self._attributes, self._course)]
            event = self._event(alt, *(it and self._resolved(it) for it in found))
            if event:
                yield event

    def _resolved(self, change: Change) -> Optional[Change]:
        """The change with what the store still has of it. None if nothing tells whether a merge or post was one."""
        before, after = (self._known.get(it, it) if isinstance(it, Unknown) else it for it in change[2:])
        found = change._replace(before=before, after=after)
        is_open = change.is_unknown() and (isinstance(before, Unknown) or isinstance(after, Unknown))
        return None if is_open and not change.entry.line.startswith("back ") else found

    def _event(self, alt: str, attributes: Optional[Change], course: Optional[Change]) -> Optional[Event]:
        due = [it for it in (attributes, course) if it and it.before != it.after]
        is_gone = bool(attributes) and all(it.after is None for it in due)
        changes = ["removed"] if due and is_gone else []
        if not is_gone:
            for it in due:
                changes += self._fields(alt, it) if it is attributes else self._shape(it)
        if any(isinstance(it.before, Unknown) and not isinstance(it.after, Unknown) for it in due) and not is_gone:
            changes.append("what it was before is not known")
        if not changes:
            return None
        entry = next((it for it in due if not it.is_by_hand()), due[0]).entry
        return Event(entry.batch, entry.time, entry.planner, text_of(entry.line, alt, is_gone), changes)

    # --- words ----------------------------------------------------------------------------------

    def _fields(self, alt: str, change: Change) -> List[str]:
        """The fields that differ, each with both values."""
        if isinstance(change.after, Unknown):
            return ["its attributes may have changed"]
        names = self._names(alt, change.entry.batch)
        try:
            before, after = (self._named(it, names) for it in change[2:])
        except Fault:
            return ["its attributes have changed, and cannot be read"]
        if before is None:
            return [f"{name}: {shown(value)}" for name, value in after.items()]
        texts = ((it, shown(before.get(it)), shown(after.get(it))) for it in dict.fromkeys([*before, *after]))
        return [f"{name}: {old} to {new}" for name, old, new in texts if old != new]

    def _named(self, value: Value, names: List[Fields]) -> Optional[Dict[str, Any]]:
        """The attributes that a value has, by the names of fields, None if it is unknown."""
        if isinstance(value, Unknown):
            return None
        found = object_of(b"{}" if value is None else self._whole(self._attributes.key, value))
        return {name_of(key, names): it for key, it in found.items() if it is not None}

    def _names(self, alt: str, batch: int) -> List[Fields]:
        """What knows the names of fields: the layer as it was then, and the layers of now."""
        then = self._layer.value(alt, batch)
        then = self._known.get(then) if isinstance(then, Unknown) else then
        found = list(self._present)
        with contextlib.suppress(Fault):
            found[:0] = [layer_of(self._table, self._whole(self._layer.key, then))] if then else []
        return [Fields(it) for it in found]

    def _shape(self, change: Change) -> List[str]:
        """How the geometry differs."""
        name = free_name("geometry", self._present[0]["fields"] if self._present else [])
        if isinstance(change.after, Unknown):
            return [f"{name} may have changed"]
        before, after = (it if isinstance(it, Unknown) else self._vertices(it) for it in change[2:])
        if isinstance(before, Unknown):
            return [f"{name}: {about(after)}"]
        if not before or not after or before[0] != after[0] or len(before[1]) != len(after[1]):
            return [f"{name}: {about(before)} to {about(after)}"]
        moved, count = sum(map(tuple.__ne__, before[1], after[1])), len(after[1])
        return [f"{name}: moved, {vertices(count) if moved == count else f'{moved} of {vertices(count)}'}"]

    def _vertices(self, value: Optional[bytes]) -> Optional[Tuple[str, List[tuple]]]:
        """The kind of a geometry and its vertices, None if there is none that can be read."""
        try:
            return value and geometry.vertices_of(self._whole(self._course.key, value))
        except (Fault, geometry.Bad):
            return None

    def _whole(self, key: Key, value: bytes) -> bytes:
        """A value as a whole. The parts of a longer one may still be in any version."""
        parts = part_keys(key[0], value)
        for at in self._versions if parts else ():
            with contextlib.suppress(Fault):
                return value_at({**read(self._store, at, parts), key: value}, *key)
        return value_at({key: value}, *key)


def text_of(line: str, alt: str, is_gone: bool) -> str:
    """How a line has changed a feature."""
    verb, its, *_ = line.split()
    if its.startswith(IMPORTS):
        return f"import into {alt}"
    if verb == "remove" and is_gone:
        return f"removed from {alt}"
    return f"edited {alt}" if verb in ("put", "remove") else f"{verb} {its}"


def name_of(key: str, names: List[Fields]) -> str:
    """The name of the field that a key stands for."""
    for it in names:
        if it.name(key) in it.by_name:
            return it.name(key)
    return f"field {key}" if key.isdecimal() else key


def shown(value: Any) -> str:
    if value is None:
        return "none"
    text = to_text(value)
    return text if len(text) <= SHOWN else f"{text[:SHOWN]}..."


def vertices(count: int) -> str:
    return "1 vertex" if count == 1 else f"{count} vertices"


def about(found: Optional[Tuple[str, List[tuple]]]) -> str:
    """A geometry in words."""
    return f"{found[0]} of {vertices(len(found[1]))}" if found else "none"
