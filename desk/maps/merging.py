"""Merges of a design with its parent, field by field. A field that one side alone has changed is taken from that side;
a field that both have changed to different values is a *clash*, for a person to choose. Geometry is a field of its own.

What is chosen for a feature is for all of its clashes, unless a field has a choice of its own. A feature that one side
removed and the other one changed, or that both added under one number, is a clash as a whole. The store knows records
alone: a joined value is put in the same batch as the merge, which settles its record as `mine`."""
import contextlib
from typing import Any, Callable, Dict, List, NamedTuple, Optional, Tuple

from maps.attributes import Fields, object_of
from maps.layer import Layer, free_name, layers, numbered, to_text
from maps.merged_layer import MergedLayer, three_way
from maps.records import GEOMETRY, Fault, read, read_features, records_of, value_at

PORTION = 1000
MOST_SETTLEMENTS = 30000  # Of 32 bytes at most: a line has 1,048,576.
SIDES = "mine", "theirs"
Key = Tuple[int, int]


class Clash(NamedTuple):
    """What both sides have changed differently: a field of a feature, or all of it (`field` is empty)."""

    table: int
    number: int
    field: str
    base: Any
    parent: Any
    mine: Any

    def __str__(self):
        return f"{self.table}:{self.number}" + (f".{self.field}" if self.field else "")


class Feature(NamedTuple):
    """A feature as a version has it: its attributes by the names of the merged layer, and its geometry. Both None:
    there is none."""

    attributes: Optional[Dict[str, Any]]
    geometry: Optional[bytes]

    def is_there(self) -> bool:
        return self.attributes is not None or self.geometry is not None


class Choices:
    """What people have chosen: `mine`, `theirs` or `both` for a feature, another side for one of its fields, or one for
    all."""

    def __init__(self, of: Optional[Dict[Tuple[int, int, str], str]] = None, rest: Optional[str] = None):
        self._of, self.rest = of or {}, rest

    def given(self) -> List[Tuple[int, int, str]]:
        """What has a choice of its own."""
        return sorted(self._of)

    def side(self, table: int, number: int, field: str = "") -> Optional[str]:
        return self._of.get((table, number, field)) or self._of.get((table, number, "")) or self.rest


class Plan:
    """What a merge does: the side of each conflict, what it puts and removes behind that, and the clashes: those that
    nobody has chosen a side for are `open`, and the merge is not to be made while there are any."""

    def __init__(self):
        self.settlements: Dict[Key, str] = {}
        self.put: Dict[Key, bytes] = {}
        self.remove: List[Key] = []
        self.clashes: List[Clash] = []
        self.open: List[Clash] = []
        self.renamed: Dict[Key, int] = {}  # The new numbers of own features of which both are kept.


class Merging:
    """Makes the plan of a merge. `take` is given a table and a count, and gives that many new numbers."""

    def __init__(self, store, alt: str, choices: Choices, take: Callable[[int, int], range]):
        self._store, self._choices, self._take = store, choices, take
        parent = next((it.parent for it in store.alternatives() if it.name == alt), None)
        self._versions = {"base": f"{alt}@", "parent": parent, "mine": alt}
        self.alt, self.plan = alt, Plan()
        self.conflicts = {(it.table, it.number): it for it in store.conflicts(alt)}
        self._stored = {side: layers(store, at) for side, at in self._versions.items()}
        self.layers: Dict[int, Layer] = {}
        self._renumbered: Dict[int, Dict[str, str]] = {}
        self._both: List[Tuple[int, int, Feature]] = []

    def make(self) -> Plan:
        for table in sorted({it for side in self._stored.values() for it in side}):
            self._merge_layer(table)
        features = sorted({it for it in map(self.feature_of, self.conflicts) if it})
        for table in sorted({it for it, _ in features}):
            numbers = [number for it, number in features if it == table]
            for at in range(0, len(numbers), PORTION):
                self._merge_features(table, numbers[at : at + PORTION])
        for key in sorted(self.conflicts):
            if key not in self.plan.settlements:
                self._merge_record(key)
        if not self.plan.open:
            self._keep_both()
            self._translate()
        return self.plan

    def feature_of(self, key: Key) -> Optional[Key]:
        """The feature that a record is of, or None."""
        table, number = key
        table -= GEOMETRY if table - GEOMETRY in self.layers else 0
        return (table, number) if table in self.layers else None

    # --- layers ----------------------------------------------------------------------------------

    def _merge_layer(self, table: int) -> None:
        base, parent, mine = (self._stored[side].get(table) for side in self._versions)
        key = 0, table
        if key not in self.conflicts:
            left, _ = three_way(base, parent, mine)
            if left is not None:
                self.layers[table] = left
        elif parent is None or mine is None:
            self.layers[table] = parent or mine  # It is settled as a record.
        else:
            choose = lambda what, *values: self._side(Clash(0, table, what, *values))
            merged = MergedLayer(base, parent, mine, choose)
            self.layers[table], self._renumbered[table] = merged.layer, merged.renumbered
            value = to_text(merged.layer).encode()
            self._leave(0, table, value)

    def _fields(self, table: int, side: str) -> Callable[[bytes], Dict[str, Any]]:
        """What reads a side's values of a table, by the names of the merged layer."""
        own = self._stored[side].get(table) or self.layers[table]
        numbers = {it["name"]: str(it["number"]) for it in numbered(own)["fields"]}
        renumbered = self._renumbered.get(table, {}) if side == "mine" else {}
        names = Fields(numbered(self.layers[table]))

        def read_value(value: bytes) -> Dict[str, Any]:
            found = {}
            for key, it in object_of(value).items():
                number = numbers.get(key, key)
                if it is not None:
                    found[names.name(renumbered.get(number, number))] = it
            return found

        return read_value

    # --- features --------------------------------------------------------------------------------

    def _merge_features(self, table: int, numbers: List[int]) -> None:
        sides = []
        for side, at in self._versions.items():
            records = read_features(self._store, at, table, numbers)
            sides.append((self._features(table, numbers, records, self._fields(table, side)), records))
        for number in numbers:
            found = [its[number] for its, _ in sides]
            if not any(
                isinstance(it, Fault) for it in found
            ):  # What cannot be read is settled as the records that it is.
                left = self._merge_feature(table, number, *found)
                self._leave_feature(table, number, left, [records for _, records in sides])

    def _features(self, table: int, numbers: List[int], records, read_value):
        found = {}
        for number in numbers:
            try:
                attributes, course = (value_at(records, it, number) for it in (table, table + GEOMETRY))
                found[number] = Feature(None if attributes is None else read_value(attributes), course)
            except Fault as fault:
                found[number] = fault
        return found

    def _merge_feature(self, table: int, number: int, base: Feature, parent: Feature, mine: Feature) -> Feature:
        """The feature that is left."""
        if base.is_there() and parent.is_there() and mine.is_there():
            return self._by_field(table, number, base, parent, mine)
        side = self._side(Clash(table, number, "", *(it if it.is_there() else None for it in (base, parent, mine))))
        if side == "both":
            self._both.append((table, number, mine))
        return parent if side in ("theirs", "both") else mine

    def _by_field(self, table: int, number: int, base: Feature, parent: Feature, mine: Feature) -> Feature:
        versions = [it.attributes or {} for it in (base, parent, mine)]
        names = dict.fromkeys(name for its in versions[1:] for name in its)
        left = {name: self._field(table, number, name, *(it.get(name) for it in versions)) for name in names}
        shape = self.geometry_name(table)
        course = self._field(table, number, shape, base.geometry, parent.geometry, mine.geometry)
        return Feature(None if parent.attributes is mine.attributes is None else left, course)

    def _leave_feature(self, table: int, number: int, left: Feature, sides) -> None:
        """Sees to it that the merge leaves this feature. `sides` has the records of base, parent and mine."""
        fields, packed = Fields(self.layers[table]), None
        if left.attributes is not None:
            packed = fields.packed(left.attributes)
            there = [value_at(it, table, number) for it in sides[1:] if (table, number) in it]
            packed = next((it for it in there if fields.is_same(it, packed)), packed)
        for its, value in ((table, packed), (table + GEOMETRY, left.geometry)):
            self._leave(its, number, value, [it.get((its, number)) for it in sides])

    def _field(self, table: int, number: int, name: str, *values):
        value, is_clash = three_way(*map(Exact, values))
        if is_clash and self._side(Clash(table, number, name, *values)) == "theirs":
            return values[1]
        return value.value

    def geometry_name(self, table: int) -> str:
        """By which name the geometry of a layer is spoken of."""
        return free_name("geometry", self.layers[table]["fields"])

    def _side(self, clash: Clash) -> Optional[str]:
        """The side that is chosen for a clash, which is noted."""
        side = self._choices.side(clash.table, clash.number, clash.field)
        can_be_both = not clash.field and clash.base is None and None not in (clash.parent, clash.mine)
        if side == "both" and not can_be_both:
            raise Fault(f"{clash} was not added by both sides, so both cannot be kept")
        self.plan.clashes.append(clash)
        if side is None:
            self.plan.open.append(clash)
        return side

    # --- records ---------------------------------------------------------------------------------

    def _leave(
        self, table: int, number: int, value: Optional[bytes], heads: Optional[List[Optional[bytes]]] = None
    ) -> None:
        """Sees to it that the merge leaves this value under a key, or none."""
        key = table, number
        records = {} if value is None else records_of(table, number, value)
        conflict = self.conflicts.get(key)
        base, parent, mine = (conflict.base, conflict.parent, conflict.mine) if conflict else heads
        after = mine if conflict else three_way(base, parent, mine)[0]
        if conflict:
            is_theirs = records.get(key) == parent
            self.plan.settlements[key] = "theirs" if is_theirs else "mine"
            after = parent if is_theirs else mine
        if records and records.get(key) != after or len(records) > 1:
            self.plan.put.update(records)
        elif not records and after is not None:
            self.plan.remove.append(key)

    def _merge_record(self, key: Key) -> None:
        """A record that is none of a feature, or of one that cannot be read, is a clash as a whole."""
        conflict = self.conflicts[key]
        side = self._side(Clash(*key, "", conflict.base, conflict.parent, conflict.mine))
        self.plan.settlements[key] = side if side in SIDES else "mine"

    # --- behind the merge ------------------------------------------------------------------------

    def _keep_both(self) -> None:
        """Gives own features new numbers, and lets the links of this design follow."""
        for table in sorted({it for it, _, _ in self._both}):
            due = [(number, mine) for it, number, mine in self._both if it == table]
            for (number, mine), new in zip(due, self._take(table, len(due))):
                self.plan.renamed[table, number] = new
                if mine.attributes is not None:
                    self.plan.put.update(records_of(table, new, Fields(self.layers[table]).packed(mine.attributes)))
                if mine.geometry is not None:
                    self.plan.put.update(records_of(table + GEOMETRY, new, mine.geometry))

    def _translate(self) -> None:
        """Writes own values anew that have numbers of fields which are the parent's now, or links to features with new
        numbers."""
        renamed = {table for table, _ in self.plan.renamed}
        links = {
            table: {it["name"]: it["link"] for it in layer["fields"] if it.get("link") in renamed}
            for table, layer in self.layers.items()
        }
        due = {table for table, its in links.items() if its} | {table for table, its in self._renumbered.items() if its}
        if not due:
            return
        own = {
            (it.table, it.number): it.after
            for it in self._store.changes(self.alt)
            if it.table in due and it.after is not None
        }
        own = {
            key: it
            for key, it in own.items()
            if self.plan.settlements.get(key) != "theirs" and key not in self.plan.remove
        }
        put = {key: it for key, it in self.plan.put.items() if key[0] in due}
        for key in sorted({*own, *put}):
            records = read(self._store, self.alt, [key]) if key not in put else self.plan.put
            self._write_anew(key, records, links[key[0]], key in put)

    def _write_anew(self, key: Key, records, links: Dict[str, int], is_merged: bool) -> None:
        table, number = key
        value, fields = value_at(records, table, number), Fields(self.layers[table])
        try:
            seen = fields.named(value)
            attributes = dict(seen) if is_merged else self._fields(table, "mine")(value)
        except Fault:
            return
        for name, to in links.items():
            new = self.plan.renamed.get((to, as_number(attributes.get(name))))
            if new is not None:
                attributes[name] = str(new) if isinstance(attributes[name], str) else new
        packed = fields.packed(attributes)
        if packed != fields.packed(seen):
            self.plan.put.update(records_of(table, number, packed))


class Exact(NamedTuple):
    """A value of JSON that equals no other one: 1, 1.0 and true are three."""

    value: Any

    def __eq__(self, other):
        if type(self.value) is not type(other.value) or self.value != other.value:
            return False
        return isinstance(self.value, (bytes, str)) or repr(self.value) == repr(other.value)

    def __ne__(self, other):
        return not self == other

    __hash__ = None


def as_number(value: Any) -> int:
    """A link's number, or -1."""
    text = str(value)
    return int(text) if text.isascii() and text.isdecimal() and len(text) < 20 else -1


def settlements_of(plan: Plan) -> Tuple[Dict[Key, str], Optional[str]]:
    """The words of the merge: each conflict's side, or, if a line has no place for so many, one side for all but
    some."""
    if len(plan.settlements) <= MOST_SETTLEMENTS:
        return plan.settlements, None
    sides = list(plan.settlements.values())
    rest = max(SIDES, key=sides.count)
    found = {key: side for key, side in plan.settlements.items() if side != rest}
    if len(found) > MOST_SETTLEMENTS:
        raise Fault(f"{len(found)} conflicts are more than one merge can settle: merge with all=mine or all=theirs")
    return found, rest


def merge(store, alt: str, plan: Plan, is_service: bool, seen: Optional[Dict[str, int]] = None) -> None:
    """Makes a merge by its plan, as one batch or one commit. A batch is refused if an alternative has changed since it
    was `seen`."""
    if plan.open:
        raise Fault(f"{len(plan.open)} clashes have no choice yet")
    try:
        with store.batch(seen) if is_service else contextlib.nullcontext():
            store.merge(alt, *settlements_of(plan))
            store.put_many(alt, ((*key, plan.put[key]) for key in sorted(plan.put)))
            store.remove_many(alt, plan.remove)
        if not is_service:
            store.commit()
    except BaseException:
        if not is_service:
            store.rollback()
        raise
