"""Saving an edit session: all of it is one batch, and none of it is made if somebody has changed one of its features
since it was read. What was edited stays in QGIS then, beside what others have made."""
from typing import Any, List, NamedTuple

import maps
from altctl import Refusal
from maps import Fault, numbers

from .fields import from_qgis, wkb_of

CHANGED, TRIES = 103, 5


class Clash(NamedTuple):
    """A field that somebody changed meanwhile: as it was read, as it is now, and as it was to be. The field "" is all
    of a feature, which somebody has removed."""

    number: int
    field: str
    seen: Any
    theirs: Any
    mine: Any


class Late(Fault):
    """Somebody was faster. `clashes` are those fields of the edited features that others have changed."""

    def __init__(self, design_layer, clashes):
        super().__init__(
            f"Somebody has changed {len({it.number for it in clashes})} of these features meanwhile, "
            "so nothing was saved"
        )
        self.design_layer, self.clashes = design_layer, clashes


class Edits:
    """What the edit session of a layer has changed, by numbers of features. New ones have their ids in QGIS."""

    def __init__(self, its):
        self.its, buffer = its, its.layer.editBuffer()
        if buffer.addedAttributes() or buffer.deletedAttributeIds():
            raise Fault("fields are not added or removed here: an import does that")
        removed = [its.numbers[it] for it in buffer.deletedFeatureIds()]
        self.changed, self.removed, self.added = {}, [it for it in removed if it not in its.spared], {}
        gone = set(buffer.deletedFeatureIds())
        for fid, values in buffer.changedAttributeValues().items():
            if fid in gone:
                continue
            if 0 in values:
                raise Fault("the number of a feature stays as it is")
            fields = self.its.record["fields"]
            self.of(fid).update(
                {fields[at - 1]["name"]: from_qgis(fields[at - 1], value) for at, value in values.items()}
            )
        for fid, geometry in buffer.changedGeometries().items():
            if fid not in gone:
                self.of(fid)[""] = wkb_of(geometry)
        for fid, feature in sorted(buffer.addedFeatures().items(), reverse=True):
            values = {it["name"]: from_qgis(it, feature[at]) for at, it in enumerate(its.record["fields"], 1)}
            self.added[fid] = {**values, "": wkb_of(feature.geometry())}

    def of(self, fid):
        return self.changed.setdefault(self.its.numbers[fid], {})

    def shape(self):
        return maps.free_name("geometry", self.its.record["fields"])

    # --- what others have done meanwhile ------------------------------------------------------------

    def refuse_late(self, records):
        """Refuses these edits if the records that they change are not as they were read."""
        due = sorted([*self.changed, *self.removed])
        now = self.its.found(records, due)
        late = [it for it in due if now.get(it) != self.its.seen.get(it)]
        if late:
            raise Late(self.its, [clash for it in late for clash in self._clashes(it, now.get(it))])

    def _clashes(self, number, now):
        if now is None:
            return [Clash(number, "", "as it was read", "removed", "edited")]
        seen, theirs = (self._values(it) for it in (self.its.seen[number], now))
        mine = {**seen, **self.changed.get(number, {})} if number in self.changed else dict.fromkeys(theirs)
        names = [it for it in {**seen, **theirs} if it and seen.get(it) != theirs.get(it)]
        found = [Clash(number, it, seen.get(it), theirs.get(it), mine.get(it)) for it in names]
        return found + ([Clash(number, self.shape(), seen[""], theirs[""], mine[""])] if seen[""] != theirs[""] else [])

    def _values(self, found):
        """The values of a feature by the names of its fields, its geometry as that of ""."""
        attributes, course = found
        return {**self.its.names.named(attributes), "": course}

    # --- what is put --------------------------------------------------------------------------------

    def update(self, hand):
        """The update of records that makes these edits. New features get numbers."""
        its = self.its
        old = its.read([*self.changed, *self.removed])
        self.refuse_late(old)
        update = maps.Update(dict(old))
        for number, values in self.changed.items():
            before = its.seen[number] or its.lost[number]
            its_own = (
                None
                if its.seen[number] is None or set(values) != {""}
                else maps.value_at(old, *its.keys(number)[0]) or b""
            )
            self._set(update, number, {**self._values(before), **values}, its_own)
        for fid, values in self.added.items():
            self._set(update, hand[fid], values)
        return update

    def _set(self, update, number, values, attributes=None):
        """Puts a feature. Where its geometry alone was edited, its attributes stay as they are in the store."""
        key, shape = self.its.keys(number)
        if attributes is None:
            update.set(*key, self.its.names.packed({name: it for name, it in values.items() if name}))
        elif attributes:
            update.set(*key, attributes)
        if values[""] is not None:
            update.set(*shape, values[""])


def save(session, design_layers):
    """Saves the edit sessions of layers of one design as one batch. Gives for each layer the numbers of its new
    features, by their ids in QGIS."""
    edits = [Edits(it) for it in design_layers]
    hands = [dict(zip(it.added, session.numbers(it.its.table, len(it.added)))) for it in edits]
    for tries in range(TRIES):
        before = session.store.batches()
        updates = [it.update(hand) for it, hand in zip(edits, hands)]
        try:
            send(session.store, design_layers[0].alt, updates, before)
            break
        except Refusal as refusal:
            if refusal.number != CHANGED or tries == TRIES - 1:
                raise
    for it, hand in zip(edits, hands):
        note(it, hand)
    return hands


def send(store, alt: str, updates: List[maps.Update], before: int):
    with store.batch({alt: before}):
        for it in updates:
            store.put_many(alt, ((*key, value) for key, value in it.put.items()))
            store.remove_many(alt, it.gone())


def note(edits, hand):
    """What was saved is what was seen from now on."""
    its = edits.its
    for number in edits.removed:
        its.numbers.pop(its.ids.pop(number, None), None)
        its.seen.pop(number, None)
    its.lost.clear()
    if its.pending is not None:
        its.pending |= its.spared
    its.seen.update(its.now([*edits.changed, *hand.values()]))


def take_numbers(store, taken, table, count):
    """That many numbers for new features: those that were taken already, and a thousand more if they are too few."""
    while len(taken) < count:
        taken.extend(numbers.take(store, table, count - len(taken), True))
    return [taken.pop(0) for _ in range(count)]
