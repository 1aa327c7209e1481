"""The ducts of a design as they must be after what two planners were told: a model that shares no code with the desk.
Records are read by json and struct alone, as docs/MAPS.md has them."""
import json
import struct

DUCTS, COURSES = 7, 107


def points_of(value):
    """The points of a line in WKB."""
    order, kind, count = struct.unpack_from("<BII", value)
    if (order, kind, len(value)) != (1, 2, 9 + 16 * count):
        raise AssertionError(f"no line: {value!r}")
    return [struct.unpack_from("<dd", value, 9 + 16 * it) for it in range(count)]


def records_of(store, alt):
    """The records of the ducts as a dict from key: fields that have a value, and points."""
    fields = ((it.number, json.loads(it.value)) for it in store.list(alt, DUCTS))
    courses = ((it.number, points_of(it.value)) for it in store.list(alt, COURSES))
    return {**{(DUCTS, number): it for number, it in fields}, **{(COURSES, number): it for number, it in courses}}


class Step:
    """What an edit has made of records."""

    def __init__(self, old, new):
        self.old, self.new = old, new


class Ducts:
    """What is there, and what each planner can undo and do again."""

    def __init__(self, records, planners):
        self.base, self.now, self.edits = dict(records), dict(records), 0
        self.done, self.undone = ({it: [] for it in planners} for _ in range(2))

    def numbers(self):
        return sorted(number for table, number in self.now if table == DUCTS)

    def fields(self, number):
        return self.now[DUCTS, number]

    def course(self, number):
        return self.now[COURSES, number]

    def change(self, planner, number, fields=None, course=None):
        """A planner was told that a duct has other fields, None for those without a value, and another course."""
        it = {**self.now.get((DUCTS, number), {}), **(fields or {})}
        records = {(DUCTS, number): {name: value for name, value in it.items() if value is not None}}
        if course is not None:
            records[COURSES, number] = course
        self._edit(planner, records)

    def remove(self, planner, number):
        self._edit(planner, {(DUCTS, number): None, (COURSES, number): None})

    def _edit(self, planner, records):
        new = {key: it for key, it in records.items() if self.now.get(key) != it}
        if new:
            self.done[planner].append(Step({key: self.now.get(key) for key in new}, new))
            self.undone[planner] = []
            self._set(new)

    def undo(self, planner):
        """Undoes the last edit, unless one of its records has changed since. Tells whether it did."""
        return self._turn(self.done[planner], self.undone[planner], lambda it: (it.old, it.new))

    def redo(self, planner):
        return self._turn(self.undone[planner], self.done[planner], lambda it: (it.new, it.old))

    def _turn(self, steps, others, sides):
        to, since = sides(steps[-1])
        if any(self.now.get(key) != it for key, it in since.items()):
            return False
        others.append(steps.pop())
        self._set(to)
        return True

    def _set(self, records):
        self.edits += 1
        self.now.update(records)
        self.now = {key: it for key, it in self.now.items() if it is not None}

    def changed(self):
        """The keys of the records that are not as in the base."""
        return {it for it in {*self.base, *self.now} if self.base.get(it) != self.now.get(it)}

    def states(self):
        """Of each duct that is not as in the base whether it is added, changed or removed."""
        found = {}
        for number in {number for _, number in self.changed()}:
            was, is_there = ((DUCTS, number) in its for its in (self.base, self.now))
            found[number] = "changed" if was and is_there else "added" if is_there else "removed"
        return found
