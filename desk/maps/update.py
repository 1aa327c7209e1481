"""What turns the records that are there into those that are wanted."""
from typing import Callable, Optional

from maps.records import GEOMETRY, MOST_PARTS, PARTS, Fault, first_part, part_keys, records_of, value_at


class Update:
    """What turns the records that are there, `old`, into those that are wanted: records to put, and keys to remove. A
    record that stays or changes is taken out of `old`. `firsts` has the FIRST / 1,000 of each longer value of the new
    map. Attributes of which `is_same` tells that they are the same, though written otherwise, stay as they are."""

    def __init__(self, old, firsts=(), is_same: Optional[Callable[[bytes, bytes], bool]] = None):
        self.old, self.put, self.firsts = old, {}, set() if firsts == () else firsts
        self._is_same = is_same

    def set(self, table, number, value):
        """Gives a key a value, and tells whether it had another one."""
        records = records_of(table, number, value)
        different = {key: it for key, it in records.items() if self.old.pop(key, None) != it}
        self.put.update(different)
        if len(records) > 1:
            self.firsts.add(first_part(table, number, value) // MOST_PARTS)
        return bool(different)

    def _stays(self, table, number, value):
        """Whether the attributes are there already, written otherwise. Their records are taken out of `old` then."""
        head = self.old.get((table, number))
        if self._is_same is None or head is None or head == value:
            return False
        keys = [(table, number), *part_keys(table, head)]
        try:
            is_there = self._is_same(value_at(self.old, table, number), value)
        except Fault:  # It lacks parts: it is put anew.
            is_there = False
        if is_there:
            self.firsts.update(number // MOST_PARTS for _, number in keys[1:])
            for key in keys:
                self.old.pop(key, None)
        return is_there

    def set_feature(self, table, number, attributes, geometry):
        """Gives a feature its attributes and its geometry, and tells whether it is added, changed or the same."""
        is_there = (table, number) in self.old or (table + GEOMETRY, number) in self.old
        differs = not self._stays(table, number, attributes) and self.set(table, number, attributes)
        if geometry is not None:
            differs |= self.set(table + GEOMETRY, number, geometry)
        return "same" if not differs else "changed" if is_there else "added"

    def gone(self):
        """The keys of what is left, to remove: parts among them only where they are nobody's."""
        return sorted(key for key in self.old if key[0] < PARTS or key[1] // MOST_PARTS not in self.firsts)
