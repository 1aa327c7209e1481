"""A connection to a service: the tree of designs, what others have changed since the last look, and what is done with a
design."""
from typing import NamedTuple, Optional

import joining
import maps
from altctl import Store

from .layers import DesignLayer
from .saving import save, take_numbers

MOST_LINES = 1000  # of the journal that are followed one by one


class Row(NamedTuple):
    name: str
    parent: Optional[str]
    depth: int
    changed: int
    conflicts: int


class Session:
    def __init__(self, path):
        self.path, self.store = path, Store(path if path.startswith("unix:") else f"unix:{path}")
        self.batch, self.open, self.taken = self.store.batches(), {}, {}

    def close(self):
        self.store.close(quietly=True)

    def numbers(self, table, count):
        return take_numbers(self.store, self.taken.setdefault(table, []), table, count)

    def tree(self):
        """The designs, each below its parent, with how many records it has changed and how many are in conflict."""
        parents = {it.name: it.parent for it in self.store.alternatives() if not it.name.startswith(".")}
        rows = []

        def add(name, depth):
            tally = self.store.tally(name) if parents[name] else None
            rows.append(Row(name, parents[name], depth, tally.changed if tally else 0, tally.conflicts if tally else 0))
            for child, parent in parents.items():
                if parent == name:
                    add(child, depth + 1)

        add("top", 0)
        return rows

    def parent(self, alt):
        return next((it.parent for it in self.store.alternatives() if it.name == alt), None)

    # --- layers -------------------------------------------------------------------------------------

    def layers(self, alt):
        """The layers of a design, each read once."""
        for table in sorted(maps.layers(self.store, alt)):
            if (alt, table) not in self.open:
                self.open[alt, table] = DesignLayer(self, alt, table)
        return [its for (name, _), its in sorted(self.open.items()) if name == alt]

    def forget(self, layer_ids):
        self.open = {key: its for key, its in self.open.items() if its.layer.id() not in layer_ids}

    def look(self):
        """Takes in what came since the last look. Tells whether something did."""
        last = self.store.batches()
        if last == self.batch:
            return False
        entries = list(self.store.log(after=self.batch, last=MOST_LINES))
        is_whole = bool(entries) and len(entries) < MOST_LINES
        parents = {it.name: it.parent for it in self.store.alternatives()}
        self.batch = last
        for (alt, table), its in list(self.open.items()):
            if alt not in parents:
                del self.open[alt, table]
                continue
            its.catch_up(changed_numbers(entries, alt, table, parents) if is_whole else None)
        return True

    # --- what is done with a design -----------------------------------------------------------------

    def save(self, design_layers):
        return save(self, design_layers)

    def clashes(self, alt):
        """What a merge of this design needs choices for, and the batch at which that was so."""
        batch = self.store.batches()
        conflicts = {(it.table, it.number): it for it in self.store.conflicts(alt)}
        return joining.clashes_of(self.store, alt, conflicts), batch

    def merge(self, alt, clashes, choices, batch):
        return joining.merge(self.store, alt, clashes, choices, {it: batch for it in (alt, self.parent(alt))})

    def post(self, alt, batch):
        with self.store.batch({it: batch for it in (alt, self.parent(alt))}):
            self.store.post(alt)


def changed_numbers(entries, alt, table, parents):
    """The features of a design's table that these lines of the journal have changed; None for any."""
    found = set()
    for it in entries:
        verb, *words = it.line.split(" ")
        if verb in ("put", "remove") and words[0] == alt:
            if int(words[1]) == 0:
                return None
            if int(words[1]) in (table, table + maps.GEOMETRY):
                found.add(int(words[2]))
        elif verb in ("merge", "back", "new", "drop") and words[0] == alt:
            return None
        elif verb == "post" and alt in (words[0], parents.get(words[0], alt)):
            return None
    return found
