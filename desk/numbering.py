"""Numbers for features that are drawn at the desk. Each is given once: the desk takes them from the store a thousand at
a time."""
from maps import numbers


class Numbers:
    """The numbers of each table that were taken, and not yet given."""

    def __init__(self):
        self.taken = {}

    def take(self, store, table):
        if not self.taken.get(table):
            self.taken[table] = list(reversed(numbers.take(store, table, 1, True)))
        return self.taken[table].pop()
