"""What planners do meanwhile: the journal of a service as it grows. The journal may be long and slow to read, so the
desk reads it on a connection of its own, and shows what it knows until the rest has come."""
from typing import NamedTuple

MOST_LINES = 1000  # followed line by line
STEP = "new .office."  # A line of each pull and push of a field office.


class News(NamedTuple):
    """The lines of the journal up to a batch. If they are not whole, more came than are followed, or the journal lacks
    some."""

    batch: int
    entries: list
    is_whole: bool


class Journal:
    """The journal of a service's store, as far as it was read."""

    def __init__(self, store):
        self.store, self.batch = store, None

    def look(self):
        """The news since the last look, None if there are none. The first look finds where the store stands."""
        last = self.store.batches()
        if last == self.batch:
            return None
        if self.batch is None:
            self.batch = last
            return News(last, [], False)
        entries = list(self.store.log(after=self.batch, last=MOST_LINES))
        is_whole = bool(entries) and entries[-1].batch >= last and len(entries) < MOST_LINES
        self.batch = max([last, *(it.batch for it in entries)])
        return News(self.batch, entries, is_whole)


def told(entry):
    """A line of the journal as people read it."""
    verb, *words = entry.line.split()
    what = " ".join(
        words[:3] if verb == "new" else words[:2] if verb in ("checkpoint", "uncheck", "back") else words[:1]
    )
    text = {"put": f"edited {what}", "remove": f"removed from {what}"}.get(verb, f"{verb} {what}")
    if entry.line.startswith(STEP):
        text = f"the office {words[0].split('.')[2]} pulled or pushed"
    return {"batch": entry.batch, "time": entry.time, "planner": entry.planner, "text": text}
