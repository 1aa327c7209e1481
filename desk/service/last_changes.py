"""Which batch has changed each alternative last, for batches that depend on what their planners saw."""
from typing import Dict, Iterable, List, Optional, Set

from service.batch import Batch
from service.limits import refusal
from service.lines import OF_THE_STORE, RIGHTS

# How many alternatives are followed.
MOST = 50_000


class LastChanges:
    """Of alternatives that are not followed it is only known that no batch above a number has changed them. In the
    beginning that is the last batch in the store."""

    def __init__(self, kept: int):
        self.followed_since = kept
        self.batches: Dict[str, int] = {}

    def note(self, number: int, names: Iterable[str]) -> None:
        """A batch that changed these alternatives was committed."""
        for name in names:
            self.batches.pop(name, None)
            self.batches[name] = number
        while len(self.batches) > MOST:
            self.followed_since = self.batches.pop(next(iter(self.batches)))

    def refusal_of(self, batch: Batch, kept: int) -> Optional[bytes]:
        """Why a batch is refused if the store is at batch `kept`: an alternative has changed since its planner saw it.
        Nobody can have seen a later batch than that, unless the file was replaced by an older one."""
        for name, seen in batch.seen.items():
            changed = self.batches.get(name, self.followed_since)
            if not changed <= seen <= kept:
                return refusal(103, name, min(kept, max(changed, seen)))
        return None


def changed_by(verb: bytes, words: List[bytes], parents: Dict[bytes, bytes]) -> Set[str]:
    """The alternatives that a line changes, unless it is refused. A line `post` changes the parent too."""
    if RIGHTS[verb] in OF_THE_STORE:
        return set()
    names = [words[0], parents.get(words[0], words[0])] if verb == b"post" else words[:1]
    return {it.decode() for it in names}


def independent(batches: List[Batch], parents: Dict[bytes, bytes]) -> List[Batch]:
    """Batches that may share a commit: all but those that depend on an alternative which an earlier one may change, as
    only the commit shows whether it does, and what the same planners sent after those."""
    if not any(it.seen for it in batches):
        return batches
    parents, changed, late, found = dict(parents), set(), set(), []
    for batch in batches:
        if batch.source in late or not changed.isdisjoint(batch.seen):
            late.add(batch.source)
            continue
        found.append(batch)
        for line in batch.lines:
            verb, *words = line.split(b" ", 3)
            if verb == b"new":
                parents[words[0]] = words[1]
            changed |= changed_by(verb, words, parents)
    return found
