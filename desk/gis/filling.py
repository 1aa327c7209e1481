"""Bookends, which let an import fill leaves of the store.

The store keeps a full leaf as it is if a record comes that is behind all others in it, and halves it otherwise. An
import puts a thousand features at a time, their attributes and then their geometry. The last attributes share a leaf
with the first geometry, or with the layer of the next table, so without bookends the next thousand would come before
those, and leave half-full leaves behind. A bookend is a record so long that hardly another one has room in its leaf.
While features come in, one stands behind all attributes of their table, and one behind all geometry. They are put and
removed in the commit or batch that has the import; an import of several batches has them in an alternative of its
own."""
from typing import Dict, Tuple

from maps.records import GEOMETRY, LONGEST

BEHIND = 2**64 - 1  # No feature has so high a number.
MANY = 100  # New features of a thousand, at least. For fewer, the leaves that bookends cut in two cost too much.
# Whoever reads a journal finds what the record is for.
VALUE = b"bookend-of-an-import-which-removes-it-again".ljust(LONGEST, b"-")


def bookends(store, alt: str, table: int) -> Dict[Tuple[int, int], bytes]:
    """The bookends of a table. Where somebody has put a record in the place of one, it is left out."""
    keys = (table, BEHIND), (table + GEOMETRY, BEHIND)
    return {key: VALUE for key in keys if store.get(alt, *key) is None}
