"""A store that is full: how it grows, and how much room an import wants."""
from altctl import MOST_BLOCKS, Refusal

FULL = 13
# A leaf has room for so many bytes of records, of which two thirds are in use if features come in no order, and more
# otherwise. A record takes twelve besides its value, and two of more than HALF do not fit in one leaf.
LEAF_ROOM, RECORD, HALF = 4080, 12, 2028


def grow(store):
    """Doubles a service's store. False if it is as large as one can be."""
    blocks = store.blocks()
    if blocks >= MOST_BLOCKS:
        return False
    store.grow(min(2 * blocks, MOST_BLOCKS))
    return True


def blocks_of(value):
    """About how many blocks a new record takes."""
    return 1 if len(value) > HALF else (RECORD + len(value)) / LEAF_ROOM * 3 / 2


def room(store, words, changes, jobs):
    """How much room is wanting, and how the store gets it."""
    total = sum(it.total for it in jobs)
    if changes.is_one_batch():
        wanting, told = changes.size - changes.free, "the import"
    else:
        seen = max(sum(sum(it.counts.values()) for it in jobs), 1)
        done = min(changes.done * seen // max(changes.given, 1), total)
        wanting = changes.free * (total / max(done, 1) - 1)
        told = f"{done} of {total} features had room, and the rest"
    wanting = int(max(wanting, 0) * 1.1) + 34
    try:
        blocks = min(store.blocks() + wanting, MOST_BLOCKS)
    except Refusal:
        blocks = "BLOCKS"
    line = f"grow {blocks}" if words.is_service else f"altctl do {words.store} 'grow {blocks}' commit"
    return f"{told} takes about {wanting} blocks more: give it more, {line}, or --grow; nothing was changed"
