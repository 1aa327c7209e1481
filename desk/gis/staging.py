"""The changes of an import through a service: one batch, or, if they are more than a batch has, several. Those go into
an alternative of their own below the one that is to be changed, and the last batch posts it. So nobody sees a part of
an import, and one that ends before that has changed nothing. What it leaves is dropped by the planner's next import
into the same alternative."""
import contextlib
import hashlib
import itertools
import secrets

from altctl import Refusal

from gis import interrupts
from gis.full import FULL, grow
from maps import IMPORTS, Fault

ONE_BATCH = 90_000, 32 << 20  # Lines and bytes of values that go as one batch: a service takes some more.
PORTION = 10_000, 8 << 20  # Those of each of several batches: others wait for no more than a portion.
NO_ALTERNATIVE, DENIED = 1, 90


class Staging:
    """What is to be changed in an alternative of a service's store. `at` is the alternative of this import, None as
    long as one batch has room for all, and `done` counts the records that are in it."""

    def __init__(self, store, alt, grows):
        self._store, self._alt, self._grows, self._held, self._size = store, alt, grows, [], [0, 0]
        self.at, self.done = None, 0

    def add(self, gone, put):
        self._held += [(key, None) for key in gone]
        self._held += sorted(put.items())
        self._size[0] += len(gone) + len(put)
        self._size[1] += sum(map(len, put.values()))
        if exceed(self._size, ONE_BATCH if self.at is None else PORTION):
            self._send_portions()

    def send(self):
        """Sends what is left before the last batch."""
        if self.at is not None:
            self._send_portions()

    def commit(self, checkpoint):
        """The last batch, with a checkpoint of what was there before if that has a name."""
        self._in_batch(lambda: self._make_last(checkpoint))
        self.at = None

    def _make_last(self, checkpoint):
        if checkpoint:
            self._store.checkpoint(self._alt, checkpoint)
        if self.at is None:
            return self._make(self._alt, self._held)
        self._store.merge(self.at, all="mine")  # What others have changed meanwhile.
        self._store.post(self.at)
        self._store.drop(self.at)

    def _send_portions(self):
        if self.at is None:
            self._begin()
        for portion in portions(self._held):
            self._in_batch(lambda: self._make(self.at, portion))
            self.done += len(portion)
        self._held, self._size = [], [0, 0]

    def _begin(self):
        """Makes the alternative. What an import of this planner into the same one has left is dropped."""
        whose = f"{self._store.whoami()} {self._alt}"
        name = IMPORTS + hashlib.sha256(whose.encode("utf-8", "surrogateescape")).hexdigest()[:8]
        at = f"{name}-{secrets.token_hex(3)}"
        interrupts.done(f"nothing was changed in {self._alt}; your next import into it drops {at}, if that is there")
        try:
            for it in [it.name for it in self._store.alternatives() if it.name.startswith(name)]:
                self._store.drop(it)
            self._store.new(at, self._alt)
        except Refusal as refusal:
            if refusal.number != DENIED:
                raise
            wanted = f"so large an import needs the rights to change, post and drop {IMPORTS}*, too"
            raise Fault(f"refused: {refusal}: {wanted}; nothing was changed") from None
        self.at = at

    def _in_batch(self, make):
        """Makes changes as one batch, which is sent again if the store has grown for it."""
        while True:
            try:
                with self._store.batch():
                    make()
                return
            except Refusal as refusal:
                if refusal.number == NO_ALTERNATIVE and self.at and self.at not in self._names():
                    raise Fault(f"another import into {self._alt} has dropped {self.at}; nothing was changed") from None
                if refusal.number != FULL or not self._grows or not grow(self._store):
                    raise

    def _names(self):
        return {it.name for it in self._store.alternatives()}

    def _make(self, alt, records):
        """Removes and puts records in the order in which they were given."""
        for is_gone, its in itertools.groupby(records, lambda it: it[1] is None):
            if is_gone:
                self._store.remove_many(alt, [key for key, _ in its])
            else:
                self._store.put_many(alt, ((*key, value) for key, value in its))

    def forget(self):
        """Drops what was not posted, if the service is still there."""
        if self.at is not None:
            with contextlib.suppress(Exception):
                self._store.drop(self.at)


def exceed(size, most):
    return size[0] > most[0] or size[1] > most[1]


def portions(records):
    """Records in lists of one batch each."""
    portion, size = [], [0, 0]
    for key, value in records:
        size = [size[0] + 1, size[1] + len(value or b"")]
        if portion and exceed(size, PORTION):
            yield portion
            portion, size = [], [1, len(value or b"")]
        portion.append((key, value))
    if portion:
        yield portion
