"""The changes that an import makes in a store of its own, where each is made at once and shown at the commit, or by a
service (staging.py)."""
from collections import deque
from concurrent.futures import ThreadPoolExecutor

from altctl import Refusal
from gis import interrupts
from gis.full import blocks_of
from gis.staging import Staging
from maps import Fault

NO_ENTRY = 12
AHEAD = 3  # Portions that wait for the store.


class Changes:
    """Before the first change to an alternative that has records, a checkpoint is made; `checkpoint` is its name
    then. `given` counts the records to put, and `size` tells about how many blocks they take."""

    def __init__(self, store, words, is_service):
        self._store, self._words, self._alt = store, words, words.alt
        self._staging = Staging(store, words.alt, words.grow) if is_service else None
        self._thread, self._waiting = ThreadPoolExecutor(1), deque()
        self.are_any, self.checkpoint = False, None
        self.given, self._done, self.size = 0, 0, 0
        self.free = store.free()
        self._has_records = any(True for _ in store.next(words.alt, 0, 0, 1))

    @property
    def done(self):
        """How many of the records were put."""
        return self._staging.done if self._staging else self._done

    def is_one_batch(self):
        return self._staging is not None and self._staging.at is None

    def make(self, gone, put):
        if not gone and not put:
            return
        if not self.are_any and self._has_records and not self._words.no_checkpoint:
            self.checkpoint = self._free_name()
        is_first, self.are_any = not self.are_any, True
        self.given += len(put)
        self.size += sum(map(blocks_of, put.values()))
        if self._words.dry_run:
            return
        if self._staging:
            self._staging.add(gone, put)
            return
        if is_first and self.checkpoint:
            self._check()
        self._waiting.append(self._thread.submit(self._make, gone, put))
        while len(self._waiting) > AHEAD:
            self._waiting.popleft().result()

    def wait(self):
        """Waits until the store has all that was given."""
        while self._waiting:
            self._waiting.popleft().result()

    def _make(self, gone, put):
        self._store.remove_many(self._alt, gone)
        try:
            self._store.put_many(self._alt, ((*key, put[key]) for key in sorted(put)))
        except Refusal as refusal:
            self._done += refusal.at or 0
            raise
        self._done += len(put)

    def _free_name(self):
        there, at = set(self._store.checkpoints(self._alt)), 1
        while f"before-import-{at}" in there:
            at += 1
        return f"before-import-{at}"

    def _check(self):
        try:
            self._store.checkpoint(self._alt, self.checkpoint)
        except Refusal as refusal:
            raise no_entry(refusal, self.checkpoint) from None

    def commit(self, told):
        """Makes all of it last, in one commit or batch; `told` is what an interruption says from then on."""
        self.wait()
        if not self.are_any or self._words.dry_run:
            return
        if self._staging:
            self._staging.send()
        with interrupts.held_back(told):
            try:
                self._staging.commit(self.checkpoint) if self._staging else self._store.commit()
            except Refusal as refusal:
                raise no_entry(refusal, self.checkpoint) from None

    def forget(self):
        """Ends the thread, whatever it is at, and drops what is not to be."""
        self._thread.shutdown(wait=True)
        if self._staging:
            self._staging.forget()


def no_entry(refusal, name):
    if name and refusal.number == NO_ENTRY:
        return Fault(f"there is no place for the checkpoint {name}: remove some by `uncheck`, or give --no-checkpoint")
    return refusal
