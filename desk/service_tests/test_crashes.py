"""Tests of the service: crashes."""
import fcntl
import os
from pathlib import Path
from unittest.mock import patch

from service.batch import Batch
from service.batches import Batches
from service.locking import locked, written_by
from service.rules import Person, Rules
from service.store import Fatal, Store
from service_tests.support import ALTCTL, ServiceTest, entries

# How many records a batch changes whose entry is too long for a record.
LARGE = 17


class CrashTests(ServiceTest):
    def test_store_and_journal_agree_wherever_the_machine_stops(self):
        moments = self.moments()
        self.assertGreater(len(moments), 12)
        numbers = {it.split()[7]: it.split()[1] for it in entries(self.journal)}
        shown = set()
        for store, synced, journal in moments:
            for text in self.left_of(synced, journal):
                shown.add(self.shown_after(store, text, numbers))
        self.assertEqual({0, 2, 4, 5, 5 + LARGE, 6 + LARGE}, shown)

    def left_of(self, synced, journal):
        """What may be there: of what was not synced any part, and other bytes in the place of the rest or of others."""
        step = max(40, (len(journal) - synced) // 8)
        for length in {*range(synced, len(journal), step), max(synced, len(journal) - 1), len(journal)}:
            rest = len(journal) - length
            yield journal[:length]
            yield journal[:length] + bytes(rest)
            yield journal[:length] + b"\n{}\xff\0"[: rest // 2] + journal[length + rest // 2 :]
            yield journal[:length] + bytes(rest // 2) + journal[length + rest // 2 :]

    def batches(self, lock, say):
        return Batches(Store(self.file, ALTCTL, [], lock, say), Rules(f"{self.file}.rules"), say)

    def moments(self):
        """Store and journal before and after each step of some commits and stamps, and how much of the journal is
        synced. A crash within a commit of the program leaves the store as before or as after it: that is proved."""
        lock = locked(self.file)
        batches = self.batches(lock, self.fail)
        program, journal = batches.store.program, batches.journal
        moments, synced = {}, journal.end

        def note():
            moments[Path(self.file).read_bytes(), synced, Path(self.journal).read_bytes()] = None

        def noting(call):
            def step(*words):
                nonlocal synced
                note()
                given = call(*words)
                synced = journal.end if call == sync else synced
                note()
                return given

            return step

        sync = journal.sync
        program.exchange, journal._append, journal.sync = map(noting, (program.exchange, journal._append, sync))
        person = Person(os.geteuid(), "anna", frozenset())
        # The last but one has an entry that is too long for a record.
        large = [b"put top 1 %d %s" % (it, b"x" * 4000) for it in range(6, 6 + LARGE)]
        for group in [[[1], [2]], [[3, 4]], [], [[5]], [large], [[6 + LARGE]]]:
            lines = [[it if isinstance(it, bytes) else b"put top 1 %d a" % it for it in batch] for batch in group]
            batches.carry_out([Batch(person, it) for it in lines])
            if not group:
                batches.refresh()
        self.assertEqual(6, len(entries(self.journal, "alternative=top")) - LARGE)
        batches.end()
        os.close(lock)
        return list(moments)

    def shown_after(self, store, journal, numbers):
        """How many records are there after such a crash, all of which the journal tells, by the numbers that their
        batches had."""
        Path(self.file).write_bytes(store)
        Path(self.journal).write_bytes(journal)
        lock = locked(self.file)
        batches = self.batches(lock, lambda _: None)
        rows = [it[2].decode() for it in batches.store.rows(b"list top")]
        told = [it.split(" ") for it in entries(self.journal)]
        self.assertEqual(rows, [it[7] for it in told])
        self.assertEqual([numbers[it] for it in rows], [it[1] for it in told])
        batches.end()
        os.close(lock)
        return len(rows)


class VolumeTests(ServiceTest):
    """On a volume the lock is on the open file that the program writes with. Here the file system stands for one."""

    def setUp(self):
        super().setUp()
        self.lock, self.said = locked(self.file), []
        self.addCleanup(os.close, self.lock)
        volume = patch("service.store.is_of_volume", return_value=True)
        volume.start()
        self.addCleanup(volume.stop)

    def store(self):
        store = Store(self.file, ALTCTL, [], self.lock, self.said.append)
        self.addCleanup(store.end)
        if store.held == self.lock:
            self.skipTest("the system gives no descriptor of another process")
        self.addCleanup(lambda: store.held == self.lock or os.close(store.held))
        return store

    def has_lock(self, file):
        try:
            fcntl.flock(file, fcntl.LOCK_EX | fcntl.LOCK_NB)
        except BlockingIOError:
            return False
        return True

    def test_the_lock_goes_from_program_to_program(self):
        store = self.store()
        for _ in range(3):
            self.assertFalse(self.has_lock(self.lock))
            written = written_by(store.program.process.pid, self.lock)
            self.assertTrue(self.has_lock(written))
            os.close(written)
            store.program.process.kill()
            store.program.process.wait()
            self.assertFalse(self.has_lock(self.lock))
            store.reopen()
        self.assertEqual([], self.said)

    def test_no_program_is_started_once_the_lock_is_lost(self):
        store = self.store()
        fcntl.flock(store.held, fcntl.LOCK_UN)
        other = locked(self.file)
        starts = store.starts
        self.assertRaisesRegex(Fatal, "its lock is lost", store.reopen)
        self.assertEqual(starts, store.starts)
        os.close(other)

    def test_a_system_that_does_not_let_it_be_there(self):
        with patch("service.store.written_by", return_value=None):
            store = Store(self.file, ALTCTL, [], self.lock, self.said.append)
        self.addCleanup(store.end)
        self.assertEqual(self.lock, store.held)
        self.assertRegex(self.said[0], "the lock is not on what the program writes with")
