"""Room on the disk for what batches write."""
import errno
import os
import tempfile
import unittest
from pathlib import Path
from types import SimpleNamespace
from unittest import mock

from service import disk_room
from service.disk_room import AHEAD, BLOCK, LARGE, LEFT, MOST, PIECE, PIECES, PLENTY, SMALL, DiskRoom, Uses
from service.journal import Journal, entry_of, head_of, now, parts_of
from service_tests.support import entries


class DiskRoomTests(unittest.TestCase):
    """A file of holes on a disk that has so many bytes free as the test says."""

    def room(self, blocks, free, kind="ext4", fault=0):
        file = tempfile.TemporaryFile()
        self.addCleanup(file.close)
        file.truncate(blocks * BLOCK)
        self.free, self.fault, self.taken = free, fault, []

        def held(_, begin, length):
            self.taken.append((begin // BLOCK, length // BLOCK))
            self.free -= 0 if self.fault else length
            return self.fault

        statvfs = lambda _: SimpleNamespace(f_bavail=self.free, f_frsize=1)  # noqa: E731
        for name, value in ("held", held), ("file_system_of", lambda _: kind):
            patch = mock.patch.object(disk_room, name, value)
            patch.start()
            self.addCleanup(patch.stop)
        patch = mock.patch.object(os, "fstatvfs", statvfs)
        patch.start()
        self.addCleanup(patch.stop)
        found = DiskRoom(file.fileno())
        self.addCleanup(found.close)
        return found

    def test_room_is_taken_ahead_and_once(self):
        room = self.room(10 * PIECE, 1 << 40)
        self.assertEqual([None] * 3, [room.lacking(it, it, 1 << 40) for it in (100, 200, 100 + AHEAD)])
        self.assertEqual([(0, PIECE), (PIECE, PIECE)], self.taken)
        # No further than the file's end.
        self.assertIsNone(room.lacking(20 * PIECE, 1, 1 << 40))
        self.assertEqual((10 * PIECE, PIECE), (room.end, self.taken[-1][1]))

    def test_one_call_takes_so_much_at_most(self):
        room = self.room(100 * PIECE, 1 << 40)
        self.assertIsNone(room.lacking(99 * PIECE, 1, 1 << 40))
        self.assertEqual((PIECES, PIECES * PIECE), (len(self.taken), room.end))

    def test_blocks_that_a_large_batch_took(self):
        """No room is taken for them, except for as many as are needed."""
        room = self.room(100 * PIECE, 1 << 30)
        self.assertIsNone(room.lacking(LARGE + 1, 100, 0))
        self.assertEqual([], self.taken)
        self.assertIsNone(room.lacking(LARGE, 100, 0))
        self.assertEqual((LARGE // PIECE, LARGE), (len(self.taken), room.end))
        self.assertIsNone(room.lacking(3 * LARGE, 100, LARGE + 1))
        self.assertEqual(LARGE + PIECE, room.end)
        self.free = LEFT
        self.assertEqual("ENOSPC", room.lacking(5 * LARGE, 100, 0))

    def test_what_was_written_has_room(self):
        room = self.room(10 * PIECE, LEFT + 100 * BLOCK)
        os.pwrite(room.file, bytes(500 * BLOCK), 0)
        self.assertIsNone(room.lacking(500, 1 << 20, 1 << 40))
        self.assertEqual([], self.taken)
        self.assertIsNone(room.lacking(600, 1 << 20, 1 << 40))
        self.assertEqual([(500, 100)], self.taken)

    def test_room_that_an_earlier_service_has_taken(self):
        """On a full disk it is found by little pieces; where there is none, only one of them is tried."""
        room = self.room(10 * PIECE, 0)
        with mock.patch.object(disk_room, "held", lambda *words: os.posix_fallocate(*words) or 0):
            disk_room.held(room.file, 0, 1000 * BLOCK)
            self.assertIsNone(room.lacking(1000, 1 << 20, 1 << 40))
            end = room.end
            self.assertIn(end, range(1000, 1000 + SMALL))
            self.assertEqual("ENOSPC", room.lacking(5000, 1, 1 << 40))
            taken = os.fstat(room.lock).st_blocks
            self.assertEqual("ENOSPC", room.lacking(5000, 1, 1 << 40))
            self.assertLessEqual(room.end, end + 2 * SMALL)
            self.assertEqual(taken, os.fstat(room.lock).st_blocks)

    def test_a_disk_with_little_room(self):
        # What is left has to be enough for the blocks, and LEFT besides; what is ahead of need is taken only if it is.
        room = self.room(10 * PIECE, LEFT + 100 * BLOCK)
        self.assertIsNone(room.lacking(100, 100, 1 << 40))
        self.assertEqual([(0, 100)], self.taken)
        self.fault = errno.ENOSPC
        self.assertEqual("ENOSPC", room.lacking(101, 1, 1 << 40))
        self.assertEqual("ENOSPC", room.lacking(101, 1, 1 << 40))
        self.assertEqual([(0, 100), (100, SMALL)], self.taken)
        # Where room is held, it does not matter how full the disk is.
        self.free = 0
        self.assertIsNone(room.lacking(100, 100, 1 << 40))
        self.free, self.fault = LEFT + BLOCK, 0
        self.assertIsNone(room.lacking(101, 1, 1 << 40))

    def test_where_no_room_can_be_held(self):
        for kind, fault in (("ext4", errno.EOPNOTSUPP), ("xfs", errno.ENOSYS), ("fuse.glusterfs", 0)):
            room = self.room(10 * PIECE, LEFT + 100 * BLOCK, kind, fault)
            due = [None, "ENOSPC", None]
            self.assertEqual(due, [room.lacking(100, it, 1 << 40) for it in (100, 101, 100)], kind)
            self.assertLessEqual(len(self.taken), 1)
            # No commit writes more than a quarter of the store's blocks, or MOST.
            for blocks, most in ((10 * PIECE, MOST[0]), (20 * PIECE, 5 * PIECE), (100 * PIECE, MOST[1])):
                os.ftruncate(room.lock, blocks * BLOCK)
                self.free = LEFT + most * BLOCK
                self.assertIsNone(room.lacking(9 * PIECE, most + 1, 1 << 40))
                self.free -= 1
                self.assertEqual("ENOSPC", room.lacking(9 * PIECE, most + 1, 1 << 40))

    def test_a_file_system_that_writes_blocks_elsewhere(self):
        room = self.room(10 * PIECE, 1 << 30, "xfs")
        self.assertIsNone(room.lacking(100, 100, 1 << 40))
        self.free = LEFT + 99 * BLOCK
        self.assertEqual("ENOSPC", room.lacking(100, 100, 1 << 40))

    def test_how_often_the_system_is_asked(self):
        room = self.room(10 * PIECE, PLENTY, "fuse.glusterfs")
        with mock.patch.object(disk_room.time, "monotonic", lambda: at):
            for at, free, due in ((1, PLENTY, PLENTY), (1.4, 0, PLENTY), (2, PLENTY - 1, PLENTY - 1), (2, 5, 5)):
                self.free = free
                self.assertEqual(due, room._free(), at)

    def test_errors_of_the_system(self):
        for fault, due in ((errno.EDQUOT, "EDQUOT"), (errno.EIO, "EIO")):
            room = self.room(10 * PIECE, 1 << 30, fault=fault)
            self.assertEqual(due, room.lacking(100, 100, 1 << 40))
        # A disk that was filled in between, and a call that a signal has interrupted.
        room = self.room(10 * PIECE, LEFT + 100 * BLOCK, fault=errno.ENOSPC)
        self.assertEqual("ENOSPC", room.lacking(100, 101, 1 << 40))
        room = self.room(10 * PIECE, LEFT + 100 * BLOCK, fault=errno.EINTR)
        self.assertEqual("ENOSPC", room.lacking(100, 101, 1 << 40))
        self.assertEqual(PIECES, len(self.taken))

    def test_a_file_that_became_shorter(self):
        room = self.room(10 * PIECE, 1 << 30)
        self.assertIsNone(room.lacking(100, 100, 1 << 40))
        os.ftruncate(room.lock, 50 * BLOCK)
        room.lacking(50, 1, 1 << 40)
        self.assertEqual(50, room.end)

    def test_a_device_has_all_its_room(self):
        with mock.patch.object(disk_room.stat, "S_ISREG", return_value=False):
            room = self.room(10, 0)
        self.assertIsNone(room.lacking(1 << 40, 1 << 40, 1 << 40))

    def test_room_that_the_system_gives(self):
        with tempfile.NamedTemporaryFile() as file:
            file.write(b"some bytes")
            file.truncate(100 * BLOCK)
            file.flush()
            before = os.fstat(file.fileno()).st_blocks
            lock = os.open(file.name, os.O_RDONLY)
            room = DiskRoom(lock)
            if room.file is None:
                self.skipTest("no room can be held in this file system")
            self.assertIsNone(room.lacking(100, 100, 1 << 40))
            now = os.fstat(lock)
            self.assertEqual((100 * BLOCK, True), (now.st_size, now.st_blocks * 512 >= 100 * BLOCK > before * 512))
            self.assertEqual(b"some bytes", os.pread(lock, 10, 0))
            room.close()
            os.close(lock)


class UsesTests(unittest.TestCase):
    def test_what_is_not_known(self):
        uses = Uses()
        self.assertFalse(uses.is_known)
        uses.note(told(2000, 1000))
        self.assertEqual((True, 2000, 1000, 1000), (uses.is_known, uses.blocks, uses.free, uses.used))
        uses.note([b"error 22 BadLine", b"free 3"])
        self.assertFalse(uses.is_known)
        uses.note(told(2000, 990))
        uses.note([])
        self.assertFalse(uses.is_known)

    def test_a_marking_that_would_be_of_use(self):
        uses = Uses()
        uses.note(told(2000, 1000))
        self.assertFalse(uses.may_mark())
        uses.note(told(2000, 938))
        self.assertFalse(uses.may_mark())
        uses.note(told(2000, 900))
        self.assertTrue(uses.may_mark())
        uses.note(told(2000, 950))
        self.assertEqual((1050, False), (uses.needed, uses.may_mark()))


def told(blocks, free):
    return [b"blocks %d" % blocks, b"free %d" % free]


class OpenedTests(unittest.TestCase):
    def test_a_start_that_could_not_be_told(self):
        """It is told before the next batch, so a batch that is not in the store is not taken for one that is."""
        with tempfile.TemporaryDirectory() as folder:
            said, path = [], f"{folder}/map.alt.journal"
            journal = Journal(path, said.append)
            journal.opened(0)
            batch = SimpleNamespace(person=SimpleNamespace(uid=1, name="a", through=None), lines=[b"put top 1 1 a"])
            journal.write(parts_of(1, head_of(now(), batch, ["top"]), 1, batch), 1)
            with mock.patch.object(os, "write", side_effect=OSError(errno.ENOSPC, "no space")):
                journal.opened(0)
                self.assertIn("until there is space, it does not tell that altctl was started", said[-1])
            self.assertEqual([], entries(path, kept=0))
            journal.make_room(100)
            journal.note(entry_of(now(), batch, ["top"]).line(2, 1) + b'{"done":2}\n')
            journal.close()
            self.assertEqual(["2"], [it.split()[1] for it in entries(path)])
            lines = [it.split(":")[0] for it in Path(path).read_text().splitlines()]
            self.assertEqual(['{"opened"', '{"batch"', '{"opened"', '{"batch"', '{"done"'], lines)
