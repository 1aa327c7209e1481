"""Room on the disk for the blocks that batches write.

In a file that grew, blocks that were never written are holes, and take room with their first write. A commit that finds
none then cannot tell which part of it is there. So before batches are carried out, the blocks that they may take have
room: where the file system can, the file holds it, taken some pieces ahead; elsewhere the disk has to have enough left.

The program takes the lowest free block each time, so a block that a batch takes lies below as many blocks as are in use
after that."""
import contextlib
import errno
import os
import stat
import time
from typing import Optional, Sequence

from service.locking import file_system_of

try:
    import ctypes

    _fallocate = ctypes.CDLL(None, use_errno=True).fallocate
    _fallocate.argtypes = [ctypes.c_int, ctypes.c_int, ctypes.c_int64, ctypes.c_int64]
except (ImportError, AttributeError, OSError, MemoryError):
    _fallocate = None

BLOCK = 4096
# Linux' number for fallocate: the file stays as long as it is.
KEEP_SIZE = 1
# How many blocks get room at once, how many times at most before one commit, and how many ahead of need.
PIECE, PIECES, AHEAD = 4096, 64, 4096
# How many get it at once on a full disk, if that may be there already; and for how many more than have it none is
# taken, since they are a large batch's.
SMALL, LARGE = 64, 16_384
# The blocks of the store itself, which come first. A commit writes some of them.
FIRST = 34
# What a batch leaves free on the disk: the journal needs some, and others may take some during the commit.
LEFT = 4 << 20
# As long as that much is free, it is known for so many seconds.
PLENTY, FRESH = 4 << 30, 0.5
# How many written blocks the program keeps in memory: a quarter of the store's, but so many at least and at most.
# One commit writes no more.
MOST = 16_384, 65_536
# The most blocks that a change takes.
MARGIN = 17
# The lines that ask how many blocks there are.
ROOM = (b"blocks", b"free")
# File systems on which a block that has room needs no more when it is written. Others may put it elsewhere then.
FIRM = {"ext4", "tmpfs"}
# What a system answers if it cannot hold room at all.
UNABLE = {errno.EOPNOTSUPP, errno.ENOSYS, errno.EINVAL, errno.ENODEV, errno.EPERM}


class DiskRoom:
    def __init__(self, lock: int):
        self.lock, self.file = lock, None
        self.is_plain = stat.S_ISREG(os.fstat(lock).st_mode)
        kind = file_system_of(lock)
        self.is_firm = kind in FIRM
        # A file system without a device of its own writes blocks elsewhere, or lies on other machines.
        has_device = os.major(os.fstat(lock).st_dev) != 0 and not kind.startswith("fuse")
        if self.is_plain and _fallocate is not None and (self.is_firm or has_device):
            with contextlib.suppress(OSError):  # The open file that has the lock is only read.
                self.file = os.open(f"/proc/self/fd/{lock}", os.O_RDWR | os.O_CLOEXEC)
        # The blocks below this one have room, and where none was found on a full disk.
        self.end, self.tried = 0, -1
        # How many bytes were free, and when that was.
        self.free, self.asked = 0, 0.0

    def lacking(self, front: int, count: int, needed: int) -> Optional[str]:
        """Why there is no room for so many blocks that lie below this one, as an error of the system; None if there
        is. So many of all blocks are needed for what was committed."""
        if not self.is_plain:
            return None
        blocks = os.fstat(self.lock).st_size // BLOCK
        self.end = min(self.end, blocks)
        fault = self._take(min(front, blocks), needed, blocks)
        if self.is_firm and front <= self.end:
            return None
        if fault not in (None, errno.ENOSPC):
            return errno.errorcode.get(fault, "EIO")
        most = min(max(blocks // 4, MOST[0]), MOST[1])
        return None if self._free() >= min(count, most) * BLOCK + LEFT else "ENOSPC"

    def _take(self, front: int, needed: int, blocks: int) -> Optional[int]:
        """Takes room for the blocks up to this one, and some ahead. Returns the error of the system, if there is
        one."""
        for _ in range(PIECES):
            if self.file is None or self.end >= front:
                return None
            # What was written has room.
            begin = min(blocks, os.lseek(self.file, self.end * BLOCK, os.SEEK_HOLE) // BLOCK)
            if begin > self.end:
                self.end = begin
                continue
            # A large batch writes few of the blocks that it takes: most are replaced before its commit.
            if front - begin > LARGE and begin >= needed:
                return None
            fault = self._take_piece(begin, front, blocks)
            if fault in UNABLE:
                self.close()
            elif fault not in (0, errno.EINTR):
                return fault
        return None

    def _take_piece(self, begin: int, front: int, blocks: int) -> int:
        # A call that fails may take all that is free.
        for end in (min(begin + PIECE, max(front, begin + AHEAD), blocks), min(begin + PIECE, front)):
            if self._free() >= (end - begin) * BLOCK + LEFT:
                return self._held(begin, end)
        if begin == self.tried:
            return errno.ENOSPC
        # An earlier service may have taken this room. If not, little is taken of what others need.
        before = os.fstat(self.lock).st_blocks
        fault = self._held(begin, min(begin + SMALL, blocks))
        if fault or os.fstat(self.lock).st_blocks != before:
            self.tried = self.end
        return fault

    def _held(self, begin: int, end: int) -> int:
        fault = held(self.file, begin * BLOCK, (end - begin) * BLOCK)
        self.end = self.end if fault else end
        return fault

    def _free(self) -> int:
        """How many bytes are free. On a volume it takes a while to ask, so where much is free it is asked seldom."""
        now = time.monotonic()
        if self.free < PLENTY or now > self.asked + FRESH:
            found = os.fstatvfs(self.lock)
            self.free, self.asked = found.f_bavail * found.f_frsize, now
        return self.free

    def close(self) -> None:
        file, self.file = self.file, None
        if file is not None:
            os.close(file)


def held(file: int, begin: int, length: int) -> int:
    """Has a file hold room for these bytes. Returns 0, or the error of the system."""
    if _fallocate is None:
        return errno.ENOSYS
    if _fallocate(file, KEEP_SIZE, begin, length) == 0:
        return 0
    return ctypes.get_errno()


class Uses:
    """How many blocks there are, how many are free, and how many were in use after a marking: those that are needed."""

    def __init__(self) -> None:
        self.blocks, self.free, self.needed, self.is_known = 0, 0, 0, False

    @property
    def used(self) -> int:
        return self.blocks - self.free

    def note(self, told: Sequence[bytes]) -> None:
        """Notes how the lines ROOM were answered."""
        counts = [int(it[1]) for it in map(bytes.split, told) if it[0] in ROOM]
        if len(counts) < len(ROOM):
            self.is_known = False
            return
        blocks, free = counts
        if not self.is_known or blocks - free < self.used:
            self.needed = blocks - free  # An opening marks, too.
        self.is_known, self.blocks, self.free = True, blocks, free

    def may_mark(self) -> bool:
        """Whether a marking may give back more than a few blocks."""
        return self.used - self.needed > max(2 * MARGIN, self.used // 16)
