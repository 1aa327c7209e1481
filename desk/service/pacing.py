"""Large files that come and go without holding up those who sync meanwhile. A gigabyte that is synced at once fills
the queue of a device, and one that is removed may keep it as busy. So both are done in small pieces, with pauses."""
import contextlib
import fcntl
import os
import select
import signal
import stat
import threading
import time
from typing import Callable, Iterator, List, Optional, Tuple

try:
    import ctypes

    _sync_file_range = ctypes.CDLL(None).sync_file_range
    _sync_file_range.argtypes = [ctypes.c_int, ctypes.c_int64, ctypes.c_int64, ctypes.c_uint]
except (ImportError, AttributeError, OSError, MemoryError):
    _sync_file_range = None

# How long a program writes before what it has written goes to the device, in milliseconds. If the processors have other
# work, it is longer.
SLICE = 2
# How much goes to the device at once: so long a sync of others waits for it.
PIECE = 1 << 20
# Linux' numbers for sync_file_range: write what is not written, and wait for it.
WRITE, WAIT_AFTER = 2, 4
# How much of a file is removed at once, and how many seconds pass at least until more is: a file system may tell the
# device which blocks are free only later, with its next commit.
STEP, STEP_SECONDS = 4 << 20, 0.01
# How often it is looked whether another one still has a file open, and how many seconds lie between.
CHECKS, CHECK_SECONDS = 10, 0.1


def pace(program: int, paths: List[str], count: Callable[[], Optional[int]]) -> None:
    """Lets the program of a descriptor (pidfd) run until it has ended. What it writes into the first of these files
    that is there goes to the device bit by bit, and it stands still meanwhile. `count` tells how many bytes it has
    written. If the program removes the file at its end, the blocks become free bit by bit, too."""
    file, before = None, 0
    ends = select.poll()
    ends.register(program, select.POLLIN)
    try:
        while not ends.poll(SLICE):
            file = opened(paths) if file is None else file
            if file is not None:
                signal.pidfd_send_signal(program, signal.SIGSTOP)
                now = count()
                with contextlib.suppress(OSError):  # Its own sync tells of it.
                    for begin, length in pieces(os.fstat(file).st_size, before, now):
                        rested(write_out, file, begin, length)
                before = now
                signal.pidfd_send_signal(program, signal.SIGCONT)
    except ProcessLookupError:
        pass  # It has ended.
    finally:
        let_go(file)


def pieces(size: int, first: Optional[int], last: Optional[int]) -> Iterator[Tuple[int, int]]:
    """Where in a file of this size the bytes lie that `altctl copy` has written, from its FIRST byte to its LAST: it
    goes through the file once, from behind its first blocks, which are less than a piece. If they are not known, that
    is the whole file, of which 0 is the length."""
    if first is None or last is None:
        yield 0, 0
    elif first < last:
        for at in range(first - first % PIECE, min(last + PIECE, size), PIECE):
            yield at, PIECE


def written_by(process: int) -> Optional[int]:
    """How many bytes a process has written, or None if that cannot be seen."""
    return counts_of(process)[1]


def transferred(process: int) -> int:
    """How many bytes a process has read and written, or 0 if that cannot be seen."""
    return sum(it or 0 for it in counts_of(process))


def counts_of(process: int) -> Tuple[Optional[int], Optional[int]]:
    """How many bytes a process has read, and how many it has written."""
    with contextlib.suppress(OSError, ValueError, IndexError):
        with open(f"/proc/{process}/io") as file:
            words = file.read().split()
        return int(words[1]), int(words[3])
    return None, None


def opened(paths: List[str]) -> Optional[int]:
    """A descriptor of the first of these files that is there."""
    return next((file for file in map(held, paths) if file is not None), None)


def write_out(file: int, begin: int, length: int) -> None:
    """Has what was written into a part of a file go to the device, and waits for it. Nothing is durable by that: a sync
    comes later. What the device has need not stay in memory."""
    if _sync_file_range is None:
        os.fdatasync(file)
    else:
        _sync_file_range(file, begin, length, WRITE | WAIT_AFTER)
    os.posix_fadvise(file, begin, length, os.POSIX_FADV_DONTNEED)


def rested(work: Callable, *words: object) -> None:
    """Does something, and then nothing for as long as that took."""
    begun = time.monotonic()
    work(*words)
    time.sleep(time.monotonic() - begun)


def held(path: str, folder: Optional[int] = None) -> Optional[int]:
    """A descriptor of a plain file, which keeps its blocks when it loses its name. None if there is no such file."""
    try:
        file = os.open(path, os.O_RDWR | os.O_NOFOLLOW | os.O_NONBLOCK, dir_fd=folder)
    except OSError:
        return None
    if stat.S_ISREG(os.fstat(file).st_mode):
        return file
    os.close(file)
    return None


def let_go(file: Optional[int]) -> None:
    """Closes a file that was held. If it has no name any more, and nobody else has it open, its blocks become free bit
    by bit, beside all other work."""
    if file is None:
        return
    if os.fstat(file).st_nlink:
        os.close(file)
    else:
        threading.Thread(target=_let_go, args=(file,), daemon=True).start()


def _let_go(file: int) -> None:
    try:
        size = os.fstat(file).st_size if is_left_alone(file) else 0
        while size > 0:
            size = max(0, size - STEP)
            rested(os.ftruncate, file, size)
            time.sleep(STEP_SECONDS)
    finally:
        os.close(file)


def is_left_alone(file: int) -> bool:
    """Whether no other process has a file open any more, now or in a moment."""
    for _ in range(CHECKS):
        if has_alone(file):
            return True
        time.sleep(CHECK_SECONDS)
    return False


def has_alone(file: int) -> bool:
    """Whether no other process has a file open: only then a file system lends it for writing. One without a device of
    its own may be on other machines, too, and cannot tell."""
    if os.major(os.fstat(file).st_dev) == 0:
        return False
    try:
        fcntl.fcntl(file, fcntl.F_SETLEASE, fcntl.F_WRLCK)
        fcntl.fcntl(file, fcntl.F_SETLEASE, fcntl.F_UNLCK)
        return True
    except OSError:
        return False
