"""The lock of the store's file, which the service holds itself: it outlives a program that ends and is started
again."""
import contextlib
import fcntl
import os
import time

from service.limits import LOCK_SECONDS

# The number of the system call, for which Python has no name; it is the same on all machines.
PIDFD_GETFD = 438


def locked(file):
    """A descriptor of the file, which holds its lock. Its number is none of the standard streams', also where one of
    these is closed: in the program the number would be a pipe's, and the lock gone with it."""
    found = os.open(file, os.O_RDONLY | os.O_NONBLOCK)
    try:
        lock = fcntl.fcntl(found, fcntl.F_DUPFD_CLOEXEC, 3)
    finally:
        os.close(found)
    try:
        fcntl.flock(lock, fcntl.LOCK_EX | fcntl.LOCK_NB)
    except BaseException:
        os.close(lock)
        raise
    return lock


def file_system_of(file):
    """The kind of the file system of an open file, or "" if that is not to be seen."""
    device = os.fstat(file).st_dev
    name = f"{os.major(device)}:{os.minor(device)}"
    with contextlib.suppress(OSError, IndexError), open("/proc/self/mountinfo", encoding="utf-8") as mounts:
        return next((it.split(" - ")[1].split()[0] for it in mounts if it.split()[2] == name), "")
    return ""


def is_of_volume(file):
    """Whether an open file may be one of a replicated volume, as GlusterFS has them. Such a volume may drop the lock of
    a machine that it does not hear of, as of one that is halted. It refuses then what is written with the open file
    that had the lock, and takes what is written with another one."""
    return file_system_of(file).startswith("fuse")


def lock_on_volume(file):
    """Locks an open file of a volume. The lock of a service on another machine may last a moment longer than that of
    its store."""
    late = time.monotonic() + LOCK_SECONDS
    while is_of_volume(file):
        try:
            fcntl.flock(file, fcntl.LOCK_EX | fcntl.LOCK_NB)
            return
        except BlockingIOError:
            if time.monotonic() > late:
                raise
            time.sleep(0.05)


def move(lock, to):
    """Moves the lock from one open file to another one of the same file. Raises BlockingIOError if somebody else has
    taken it meanwhile."""
    fcntl.flock(lock, fcntl.LOCK_UN)
    fcntl.flock(to, fcntl.LOCK_EX | fcntl.LOCK_NB)


def written_by(process, file):
    """A descriptor of the open file that a process writes this file with, or None if the system gives none."""
    folder, its = f"/proc/{process}", os.fstat(file)
    with contextlib.suppress(ImportError, MemoryError, AttributeError, OSError, ValueError, StopIteration):
        import ctypes

        number = next(it for it in os.listdir(f"{folder}/fd") if is_written(folder, it, its))
        pidfd = os.pidfd_open(process)
        try:
            found = ctypes.CDLL(None, use_errno=True).syscall(PIDFD_GETFD, pidfd, int(number), 0)
        finally:
            os.close(pidfd)
        return found if found >= 0 else None
    return None


def is_written(folder, number, its):
    """Whether a descriptor of a process is of this file, and may be written with."""
    if not os.path.samestat(os.stat(f"{folder}/fd/{number}"), its):
        return False
    with open(f"{folder}/fdinfo/{number}", encoding="ascii") as told:
        flags = next(int(it.split()[1], 8) for it in told if it.startswith("flags:"))
    return flags & os.O_ACCMODE != os.O_RDONLY
