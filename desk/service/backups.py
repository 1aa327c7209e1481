"""Copies of the store in FILE.backups. A copy gets its name only after it has been synced."""
import errno
import os
import re
import shutil
import signal
import stat
import subprocess
import threading
import time
from typing import Callable, Iterable, List, Tuple

from service import pacing
from service.batch import Batch
from service.disk_room import BLOCK, LEFT, MARGIN
from service.durable import give_name
from service.limits import SMALL_LINES, refusal
from service.program import Ended
from service.store import Store

NAME = re.compile(rb"[A-Za-z0-9_][A-Za-z0-9_.-]{0,31}")
# The name of a copy that is not complete: of which backup, and by which process. `altctl copy` makes it under a name of
# its own, with `.part` behind that.
PART = re.compile(r"\.[A-Za-z0-9_][A-Za-z0-9_.-]{0,31}\.[0-9]+\.part(\.part)?")
# Once the second program has read this much of the store, it has read the slot.
READ_BYTES = 64 << 10
# The status of a program whose device failed.
STOPPED = 3
# How a program is started that signals to the service do not reach. What it says is little.
QUIETLY = {"stdin": subprocess.DEVNULL, "stdout": subprocess.DEVNULL, "stderr": subprocess.PIPE}
QUIETLY["start_new_session"] = True
# How often a copy is made beside batches before they have to wait for it.
TRIES = 2
# How much work a group may be then.
LAST_WORK = SMALL_LINES


class Backups:
    def __init__(self, store: Store):
        self.store, self.folder, self.has_copy = store, f"{store.file}.backups", True
        self._remove_parts()

    def _remove_parts(self) -> None:
        """Removes what a service has left that was killed during a backup, and nothing else."""
        try:
            folder = os.open(self.folder, os.O_RDONLY | os.O_DIRECTORY | os.O_NOFOLLOW)
        except OSError:
            return  # There is none, or it is elsewhere: what others put there is not touched.
        try:
            for name in os.listdir(folder):
                if PART.fullmatch(name) and stat.S_ISREG(os.stat(name, dir_fd=folder, follow_symlinks=False).st_mode):
                    file = pacing.held(name, folder)
                    os.unlink(name, dir_fd=folder)
                    pacing.let_go(file)
        finally:
            os.close(folder)

    def begin(self, name: str) -> "Copy":
        """Begins a backup beside the batches."""
        os.makedirs(self.folder, mode=0o700, exist_ok=True)
        return Copy(self.store, f"{self.folder}/.{name}.{os.getpid()}.part", f"{self.folder}/{name}")

    def copy_alone(self, part: str) -> None:
        """Copies while nothing else is done: by the program if it can, under the lock that is held here, else the file
        as it is, which holds nothing uncommitted."""
        file, said = self.store.file, ""
        if self.has_copy:
            status, said = quietly([self.store.altctl, "copy", "--no-lock", "--", file, part])
            self.has_copy = status != 2
            if status == 0:
                return
        if not self.has_copy:
            status, said = quietly(["cp", "--reflink=auto", "--", file, part])
        if self.has_copy or status:
            raise OSError(errno.EIO, said or f"the copy ended with status {status}")


class Copy:
    """A backup that is made while batches go on. A second program reads the committed state that it found at its start.

    That is safe as long as no block of that state is written again. A commit writes only free blocks and the slot that
    is not in use, so one commit may come before the second program has read the slot. Blocks become free only when the
    program marks, and that it does for a line `reclaim`, or if fewer than 17 blocks are free for each record that is to
    change. So it marks before a copy, and the free blocks are watched: if there may have been too few, the copy is made
    again. In the last try batches wait for it instead, each a little: of the free blocks no more are used than the copy
    has made progress."""

    def __init__(self, store: Store, part: str, name: str):
        self.store, self.part, self.name, self.begun, self.tries = store, part, name, time.monotonic(), 0
        self.begin()

    def begin(self) -> None:
        """Starts the second program. `end` can be read once that has ended, and what it has made is durable."""
        if not self.store.is_in_place():
            raise OSError(errno.ESTALE, "another file has the name of the store")
        self.free, self.commits, self.is_spoiled, self.starts = marked(self.store), 0, False, self.store.starts
        if self.tries == 0:  # Later the disk may not have back yet what an earlier try took.
            look_for_room(self.part, os.fstat(self.store.lock).st_size // BLOCK - self.free)
        self.is_last, self.spare = self.tries >= TRIES, self.free
        # How much the second program had read when it had opened the store, and whether it has read the slot.
        self.before, self.is_open = None, False
        self.size, self.fault, self.said, self.tries = 0, None, "", self.tries + 1
        self.end, ended = os.pipe()
        try:
            self.process = subprocess.Popen(at_end_killed(self._words()), **QUIETLY)
            program = os.pidfd_open(self.process.pid)
        except OSError:
            os.close(self.end)
            os.close(ended)
            raise
        self.thread = threading.Thread(target=self._follow, args=(program, ended), daemon=True)
        self.thread.start()

    def _words(self) -> List[str]:
        return [self.store.altctl, "copy", "--no-lock", "--", self.store.file, self.part]

    def _follow(self, program: int, ended: int) -> None:
        """Has the second program hold up nobody, and syncs the copy, so that no other work waits for that."""
        try:
            pacing.pace(program, names_of(self.part), lambda: pacing.written_by(self.process.pid))
            with self.process.stderr as stream:
                self.said = text_of(stream.read())
            self.size = synced(self.part)
        except OSError as fault:
            self.fault = fault
        finally:
            os.close(program)
            os.close(ended)

    def may_commit(self) -> bool:
        """Whether a group of batches may be carried out now."""
        has_ended = self.process.poll() is not None
        is_read = self.commits == 0 or self.is_open or self._has_read_slot()
        return has_ended or is_read and (not self.is_last or self._has_blocks())

    def admits(self, batch: Batch) -> bool:
        """Whether a batch may be in that group. Beside the last try that is no large one, and none that may mark."""
        marks = (b"merge", b"reclaim")
        return not self.is_last or batch.is_small() and all(it.split(b" ", 1)[0] not in marks for it in batch.lines)

    def work(self, work: int) -> int:
        """How much work that group may be."""
        return min(work, LAST_WORK) if self.is_last else work

    def _has_blocks(self) -> bool:
        """Whether enough blocks are free for a group, and for others until the copy is whole. The last batch of a group
        may have as many lines as all before it, and the service as many records."""
        least = MARGIN + 2 * MARGIN * (4 * LAST_WORK + 1)
        return self.free - least >= max(0, self.spare - least) * (1 - self._progress())

    def _progress(self) -> float:
        """How much of its work the second program has done at least: it reads the blocks, reads them again, and writes
        them."""
        done = pacing.transferred(self.process.pid)
        return min(1.0, done / (3 * os.fstat(self.store.lock).st_size))

    def _has_read_slot(self) -> bool:
        # It makes its file only after it has read the whole tree of blocks.
        self.is_open = any(map(os.path.lexists, names_of(self.part)))
        if self.is_open:
            return True
        process, store = f"/proc/{self.process.pid}", os.fstat(self.store.lock)
        try:
            with open(f"{process}/io") as file:
                count = int(file.readline().split()[1])
            if self.before is None:
                files = [os.stat(f"{process}/fd/{it}") for it in os.listdir(f"{process}/fd")]
                self.before = count if any(os.path.samestat(store, it) for it in files) else None
        except (OSError, IndexError):
            return False
        self.is_open = self.before is not None and count - self.before > READ_BYTES
        return self.is_open

    def note(self, batches: Iterable[Batch], commits: int) -> None:
        """Notes that batches were carried out, by so many commits: those that could not share one have one each."""
        self.is_spoiled = self.is_spoiled or self.commits == 0 and commits > 1 and not self.is_open
        self.commits += commits
        changed = 0
        for batch in batches:
            changed += batch.own
            for line, answer in zip(batch.lines, batch.answers or []):
                verb = line.split(b" ", 1)[0]
                changed += int(answer.split()[1]) if verb == b"merge" and answer.startswith(b"ok ") else 1
                self.is_spoiled = self.is_spoiled or verb == b"reclaim"
            # Of a refused batch it is not known here how far it came.
            changed += batch.count if batch.answers is None else 0
            self.is_spoiled = self.is_spoiled or batch.answers is None and batch.may_merge
        # Each change took up to 17, and the last one may have looked for as many for all of them.
        self.is_spoiled = self.is_spoiled or self.free - 2 * MARGIN * (changed + 1) < MARGIN
        self.free = free_blocks(self.store)

    def is_to_be_made_again(self) -> bool:
        """Whether the copy may be none of a state that was committed, and is to be made beside batches once more."""
        status = self.process.wait()
        return status != STOPPED and not self.is_last and self._is_worthless(status)

    def _is_worthless(self, status: int) -> bool:
        # The opening of a program that was started again has marked.
        return bool(status) or self.is_spoiled or self.store.starts != self.starts

    def begin_again(self) -> "Copy":
        self._close()
        remove_copy(self.part)
        self.begin()
        return self

    def finish(self, copy_alone: Callable[[str], None]) -> bytes:
        """Gives the copy its name once it is whole, and returns the answer to the line that asked for it."""
        try:
            self._close()
            status = self.process.wait()
            if status == STOPPED:
                raise OSError(errno.EIO, f"a device failed, or there is no space\n{self.said}".strip())
            if self._is_worthless(status):
                remove_copy(self.part)
                copy_alone(self.part)
                self.size = synced(self.part)
            elif self.fault is not None:
                raise self.fault
            self._name()
        except OSError as fault:
            self.fault = fault
            remove_copy(self.part)
            return refused(fault)
        self.fault = None
        return b"ok %d %.3f" % (self.size, time.monotonic() - self.begun)

    def _name(self) -> None:
        """Gives the copy its name."""
        earlier = pacing.held(self.name)
        try:
            give_name(self.part, self.name)
        finally:
            pacing.let_go(earlier)

    def _close(self) -> None:
        self.thread.join()
        os.close(self.end)

    def stop(self) -> None:
        """Gives it up."""
        os.killpg(self.process.pid, signal.SIGKILL)
        self.process.wait()
        self._close()
        remove_copy(self.part)


def at_end_killed(words: List[str]) -> List[str]:
    """The words of a program that ends with the service, however that ends: it may stand still just then."""
    setpriv = shutil.which("setpriv")
    return ([setpriv, "--pdeathsig", "KILL", "--"] if setpriv else []) + words


def marked(store: Store) -> int:
    """Has the program mark, and returns the number of free blocks: all that are spare."""
    try:
        store.program.ask([b"reclaim"])
        return free_blocks(store)
    except Ended as ended:
        raise OSError(errno.EIO, str(ended)) from None


def look_for_room(part: str, blocks: int) -> None:
    """Raises OSError if a disk has no room for a copy of so many blocks: it would take what others need meanwhile."""
    found = os.statvfs(os.path.dirname(part))
    if found.f_bavail * found.f_frsize < blocks * BLOCK + LEFT:
        raise OSError(errno.ENOSPC, "the disk has no room for the blocks in use")


def free_blocks(store: Store) -> int:
    """The number of free blocks."""
    [answer] = store.program.ask([b"free"])
    return int(answer.split()[1]) if answer.startswith(b"free ") else 0


def names_of(part: str) -> List[str]:
    """The names that a copy may have: the one that `altctl copy` makes it under, and its own."""
    return [f"{part}.part", part]


def remove_copy(part: str) -> None:
    """Removes a copy, under each name that it may have."""
    for name in names_of(part):
        if os.path.lexists(name):
            file = pacing.held(name)
            os.unlink(name)
            pacing.let_go(file)


def refused(fault: OSError) -> bytes:
    return refusal(98, errno.errorcode.get(fault.errno, "EIO"))


def quietly(words: List[str]) -> Tuple[int, str]:
    """Runs a command that signals to the service do not reach, and returns its status and what it said."""
    ran = subprocess.run(words, **QUIETLY)
    return ran.returncode, text_of(ran.stderr)


def text_of(said: bytes) -> str:
    return said.decode(errors="replace").strip()


def synced(path: str) -> int:
    """Syncs a file, and returns its size."""
    file = os.open(path, os.O_RDONLY)
    try:
        os.fsync(file)
        return os.fstat(file).st_size
    finally:
        os.close(file)
