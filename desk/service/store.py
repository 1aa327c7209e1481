"""The store of a file whose lock the service holds. The program that has it open is started again if it ends."""
import errno
import os
import time
from typing import Callable, Dict, List, Set, Tuple

from altctl import why_unopened
from service.entries import Entries
from service.journal import settle
from service.limits import refusal
from service.locking import is_of_volume, move, written_by
from service.lines import OWN
from service.program import Ended, Program
from service.recent import entries_of
from service.stream import answered

# How often a start that a signal ended is tried.
TRIES = 3
# What a machine may be short of for a moment, and how often and how long a start waits for it.
SHORT = {errno.EAGAIN, errno.EMFILE, errno.ENFILE, errno.ENOMEM}
WAITS, WAIT_SECONDS = 20, 0.25


class Fatal(Exception):
    """The store cannot be used any more, or the journal cannot be written."""


class Store:
    """Between two batches the store holds nothing uncommitted. Its alternative `.service` tells which batch is the last
    one (recent.py). A checkpoint takes no block, so a full store can still be emptied. The alternative is made anew now
    and then, so it keeps no old version of `top` in use for long."""

    def __init__(self, file: str, altctl: str, options: List[str], lock: int, say: Callable[[object], None]):
        self.file, self.altctl, self.lock, self.say = file, altctl, lock, say
        # The descriptor that has the lock. On a volume it is that of the open file that the program writes with.
        self.held = lock
        self.words = [altctl, "serve", "--planners", *options, "--", file]
        self.grows = any(it.startswith("--grow") for it in options)
        self.entries = Entries()
        # The last batch, the one as of which the last stamp is, and what the records tell of those after that.
        self.kept, self.stamped, self.recent = 0, 0, {}
        # How often the program was started.
        self.starts = 0
        self.program = self._start()

    # --- the program ------------------------------------------------------------------------------

    def _start(self) -> Program:
        """Starts the program, and finds out which batch is the last one in the store."""
        try:
            settle(self.lock)
        except OSError as fault:
            raise Fatal(f"it could not be synced: {fault}. The next start shows what the device has") from None
        for _ in range(TRIES):
            self._take_lock_back()
            self.program, self.starts = self._started(), self.starts + 1
            try:
                if not self.program.join():
                    raise Fatal("altctl has no memory for the lines of many planners")
                self._give_lock()
                self._look()
                if OWN not in self.entries.parents:
                    self._begin()
                return self.program
            except Ended:
                status = self.program.end()
                if status >= 0:
                    break
        if status == 2:
            raise Fatal(f"{self.altctl} does not know `serve --planners`: it is of an earlier release")
        reason = why_unopened(self.file, False)
        raise Fatal(f"altctl ended with status {status} at its start" + (f"\n{self.file}: {reason}" if reason else ""))

    def _give_lock(self) -> None:
        """On a volume, moves the lock to the open file that the program writes with."""
        if not is_of_volume(self.lock):
            return
        written = written_by(self.program.process.pid, self.lock)
        if written is None:
            self.say(f"{self.file}: the lock is not on what the program writes with: the system does not let it")
        else:
            self._move_lock(written)

    def _take_lock_back(self) -> None:
        """Has the lock from the program that has ended."""
        if self.held != self.lock:
            written = self.held
            try:
                self._move_lock(self.lock)
            finally:
                self.held = self.lock
                os.close(written)

    def _move_lock(self, to: int) -> None:
        try:
            move(self.held, to)
        except OSError as fault:
            self.program.end(kills=True)
            raise Fatal(f"its lock is lost: {fault.strerror}") from None
        self.held = to

    def _started(self) -> Program:
        for _ in range(WAITS):
            try:
                return Program(self.words, self.lock)
            except OSError as fault:
                reason = fault
                if fault.errno not in SHORT:
                    break
                time.sleep(WAIT_SECONDS)
        raise Fatal(f"altctl cannot be started\n{self.altctl}: {os.strerror(reason.errno)}")

    def _look(self) -> None:
        """Reads the alternatives, and which batch is the last one."""
        self.entries.parents = {name: parent for _, name, parent in self.rows(b"alts")}
        self.kept, self.stamped, self.recent = 0, 0, {}
        if OWN not in self.entries.parents:
            return
        names = [name for _, name in self.rows(b"checks " + OWN)]
        try:
            [self.stamped] = map(int, names)
            self.recent = entries_of(self.rows(b"changes " + OWN), self.stamped)
        except ValueError:
            raise Fatal(f"the alternative {OWN.decode()} is not one that a service has made") from None
        self.kept = max([number for number, _ in self.recent.values()], default=self.stamped)

    def _begin(self) -> None:
        """Makes the service's own alternative."""
        [answers] = answered(self.program, [[b"new %s top" % OWN, b"checkpoint %s 0" % OWN]]).verdicts
        if answers != [b"ok"] * 3:
            self.program.end()
            raise Fatal(f"the alternative {OWN.decode()} cannot be made: {b', '.join(answers or []).decode()}")
        self.entries.parents[OWN] = b"top"

    def reopen(self) -> None:
        """Starts the program again, which drops everything uncommitted."""
        self.program.end(kills=True)
        self._start()

    def end(self) -> int:
        return self.program.end()

    def is_in_place(self) -> bool:
        """Whether the file still has its name."""
        try:
            return os.path.samestat(os.stat(self.file), os.fstat(self.held))
        except OSError:
            return False

    # --- queries ----------------------------------------------------------------------------------

    def rows(self, line: bytes) -> List[Tuple[bytes, ...]]:
        text = bytearray()
        self.program.ask_rows(line, text.extend)
        return [tuple(it.split(b" ")) for it in bytes(text).split(b"\n")[:-2]]

    def checkpoints(self) -> Dict[bytes, Set[bytes]]:
        """The checkpoints of each alternative."""
        return {name: {it for _, it in self.rows(b"checks " + name)} for name in self.entries.parents}


def stopped(count: int) -> List[bytes]:
    return [refusal(99)] * count
