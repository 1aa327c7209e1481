"""The field office, if the desk's store is a clone: what its designs have ahead of HEAD and behind it, and pull and
push, which `carry` does. HEAD may be far away and silent for long, so nothing here runs in the thread that asks the
store for the page."""
import asyncio
import contextlib
import threading
from typing import List, NamedTuple

from altctl import Ended, Refusal
from carry import names, pulling, pushing, status
from carry.links import Fault, Link
from carry.pair import Pair, told
from carry.status import STATES

LOOK_SECONDS = 0.3  # between two looks whether a batch has come
STEPS = {"pull": pulling.pull, "push": pushing.push}
# What is said if a step says nothing itself.
SILENT = {"look": "This is what HEAD has now.", "pull": "HEAD has nothing new.", "push": "HEAD has all of it."}
SILENCE = (
    "The link to HEAD broke, or there is none: what came there is unknown. Do it again once the link is there. Nothing "
    "is done twice."
)
NOT_ASKED = "What came at HEAD is not known yet: look, or pull."
IN_USE = "HEAD is a file that another program works on just now. Do it again once that has ended."
GONE = "The service of this desk is gone. Do it again once it is back: nothing is done twice."
# What is told to the person who pressed.
TOLD = Fault, Refusal, OSError, Ended


class Outcome(NamedTuple):
    """What a step has said, whether it was refused or broke off, and the designs that it made for changes of both sides
    that do not fit: a person settles them."""

    said: List[str]
    is_fault: bool
    beside: List[str]


class Office:
    """`version` rises with all that pages show, and `changed` is called then."""

    def __init__(self, path, program, changed):
        self.path, self.program, self.changed, self.turn = path, program, changed, None
        self.name, self.head, self.running, self.version, self.tokens = None, None, None, 0, None
        self.rows, self.outcome = [], Outcome([NOT_ASKED], False, [])

    def told(self):
        """What pages show: nothing if the store is no clone."""
        if self.name is None:
            return None
        its = {"version": self.version, "name": self.name, "head": self.head, "running": self.running}
        return {**its, "designs": [it._asdict() for it in self.rows], **self.outcome._asdict()}

    def _tell(self):
        if self.name is not None:
            self.version += 1
            self.changed()

    async def carry_out(self, do, designs):
        """Looks at HEAD, pulls or pushes. While something runs already, nothing else is begun."""
        if do not in SILENT or not all(isinstance(it, str) for it in designs):
            raise ValueError(do)
        if self.running is None and self.name is not None:
            self.running = do
            self._tell()
            try:
                async with self.turn:
                    await in_thread(self._step, do, designs)
            finally:
                self.running = None
                self._tell()
        return self.told()

    async def follow(self, batch_of):
        """If the store is a clone, looks after each batch at what is ahead here. HEAD is not asked before a person
        wants that: whoever made the store has put its address there."""
        self.turn, seen = asyncio.Lock(), None
        while seen is None or self.name is not None:
            batch = batch_of()
            with contextlib.suppress(*TOLD):  # The service is gone: this goes on once it is back.
                if batch not in (None, seen) and not self.turn.locked():
                    async with self.turn:
                        await in_thread(self._find if self.name is None else self._look_here)
                    seen = batch
                    self._tell()
            await asyncio.sleep(LOOK_SECONDS)

    # --- in a thread --------------------------------------------------------------------------------

    def _find(self):
        with Link(self.path) as clone, contextlib.suppress(Fault):  # It is no clone.
            name, settings = names.settings_of(clone.store)
            self.tokens, self.rows = names.read_names(clone.store, name).tokens, status.offline(clone)
            self.name, self.head = name, settings["head"]

    def _step(self, do, designs):
        said, faults, beside = [], [], []
        try:
            with Link(self.path) as clone:
                try:
                    with Link(self.head, self.program) as head:
                        if do in STEPS:
                            self._carry(do, designs, Pair(clone, head, said.append), faults, beside)
                        self.rows = status.status(clone, head, said.append)
                except TOLD as fault:
                    faults.append(plain(fault))
                    self.rows = status.offline(clone)
                self.tokens = names.read_names(clone.store, self.name).tokens
        except TOLD as fault:
            faults = [plain(fault) if isinstance(fault, (Fault, Refusal)) else GONE]
        if do == "look":
            beside = self.outcome.beside
        said += dict.fromkeys(faults)
        self.outcome = Outcome(said or [SILENT[do]], bool(faults), beside)

    @staticmethod
    def _carry(do, designs, pair, faults, beside):
        """Pulls or pushes. What is refused then has changed nothing, so both sides can be looked at."""
        try:
            STEPS[do](pair, designs)
        except (Fault, Refusal) as fault:
            faults.append(plain(fault))
        beside += pair.beside

    def _look_here(self):
        """What is ahead after a batch. What is behind stays, unless the clone was pulled or pushed from elsewhere."""
        with Link(self.path) as clone:
            tokens = names.read_names(clone.store, self.name).tokens
            known = {it.design: it for it in self.rows} if tokens == self.tokens else {}
            here = status.offline(clone)
        self.tokens, designs = tokens, {it.design for it in here}
        only_there = [it for it in known.values() if it.state == "only at HEAD" and it.design not in designs]
        self.rows = [renewed(it, known.get(it.design)) for it in here] + only_there


def renewed(here, known):
    """A row with what is ahead now, and with what was behind at the last look."""
    if known is None or known.behind is None or here.ahead is None:
        return here if known is None or known.state != "dropped at HEAD" else known
    return known._replace(ahead=here.ahead, state=STATES[bool(here.ahead), bool(known.behind)])


def plain(fault):
    """What broke off a step, or refused it, as people read it."""
    if isinstance(fault, Fault):
        return str(fault)
    if isinstance(fault, Refusal):
        return told(fault, "One of the two stores")
    return IN_USE if isinstance(fault, BlockingIOError) else SILENCE


async def in_thread(work, *words):
    """Has something done in a thread that the end of the desk does not wait for: what is interrupted is done whole, or
    not at all."""
    loop = asyncio.get_running_loop()
    done = loop.create_future()

    def finish(set_outcome, outcome):
        if not done.done():
            set_outcome(outcome)

    def run():
        try:
            outcome = done.set_result, work(*words)
        except Exception as fault:
            outcome = done.set_exception, fault
        with contextlib.suppress(RuntimeError):  # The desk has ended meanwhile.
            loop.call_soon_threadsafe(finish, *outcome)

    threading.Thread(target=run, daemon=True).start()
    return await done
