"""Batches of lines over one store. Each takes effect as a whole or not at all, and is durable before it is answered.
Batches that wait together share a commit: the program decides which of them are committed."""
import contextlib
import errno
import os
import time
import weakref
from typing import Callable, Iterable, Iterator, List, Optional, Sequence, Tuple

from service.archives import archived, refused, remove_parts
from service.batch import Batch, refused_place
from service.disk_room import MARGIN, ROOM
from service.entries import Entries, remembered
from service.group_room import GroupRoom
from service.journal import Broken, Journal, head_of, now, parts_of
from service.journal_log import Log
from service.last_changes import LastChanges, independent
from service.limits import refusal
from service.program import Ended
from service.recent import stamp_of
from service.rules import Rules
from service.sending import Sent, carried_out, is_made, sent_of
from service.status import SLOW_SECONDS, Commits, Room, Teller
from service.store import Fatal, Store, stopped

# Which part of the store's blocks may be taken between two stamps.
HELD = 16
# How often a batch is tried by itself after the program ended at it.
TRIES = 3
FULL, BAD, UNSURE = b"error 13 Full", b"error 22 ", b"error 101 "
# So many bytes more may a batch have in the journal than is known before it is carried out, and so many seconds may a
# line of it take.
MORE, LINE_SECONDS = 64, 1e-4


class Batches:
    """The store with its journal, and the rules in force."""

    def __init__(self, store: Store, rules: Rules, say: Callable[[object], None]):
        self.store, self.rules, self.say = store, rules, say
        self.path = f"{store.file}.journal"
        remove_parts(store.file)
        self.journal = Journal(self.path, say)
        if store.kept >= self.journal.next + len(store.recent):
            found = self.journal.next - 1
            say(f"{self.path} ends at batch {found}, and the store holds batch {store.kept}: it goes on after that")
        self.journal.mend(store.stamped, store.recent.values())
        self.journal.opened(store.kept)
        self.log = Log(self.path, writes=True)
        self.owners = f"{store.file}.owners"
        self._find_makers()
        self.changes = -1
        self.last_changes = LastChanges(store.kept)
        # The number of the last record. Whether something was committed since the last stamp, how many blocks were
        # taken, and whether the next group is to begin with one.
        self.key, self.is_stale, self.is_due = max(store.recent, default=0), bool(store.recent), bool(store.recent)
        self.taken = 0
        self.commits, self.room, self.teller = Commits(), Room(), Teller(say)
        self.group_room, self.is_archiving = GroupRoom(store, self.ask), False

    # --- who made which alternative ---------------------------------------------------------------

    def _find_makers(self) -> None:
        """Finds out who made the alternatives and checkpoints: from the file that the last service wrote, and the
        journal since."""
        entries = remembered(self.owners, self.log, self.store.kept)
        entries.parents = self.store.entries.parents
        entries.forget_missing(self.store.checkpoints())
        self.store.entries = entries

    def save(self) -> None:
        """Writes down who made the alternatives, if that has changed."""
        changes = self.store.entries.changes
        if changes != self.changes:
            try:
                self.store.entries.save(self.owners, self.store.kept)
                self.changes = changes
            except OSError:
                pass  # There is no space: it is tried again.

    # --- old entries of the journal ---------------------------------------------------------------

    def archive(self, name: str, until: str) -> Iterator[bytes]:
        """Moves the entries up to a moment into an archive, in parts as an answer to `log`. The last one is the
        answer."""
        if self.is_archiving:
            yield refused(OSError(errno.EBUSY, "another one is under way"))
            return
        self.is_archiving = True
        try:
            self.save()
            if self.changes != self.store.entries.changes:
                raise OSError(errno.ENOSPC, "who made what cannot be written down")
            for part in archived(self.journal, self.store.file, name, until):
                if part:
                    self._read_anew()
                    self.say(f"{self.path}: archived as {name}: {part.decode().strip()}")
                yield part
        except OSError as fault:
            yield refused(fault)
        except Broken as fault:
            raise Fatal(f"{self.path}: {fault}") from None
        finally:
            self.is_archiving = False

    def _read_anew(self) -> None:
        """Reads the journal that has taken the place of the old one. Answers that are under way go on with the old
        one."""
        weakref.finalize(self.log, os.close, self.log.file)
        weakref.finalize(self.log, self.log.index.close)
        with contextlib.suppress(FileNotFoundError):
            os.unlink(f"{self.path}.index")
        self.log = Log(self.path, writes=True)

    def end(self) -> int:
        status = self.store.end()
        self.group_room.disk.close()
        self.save()
        self.journal.close()
        self.log.close()
        return status

    # --- queries ----------------------------------------------------------------------------------

    def ask(self, lines: List[bytes]) -> List[bytes]:
        """The answers to queries that are answered with one line each."""
        for _ in range(TRIES if lines else 0):
            try:
                return self.store.program.ask(lines)
            except Ended:
                self._reopen()
        return stopped(len(lines))

    def ask_rows(self, line: bytes, take: Callable[[bytes], object]) -> bool:
        """Passes the answer to a query on as it comes. Returns False if the program ended in the middle of it."""
        try:
            self.store.program.ask_rows(line, take)
            return True
        except Ended:
            self._reopen()
            return False

    def look_at_room(self) -> None:
        """Asks how many blocks there are."""
        answers = self.ask([*ROOM])
        if all(it.split()[0] in ROOM for it in answers):
            self.room.note(time.monotonic(), *(int(it.split()[1]) for it in answers))

    # --- batches ----------------------------------------------------------------------------------

    def carry_out(self, batches: List[Batch]) -> None:
        """Carries out batches and commits them, as many together as may be. All of them are settled then, even if it
        raises Fatal."""
        try:
            for it in batches:
                if it.rules is not self.rules:
                    self._look_at_rights(it)
            # The first of a group is refused without others being carried out again.
            waiting = sorted(open_ones(batches), key=lambda it: not it.is_doubtful)
            while waiting:
                for it in waiting:
                    if it.seen:
                        self.look_at_changes(it)
                group = self._group_of(open_ones(waiting))
                if group:
                    self._carry_out(group)
                # What has found no room comes after what others have to do.
                late = {it.source for it in waiting if it.is_alone and not it.is_told_first}
                waiting = sorted(open_ones(waiting), key=lambda it: it.source in late)
        except Fatal:
            for it in batches:
                it.refuse_if_open(refusal(99))
            raise

    def _look_at_rights(self, batch: Batch) -> None:
        """Refuses a batch whose planner no longer has a right that it needs."""
        for place, line in enumerate(batch.lines):
            refused = self.rules.refusal_of(batch.person, line.split(b" ", 3), {})
            if refused is not None:
                batch.refuse(place, refused)
                return

    def look_at_changes(self, batch: Batch) -> None:
        """Refuses a batch if an alternative has changed since its planner saw it."""
        refused = self.last_changes.refusal_of(batch, self.store.kept)
        if refused is not None:
            batch.refuse_if_open(refused)

    # --- groups -----------------------------------------------------------------------------------

    def _group_of(self, waiting: List[Batch]) -> List[Sent]:
        """The next batches that are carried out together; none if the first one is refused. What they need is judged by
        the alternatives that there are, so one that makes or removes some is the last."""
        group: List[Sent] = []
        sources, late, changes, at, entries = set(), set(), 0, now(), self.store.entries.copy()
        for batch in independent(waiting, self.store.entries.parents):
            is_late = batch.source in late or bool(group) and batch.is_alone
            if not is_late:
                sent = self._sent(batch, at, entries)
                changes += sent.effect.records + batch.own
                # Where blocks may be wanting, one may be tried again, and what its planner sent after it has to wait.
                is_scarce = batch.source in sources and (
                    sent.effect.merges or self.group_room.known().free <= MARGIN * (2 * changes + 3)
                )
                is_late = bool(group) and (batch.is_alone or sent.due is not None) or is_scarce
            if is_late:
                late.add(batch.source)
                entries = self.store.entries.copy()
                continue
            group.append(sent)
            sources.add(batch.source)
            if sent.effect.makes or batch.is_alone or sent.due:
                break
        return self._with_room(group) if group else group

    def _sent(self, batch: Batch, at: str, entries: Entries) -> Sent:
        """What is sent of a batch, which changes these."""
        sent = sent_of(batch, at, entries, self.rules, self.journal.next, self.key + 1)
        self.key = max(self.key, sent.key)
        return sent

    def _with_room(self, group: List[Sent]) -> List[Sent]:
        """A group, if the disk has room for the blocks that it may take, or else the first batch of it, perhaps without
        a record; none if that is refused for want of room."""
        room, batch = self.group_room, group[0].batch
        if room.lacking(group) is None:
            return group
        fault = room.lacking(group[:1], marks=True)
        if fault is None:
            return group[:1]
        batch.own, own = 0, batch.own
        if own and room.lacking(group[:1]) is None:
            batch.is_told_first = batch.is_alone = True
            return [self._sent(batch, "", self.store.entries.copy())]
        why, who = os.strerror(getattr(errno, fault)), batch.person.name
        self.teller.tell("no room", f"{self.store.file}: no room on the disk for a change of {who}: {why}")
        self.commits.refused += 1
        batch.refuse(batch.count, refusal(105, fault))
        return []

    def _carry_out(self, group: List[Sent]) -> None:
        """Has a group carried out, and takes in what came of it."""
        self._look_at_files()
        if not self._is_told(group):
            return
        stamps, begun = [stamp_of(self.store.kept)] if self._may_stamp(group) else [], time.monotonic()
        came = carried_out(self.store.program, group, stamps)
        seconds = time.monotonic() - begun
        if came.is_stamped:
            self.is_stale, self.taken = False, 0
        self._note_uses(came.room)
        done = [(sent, it) for sent, it in zip(group, came.verdicts) if is_made(it)]
        self._take(done)
        if group:
            self._note(done, came.commits, seconds)
        faults = {}
        for place, (sent, answers) in enumerate(zip(group, came.verdicts)):
            if answers is not None and sent.batch.answers is None:
                faults[answers[refused_place(answers)]] = None
                self._refuse(sent, answers, group[place + 1 :], len(group) > 1)
        if any(it.startswith(UNSURE) for it in faults):
            # The system may show what the device does not have, so nothing is looked up now.
            raise Fatal("the device failed at a commit. The next start shows what it has")
        if not came.room or None in came.verdicts:
            self._go_on([it for it in group if not it.batch.is_settled()], came.is_sent, [*faults][-1:])
        elif group and group[0].is_first_told() and not done:
            self._opened()  # The file has a batch now that the store does not have.

    def _note_uses(self, room: List[bytes]) -> None:
        """Notes how many blocks there are. A stamp is due before those that the store holds for it are many."""
        uses, before = self.group_room.uses, self.group_room.uses.used
        uses.note(room)
        # A marking hides how many were taken.
        self.taken += uses.used - before if uses.used >= before else uses.blocks
        self.is_due = self.is_due or self.taken > uses.blocks // HELD

    def _is_told(self, group: List[Sent]) -> bool:
        """Has the journal tell a batch that is told first, or have room for the lines of a group. If it has none, all
        are refused."""
        try:
            if group and group[0].is_first_told():
                [(batch, _, effect, *_)] = group
                parts = parts_of(self.journal.next, head_of(now(), batch, effect.touched), effect.records, batch)
                self._synced(lambda: self.journal.write(parts, self.journal.next))
            else:
                entries = [it.entry for it in group if it.entry is not None]
                self.journal.make_room(sum([MORE + len(it.head) + len(it.tail) for it in entries]))
            return True
        except Fatal:
            refuse_all(group, refusal(97, "EIO"))
            raise
        except OSError as fault:
            if group:
                self.teller.tell("not journaled", f"{self.path}: {os.strerror(fault.errno)}")
            refuse_all(group, refusal(97, errno.errorcode[fault.errno]))
            return False

    # --- stamps -----------------------------------------------------------------------------------

    def _may_stamp(self, group: List[Sent]) -> bool:
        """Whether a group begins with a stamp. If so, the file surely tells all that the store's records do."""
        if not (self.is_due and self.is_stale) or self.journal.unwritten or group and group[0].is_first_told():
            return False
        self.is_due = False
        self._synced(self.journal.sync)
        return True

    def refresh(self) -> None:
        """Has the store forget the entries that the file has, unless one of the two is not in its place any more."""
        self.is_due = self.is_stale
        if self.is_due and self.store.is_in_place() and self.journal.is_in_place():
            self._carry_out([])

    def tick(self, may_commit: bool) -> None:
        """A while after a commit the next group begins with a stamp. If none comes, there is one by itself."""
        if self.is_due and may_commit:
            self.refresh()
        self.is_due = self.is_stale

    def _synced(self, work: Callable[[], None]) -> None:
        """Does what syncs the journal."""
        try:
            work()
        except Broken as fault:
            raise Fatal(f"{self.path}: {fault}") from None
        self.commits.sync_seconds += self.journal.sync_seconds

    # --- what came of a group ---------------------------------------------------------------------

    def _take(self, done: Sequence[Tuple[Sent, List[bytes]]]) -> None:
        """Takes in what is in the store now, and writes it into the journal."""
        text = bytearray()
        for sent, answers in done:
            batch, effect, number = sent.batch, sent.effect, self.journal.next
            batch.answers = answers[: len(batch.lines)]
            if sent.entry is not None:
                merged = sum([int(it[3:]) for it in batch.answers if len(it) > 2]) if effect.merges else 0
                text += sent.entry.line(number, effect.records + merged)
                self.journal.next += 1
            else:
                number -= 1
            self.is_stale, self.store.kept = sent.entry is not None, number
            self.store.entries = sent.entries if effect.makes else self.store.entries
            self.last_changes.note(number, effect.touched)
        fault = self.journal.note(b'%s{"done":%d}\n' % (text, self.store.kept)) if done else None
        if fault is not None:
            self.say(f"{self.path}: {fault}: until there is space, it does not tell batch {self.store.kept}")

    def _note(self, done: Sequence[Tuple[Sent, List[bytes]]], commits: int, seconds: float) -> None:
        if commits:
            self.commits.note(time.monotonic(), commits, len(done), seconds)
        if seconds > SLOW_SECONDS + LINE_SECONDS * sum([len(it.lines) for it, _ in done]):
            self.teller.tell("slow commit", f"batch {self.store.kept} took {seconds:.3f} s")

    def _refuse(self, sent: Sent, answers: List[bytes], later: List[Sent], has_others: bool) -> None:
        """Refuses a batch; or leaves it open if it is of use to try it otherwise, and nothing that its planner sent
        later was carried out."""
        batch, place = sent.batch, refused_place(answers)
        answer, batch.has_disturbed = answers[place], batch.has_disturbed or has_others
        may_wait = not any(it.batch.source is batch.source and it.batch.answers is not None for it in later)
        if sent.due is not None:
            place, answer = sent.due[1:] if place >= sent.due[0] else (place, answer)
        elif place == len(sent.lines):
            pass  # The commit failed.
        elif place >= len(batch.lines) and sent.key and may_wait:
            # There was no room for its record.
            batch.is_told_first = batch.is_alone = True
            return
        elif answer == FULL and not batch.is_alone and (self.is_stale or has_others) and may_wait:
            # By itself it may find room: what the store holds for others is free only after a commit.
            batch.is_alone = self.is_due = True
            return
        elif answer.startswith(BAD) and place:
            # It was not carried out, so an earlier line may be refused.
            batch.due = place, place, answer
            return
        if answer == FULL:
            self.teller.tell("full", f"{self.store.file} has no block for a change of {batch.person.name}")
        self.commits.refused += 1
        batch.refuse(min(place, batch.count), answer)

    def _go_on(self, waiting: List[Sent], is_sent: bool, faults: List[bytes]) -> None:
        """Starts the program again, which has ended. The store tells which batches were committed. Any of the others
        may be the reason, so they are tried one by one."""
        try:
            self._start_again()
        except Fatal:
            refuse_all(waiting if is_sent else (), refusal(101))
            raise
        last, store = self.journal.next - 1, self.store
        done = [it for it in waiting if it.key in store.recent or it.is_first_told() and store.stamped == last]
        self._take([(it, [b"ok"] * len(it.batch.lines)) for it in done])
        # What their merges were answered is not known.
        refuse_all([it for it in done if it.effect.merges], refusal(101))
        for batch in open_ones([it.batch for it in waiting]):
            batch.is_alone, batch.tries = True, batch.tries + (len(waiting) == 1)
            if batch.tries == TRIES:
                batch.refuse(batch.count, refusal(99))
        self._opened(faults)

    def _reopen(self) -> None:
        """Starts the program again between two groups."""
        self._start_again()
        self._opened([])

    def _start_again(self) -> None:
        self.store.reopen()
        self.group_room.uses.is_known, self.is_stale = False, bool(self.store.recent)

    def _opened(self, faults: Optional[List[bytes]] = None) -> None:
        """Journals which batches are in the store, perhaps after a start of the program."""
        self._synced(lambda: self.journal.opened(self.store.kept))
        if faults is not None:
            last = faults[0].decode() if faults else "without a refusal"
            self.teller.tell("altctl ended", f"{last}; it was started again, after batch {self.store.kept}")

    def _look_at_files(self) -> None:
        """Nothing is committed to a file that has lost its name."""
        for path, is_there in (self.store.file, self.store.is_in_place()), (self.path, self.journal.is_in_place()):
            if not is_there:
                raise Fatal(f"{path} was moved, removed or replaced while the service was at work")


def open_ones(batches: Iterable[Batch]) -> List[Batch]:
    return [it for it in batches if it.answers is None and it.refused is None]


def refuse_all(group: Iterable[Sent], answer: bytes) -> None:
    """Refuses batches at their commit."""
    for it in group:
        it.batch.refuse(it.batch.count, answer)
