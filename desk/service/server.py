"""The service: connections of planners, and rounds that carry out their requests one after another.

It is a single thread. While the program is at work, lines of other planners wait in their sockets, and form the next
group. In each round whoever had least comes first."""
import selectors
import socket
import time
from collections import deque
from typing import Callable, Dict, List, Optional

from reasons import why
from service import limits
from service.archives import is_moment
from service.backups import NAME, Backups, Copy, refused
from service.batch import Batch
from service.batches import Batches
from service.journal_log import filter_of
from service.limits import BAD_LINE, refusal
from service.planner import LONG, LOOK_LONG, SHORT, SMALL, Forgotten, Planner, Query, Request, Word
from service.rules import Person, Rules, Unreadable, person_of
from service.signals import Signals
from service.status import Disk, Value, memory, status_lines
from service.turns import Pace, Taken, Turns, work_of
from service.users import Users

# How often planners are checked for timeouts, in seconds.
TICK = 1.0
# A group waits for more planners for this fraction of the time that the last group took.
GATHER, GATHER_STEP = 0.1, 20e-6
# How long a round looks at lines that make no request, and how long it reads the journal for planners.
LOOK_SECONDS, LOG_SECONDS = 0.005, 0.005
# How long a round lasts at least if nothing can be carried out for the sake of a backup.
HELD_SECONDS = 0.001
# How long the end may take for those who wait.
END_SECONDS = 2.0
# A planner to whom that much of a log is not sent yet has to read it first.
LOG_BYTES = 256 << 10


class Server:
    def __init__(self, listener: socket.socket, batches: Batches, signals: Signals, say: Callable[[object], None]):
        self.listener, self.batches, self.signals, self.say = listener, batches, signals, say
        self.backups, self.disk = Backups(batches.store), Disk(batches.store.file)
        self.selector = selectors.DefaultSelector()
        self.users, self.planners = Users(), {}
        # Planners with requests, with lines that are not looked at yet, with answers to be sent, and with a log, each
        # in turns.
        self.waiting, self.unseen, self.touched, self.logs = {}, {}, {}, deque()
        # Whose turn it is: queries with one line of answer, groups of batches, and what takes longer.
        self.queries, self.groups, self.long, self.pace = Turns(SHORT), Turns(SMALL, work_of), Turns(LONG), Pace()
        # The backup that is under way, and those that are wanted, this one first.
        self.copy: Optional[Copy] = None
        self.wanted = deque()
        batches.group_room.may_mark = lambda: self.copy is None
        # Until this time the next group may wait for this many planners.
        self.expected, self.gathers_until = 0, 0.0
        self.is_listening, self.begun = False, time.monotonic()
        listener.setblocking(False)
        self._listen()
        self.selector.register(signals.woken, selectors.EVENT_READ, lambda _: signals.take())

    @property
    def rules(self) -> Rules:
        return self.batches.rules

    def _read_rules(self) -> None:
        self.signals.rereads = False
        try:
            self.batches.rules = Rules(self.rules.path)
        except Unreadable as fault:
            self.say(f"{fault}: the rules stay as they were")

    # --- connections ------------------------------------------------------------------------------

    def _listen(self) -> None:
        if not self.is_listening:
            self.selector.register(self.listener, selectors.EVENT_READ, self._accept)
            self.is_listening = True

    def _accept(self, _events: int) -> None:
        """Accepts all who wait: each of them would wait for a round otherwise."""
        for _ in range(limits.PLANNERS):
            try:
                connection, _ = self.listener.accept()
            except (BlockingIOError, ConnectionError, InterruptedError):
                return
            except OSError as fault:
                # There are no descriptors, say. Those who wait are accepted later.
                self.say(f"no connection can be accepted now: {fault}")
                self.selector.unregister(self.listener)
                self.is_listening = False
                return
            self._begin(connection)

    def _begin(self, connection: socket.socket) -> None:
        connection.setblocking(False)
        try:
            person = person_of(connection)
            if not self.users.enter(person.uid):
                connection.send(refusal(100) + b"\n")
                connection.close()
                return
        except OSError:
            connection.close()  # Nobody is there any more.
            return
        planner = Planner(self, connection, person)
        self.planners[planner] = None
        planner.watch()

    def watch(self, planner: Planner, events: int) -> None:
        """Sets the events that are watched on the connection of a planner."""
        if events == planner.watched:
            return
        if not events:
            self.selector.unregister(planner.connection)
        elif not planner.watched:
            self.selector.register(planner.connection, events, planner.handle)
        else:
            self.selector.modify(planner.connection, events, planner.handle)
        planner.watched = events

    def forget(self, planner: Planner) -> None:
        for it in (self.planners, self.waiting, self.unseen, self.touched):
            it.pop(planner, None)
        self.users.leave(planner.person.uid)

    # --- rounds -----------------------------------------------------------------------------------

    def run(self) -> None:
        """Serves until a signal ends it. Raises Fatal if the store can no longer be used."""
        looked = time.monotonic()
        while not self.signals.ends:
            for key, events in self.selector.select(0 if self._has_work() else TICK):
                key.data(events)
            if self.signals.rereads:
                self._read_rules()
            now = time.monotonic()
            if now < self.gathers_until and self._gathers():
                time.sleep(GATHER_STEP)
                continue
            self._round()
            if now - looked > TICK:
                looked = now
                self._tick(now)

    def _has_work(self) -> bool:
        waits = self.unseen or self.logs or any(it.is_ready() for it in self.waiting)
        return bool(waits) or self.batches.log.has_more()

    def _tick(self, now: float) -> None:
        for planner in list(self.planners):
            planner.forget_if_late(now)
            planner.close_if_late(now)
        self._listen()
        self.batches.tick(self.copy is None)
        self.batches.save()
        self.batches.look_at_room()
        self.batches.group_room.take_ahead()
        self.disk.note(now)

    def _round(self) -> None:
        """Carries out requests: queries, then small batches together, then one that takes longer."""
        self._look()
        self._answer_queries()
        self._commit_group()
        self._carry_out_long()
        self._read_logs()
        self._send()

    def _look(self) -> None:
        """Looks at lines that many planners have sent, for a moment: at those of batches that are held, and at
        remarks."""
        until = time.monotonic() + LOOK_SECONDS
        while self.unseen and time.monotonic() < until:
            planner = next(iter(self.unseen))
            del self.unseen[planner]
            planner.look(LOOK_LONG)
            self.touched[planner] = None

    def _gathers(self) -> bool:
        """Whether more planners are likely to join the next group."""
        turns = [it.turn for it in self.waiting if it.is_ready()]
        return 0 < len(turns) < self.expected and turns.count(SMALL) == len(turns)

    def _answer_queries(self) -> None:
        asked = self.queries.take(self.waiting, self.pace.work())
        answers = iter(self.batches.ask([it.line for _, it in asked if isinstance(it, Query)]))
        for planner, it in asked:
            if isinstance(it, Batch):
                self.batches.look_at_changes(it)
                planner.settled(it)
            elif isinstance(it, Word):
                self._answer_word(planner, it)
            elif isinstance(it, Query):
                planner.answer(next(answers) + b"\n")
            else:
                planner.answer(it if isinstance(it, bytes) else it.text())

    def _commit_group(self) -> None:
        """Carries out small batches and commits them together."""
        begun, commits = time.monotonic(), self.batches.commits
        count = commits.count
        group = self._group()
        if not group:
            return
        try:
            self._carry_out([batch for _, batch in group])
        finally:
            for planner, batch in group:
                planner.settled(batch)
        now, count = time.monotonic(), commits.count - count
        if count:
            # The program does not tell how long the commits themselves took: each syncs twice.
            commit_seconds = min((now - begun) / count, 2 * self.batches.journal.sync_seconds)
            self.pace.note(self.groups.taken, now - begun - count * commit_seconds, commit_seconds)
        # A planner with an answer often sends the next line at once. Waiting a little for it avoids two groups that
        # alternate.
        self.expected = len({planner for planner, _ in group} | self.waiting.keys())
        self.gathers_until = now + GATHER * (now - begun)

    def _group(self) -> List[Taken]:
        """Small batches whose turn it is, if they may be carried out now."""
        if self.copy is None:
            return self.groups.take(self.waiting, self.pace.work())
        copy, group = self.copy, []
        if copy.may_commit():
            group = self.groups.take(self.waiting, copy.work(self.pace.work()), copy.admits)
        if not group and any(it.is_ready() and isinstance(it.first, Batch) for it in self.waiting):
            time.sleep(HELD_SECONDS)
        return group

    def _carry_out_long(self) -> None:
        """Carries out one request that does not belong in a group."""
        copy = self.copy
        may_commit = copy is not None and copy.may_commit()
        admits = lambda it: not isinstance(it, Batch) or copy is None or may_commit and copy.admits(it)  # noqa: E731
        for planner, request in self.long.take(self.waiting, 1, admits):
            if isinstance(request, Batch):
                try:
                    self._carry_out([request])
                finally:
                    planner.settled(request)
            elif isinstance(request, Query):
                if not self.batches.ask_rows(request.line, planner.answer):
                    planner.close()
            else:
                self._answer_word(planner, request)

    def _answer_word(self, planner: Planner, request: Word) -> None:
        (verb, *others), person = request.words, request.person
        texts = [it.decode("latin-1") for it in others]
        if verb == b"whoami" and not others:
            planner.answer(" ".join(["planner", person.name, str(person.uid), *sorted(person.groups)]).encode() + b"\n")
        elif verb == b"batches" and not others:
            planner.answer(b"batches %d\n" % self.batches.store.kept)
        elif verb == b"status" and not others:
            planner.answer("".join(f"{it}\n" for it in status_lines(self.figures())).encode())
        elif verb == b"log":
            self._begin_log(planner, others)
        elif verb == b"backup" and len(others) == 1 and NAME.fullmatch(others[0]):
            if self._has_right(person, planner, "backup"):
                planner.job = self.wanted
                self.wanted.append((planner, texts[0]))
                self._begin_backup()
        elif verb == b"archive" and len(others) == 2 and NAME.fullmatch(others[0]) and is_moment(texts[1]):
            if self._has_right(person, planner, "archive"):
                planner.job = self.batches.archive(*texts)
                self.logs.append(planner)
        else:
            planner.answer(BAD_LINE + b"\n")

    def _has_right(self, person: Person, planner: Planner, right: str) -> bool:
        """Whether a person has a right of the store as a whole; if not, that is the answer."""
        denial = self.rules.denial(person, right)
        if denial is not None:
            planner.answer(refusal(90, *denial) + b"\n")
        return denial is None

    def figures(self) -> Dict[str, Optional[Value]]:
        """What the service tells about itself, by the names in FIGURES."""
        batches, users, now = self.batches, self.users, time.monotonic()
        batches.look_at_room()
        room, commits = batches.room, batches.commits
        return {
            "blocks": room.blocks,
            "free_blocks": room.free,
            "spare_blocks": room.spare(),
            "seconds_left": room.seconds_left(),
            "disk_free_bytes": self.disk.free(),
            "disk_seconds_left": self.disk.seconds_left(),
            "alternatives": len(batches.store.entries.parents) - 1,
            "last_batch": batches.store.kept,
            "batches_total": commits.batches,
            "refused_batches_total": commits.refused,
            "commits_total": commits.count,
            "commit_seconds_total": commits.seconds,
            "commit_seconds_slowest": commits.slowest_since(now - 60),
            "sync_seconds_total": commits.sync_seconds,
            "planners": users.planners,
            "users": len(users.by_number),
            "waiting_planners": sum(it.first is not None for it in self.waiting),
            "held_bytes": users.held,
            "unread_bytes": users.in_memory + users.in_files,
            "logs": len(self.logs),
            "journal_bytes": batches.journal.end,
            "memory_bytes": memory(),
            "up_seconds": now - self.begun,
        }

    # --- backups ----------------------------------------------------------------------------------

    def _begin_backup(self) -> None:
        """Begins the next backup that is wanted, if none is under way."""
        while self.wanted and self.copy is None:
            # A copy needs no entries that the journal has.
            self.batches.refresh()
            self._go_on(lambda: self.backups.begin(self.wanted[0][1]))

    def _go_on(self, begin: Callable[[], Copy]) -> None:
        try:
            self.copy = begin()
            self.selector.register(self.copy.end, selectors.EVENT_READ, self._end_backup)
        except OSError as fault:
            self._answer_backup(refused(fault), fault)

    def _end_backup(self, _events: int) -> None:
        copy, self.copy = self.copy, None
        self.selector.unregister(copy.end)
        if copy.is_to_be_made_again():
            self._go_on(copy.begin_again)
        else:
            self._answer_backup(copy.finish(self.backups.copy_alone), copy.fault)
        self._begin_backup()

    def _answer_backup(self, answer: bytes, fault: Optional[OSError] = None) -> None:
        planner, name = self.wanted.popleft()
        if fault is not None:
            self.batches.teller.tell("no backup", f"{name} could not be made\n{why(fault)}")
        planner.job = None
        planner.answer(answer + b"\n")

    def _carry_out(self, batches: List[Batch]) -> None:
        commits = self.batches.commits.count
        self.batches.carry_out(batches)
        if self.copy is not None:
            self.copy.note(batches, self.batches.commits.count - commits)

    # --- the journal ------------------------------------------------------------------------------

    def _begin_log(self, planner: Planner, words: List[bytes]) -> None:
        try:
            wanted = filter_of([it.decode() for it in words])
        except ValueError:
            planner.answer(BAD_LINE + b"\n")
            return
        planner.job = self.batches.log.entries(wanted, self.batches.store.kept)
        self.logs.append(planner)

    def _read_logs(self) -> None:
        """Reads the journal for planners for a moment, and indexes it."""
        until = time.monotonic() + LOG_SECONDS
        for _ in range(len(self.logs)):
            planner = self.logs.popleft()
            if planner.is_closed or planner.is_deaf:
                planner.job = None
                self.touched[planner] = None
                continue
            self.logs.append(planner)
            if len(planner.unread.memory) > LOG_BYTES or planner.unread.file is not None:
                continue
            part = next(planner.job, None)
            if part is None:
                planner.job = None
                self.logs.pop()
                self.waiting[planner] = self.touched[planner] = None
            elif part:
                planner.answer(part)
            if time.monotonic() > until:
                break
        else:
            self.batches.log.add()

    def _send(self) -> None:
        touched, self.touched = self.touched, {}
        for planner in touched:
            if not planner.is_closed:
                planner.send()

    # --- the end ----------------------------------------------------------------------------------

    def refuse_waiting(self) -> None:
        """Refuses requests that wait, as many as there is time for; none of them was begun."""
        until = time.monotonic() + END_SECONDS
        if self.copy is not None:
            self.copy.stop()
        while self.wanted:
            self._answer_backup(refusal(99))
        for planner in list(self.planners):
            planner.job = None
            if planner.first is None and planner.is_exhausted() and not planner.has_ended:
                planner.receive()
            while planner.first is not None and time.monotonic() < until:
                request = planner.next_request()
                if isinstance(request, Batch):
                    request.refuse(request.count, refusal(99))
                planner.answer(request.text() if isinstance(request, (Batch, Forgotten)) else ended(request))
            planner.send()

    def close(self) -> None:
        for planner in list(self.planners):
            planner.close()
        self.listener.close()


def ended(request: Request) -> bytes:
    return request if isinstance(request, bytes) else refusal(99) + b"\n"
