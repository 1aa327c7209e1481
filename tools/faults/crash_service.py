#!/usr/bin/env python3
"""Tries what a power loss may leave of the files of the service, the store and its journal among them:
`tools/faults/crash_service.py [ALTCTL] [COUNT] [SEED]`, COUNT such losses. If something that was acknowledged is lost,
or store and journal do not agree, the status is 1.

Planners write to a service. Each call of the service and of its program that changes a file, gives it a name or makes
it last is recorded, and each answer that is sent, all in their order (`record_folder.c`). For moments at random files
are made as a power loss then may leave them: with all that was synced before, and in each page that was written since
the bytes of before, the new ones, or some of both; in a block of the store any bytes. The length of a file, and the
names in the folder, may be those of any moment since they were synced. A sync makes last what was written before it
began.

The service is started over these files. Then each batch that was acknowledged has to be in store and journal whole,
each other one whole or not at all; store and journal have to agree by the model of `kill.py`; numbers must have no
gaps; `log` has to list the batches, and two more have to be carried out; and it has to be known who made alternatives
and checkpoints. The next run of planners begins over one of these files, so losses also come while the service mends
what an earlier one left. After ROUNDS runs it begins with a new store; `--jobs N` does so in N processes at once.

With `--broken .alt` or `--broken .journal` every second sync of such files is taken for none, so that it has to fail.
It needs a C compiler, and a program that is linked against glibc. It stands beside the gate."""
import json
import os
import random
import shutil
import struct
import subprocess
import sys
import tempfile
import threading
import time
from collections import Counter
from pathlib import Path
from typing import NamedTuple

sys.dont_write_bytecode = True
import kill
from crashes import BLOCK, MEMORY, SELECTOR, ZERO, blocks_of, left_of
from kill import Failure
from kill_service import OWN, PLANNERS, Connection, Journal, Planner, Service, arguments, compare, compare_own
from kill_service import look_at_seen, parsed, replayed, same, shared_out, short, tag_of
from preloaded import compiled, preloaded

# A store has so many blocks at first.
BLOCKS = 4096
# So many runs are over one store, each of so many losses, and so long.
ROUNDS, LOSSES = 4, 25
SHORTEST, LONGEST = 0.2, 1.2
# The kinds of records.
WRITE, LENGTH, BEGIN_SYNC, SYNC, MADE, RENAMED, REMOVED, SENT = range(8)
HEAD = struct.Struct("=5Q")
# What stands in the pages that were not synced: in all of them the same, or in each something else.
KINDS = ["old", "written", "torn"]


class Call(NamedTuple):
    """A call that was recorded."""

    kind: int
    thread: int
    inode: int
    place: int
    text: bytes


def recorded(path):
    text, at = Path(path).read_bytes(), 0
    calls = []
    while at < len(text):
        kind, thread, inode, place, size = HEAD.unpack_from(text, at)
        at += HEAD.size + size
        calls.append(Call(kind, thread, inode, place, text[at - size : at]))
    return calls


class File:
    """A file as it was synced, with all that each of its pages held since, and all its lengths."""

    def __init__(self, text, is_store):
        self.is_store = is_store
        self.synced = dict(enumerate(blocks_of(text)))
        # Each with the number of the call that made it.
        self.held, self.lengths = {}, [(-1, len(text))]

    def newest(self, page):
        return self.held[page][-1][1] if page in self.held else self.synced.get(page, ZERO)

    def hold(self, number, page, text):
        self.held.setdefault(page, [(-1, self.synced.get(page, ZERO))]).append((number, text))

    def write(self, number, place, text):
        end = place + len(text)
        for page in range(place // BLOCK, -(-end // BLOCK)):
            begin = page * BLOCK
            came = text[max(0, begin - place) : begin + BLOCK - place]
            at = max(0, place - begin)
            if len(came) < BLOCK:
                before = self.newest(page)
                came = before[:at] + came + before[at + len(came) :]
            if not self.is_rewritten(page, came):
                self.hold(number, page, came)
        if end > self.lengths[-1][1]:
            self.lengths.append((number, end))

    def is_rewritten(self, page, text):
        """Whether the selector of a store is written as it was synced, as every opening does."""
        return self.is_store and page == SELECTOR and page not in self.held and text == self.newest(page)

    def lengthen(self, number, length):
        before = self.lengths[-1][1]
        for page in range(length // BLOCK, -(-before // BLOCK)):
            left = max(0, length - page * BLOCK)
            self.hold(number, page, self.newest(page)[:left].ljust(BLOCK, b"\0"))
        self.lengths.append((number, length))

    def sync(self, begun):
        """Makes last what came before a sync began."""
        for page, held in list(self.held.items()):
            last = max(it for it, (number, _) in enumerate(held) if number < begun)
            self.synced[page] = held[last][1]
            if last == len(held) - 1:
                del self.held[page]
            else:
                self.held[page] = [(-1, held[last][1]), *held[last + 1 :]]
        last = max(it for it, (number, _) in enumerate(self.lengths) if number < begun)
        self.lengths = [(-1, self.lengths[last][1]), *self.lengths[last + 1 :]]

    def text(self):
        """The file without a loss."""
        length = self.lengths[-1][1]
        return b"".join(map(self.newest, range(-(-length // BLOCK))))[:length]

    def left(self, chance):
        """A file that a loss may leave."""
        lengths = [it for _, it in self.lengths]
        between = chance.randint(min(lengths), max(lengths))
        length = chance.choice([lengths[0], lengths[-1], chance.choice(lengths), between])
        kinds = [*KINDS, *(["junk"] if self.is_store else [])]
        kind = chance.choice([*kinds, "any", "any"])
        pages = [self.synced.get(page, ZERO) for page in range(-(-length // BLOCK))]
        for page, held in self.held.items():
            if page < len(pages):
                its, texts = kind if kind != "any" else chance.choice(kinds), [it for _, it in held]
                pages[page] = left_of(chance, its, texts, lambda: self.synced.get(chance.randrange(BLOCKS), ZERO))
        return b"".join(pages)[:length]


class Renaming(NamedTuple):
    """A change of names: the number of its call, the name that is gone, and the one that is there for a file."""

    number: int
    gone: str
    path: str
    file: int

    def apply(self, names):
        names.pop(self.gone, None)
        if self.path:
            names[self.path] = self.file


class Folder:
    """The files below a folder as the system has them, and what a loss leaves of them."""

    def __init__(self, path, broken):
        self.path, self.broken, self.number, self.syncs = path, broken, 0, 0
        self.files, self.by_inode = [], {}
        # The files by their names, by those that last, and the changes of names since.
        self.names, self.lasting, self.pending = {}, {}, []
        # When the sync of a thread began, and how many bytes were sent to whom.
        self.begun, self.sent = {}, Counter()
        for it in Path(path).glob("**/*"):
            if it.is_file():
                self.lasting[str(it)] = self.names[str(it)] = self.add(str(it), it.stat().st_ino, it.read_bytes())

    def add(self, path, inode, text=b""):
        self.by_inode[inode] = len(self.files)
        self.files.append(File(text, path.endswith(".alt")))
        return self.by_inode[inode]

    def apply(self, call):
        self.number += 1
        file = self.files[self.by_inode[call.inode]] if call.inode in self.by_inode else None
        if call.kind == SENT:
            name, text = call.text.split(b"\0", 1)
            self.sent[name.decode()] += len(text)
        elif call.kind == BEGIN_SYNC:
            self.begun[call.thread] = self.number
        elif call.kind == SYNC:
            self.sync(file, call.text.decode(), self.begun[call.thread])
        elif call.kind in (MADE, RENAMED, REMOVED):
            self.rename(call)
        elif file is None:
            raise Failure(f"a call of a file that nobody made: {call}")
        elif call.kind == WRITE:
            file.write(self.number, call.place, call.text)
        else:
            file.lengthen(self.number, call.place)

    def sync(self, file, path, begun):
        """Makes a file, or the names in a folder, last."""
        self.syncs += 1
        if self.broken and path.endswith(self.broken) and self.syncs % 2:
            return
        if file is not None:
            file.sync(begun)
            return
        for it in self.pending:
            if it.number < begun and os.path.dirname(it.path or it.gone) == path:
                it.apply(self.lasting)
        self.pending = [
            it for it in self.pending if it.number >= begun or os.path.dirname(it.path or it.gone) != path
        ]

    def rename(self, call):
        gone, _, path = call.text.decode().partition("\0")
        if call.kind == MADE:
            it = Renaming(self.number, "", gone, self.add(gone, call.inode))
        elif gone not in self.names:
            return  # It is no file.
        else:
            it = Renaming(self.number, gone, path, self.names[gone])
        it.apply(self.names)
        self.pending.append(it)

    def make(self, chance, into):
        """Makes the files that a loss leaves in another folder."""
        into.mkdir()
        names = dict(self.lasting)
        for it in self.pending[: chance.choice([0, len(self.pending), chance.randint(0, len(self.pending))])]:
            it.apply(names)
        for path, it in names.items():
            to = into / os.path.relpath(path, self.path)
            to.parent.mkdir(exist_ok=True)
            to.write_bytes(self.files[it].left(chance))

    def check(self):
        """Whether the files are what the recorded calls made."""
        there = {str(it) for it in Path(self.path).glob("**/*") if it.is_file()}
        if there != set(self.names):
            raise Failure(f"of {there} and {set(self.names)} some were not recorded")
        for path, it in self.names.items():
            if Path(path).read_bytes() != self.files[it].text():
                raise Failure(f"{path} is not what the recorded calls made")


class Run:
    """Planners who write to a service over a folder, all of which is recorded."""

    def __init__(self, said, folder, library, chance, planners):
        self.chance, self.planners, self.record = chance, planners, f"{folder}.calls"
        self.disk = Folder(folder, said.broken)
        self.service = Service(said, f"{folder}/map.alt", f"{folder}.said")
        self.variables = preloaded(library, folder=folder, recorded=self.record)

    def work(self, state, count):
        is_over, path = threading.Event(), f"{self.service.file}.sock"
        threads = [threading.Thread(target=it.work, args=(path, is_over, state)) for it in self.planners]
        self.service.start(self.variables)
        try:
            for it in threads:
                it.start()
            connection = self.service.connect()
            connection.shown("alts")
            time.sleep(self.chance.uniform(SHORTEST, LONGEST))
            if self.chance.random() < 0.3:
                last = int(connection.ask(["batches"])[0].split(" ")[1])
                name = os.path.basename(self.disk.path)
                [answer] = connection.ask([f"archive {name} {self.chance.randint(0, last)}"])
                count["archives"] += answer.startswith("ok ")
            connection.close()
            if self.chance.random() < 0.25:
                count["runs in which the program was killed"] += self.service.kill_program()
                time.sleep(self.chance.uniform(0, LONGEST))
            if self.service.process.poll() is not None or self.chance.random() < 0.5:
                self.service.end()
        finally:
            self.service.stop()
            is_over.set()
            for it in threads:
                it.join()

    def results(self):
        """The calls, and what was sent, by the values that identify it."""
        for it in self.planners:
            if it.fault is not None:
                raise Failure(it.fault)
        sent = {tag: it for planner in self.planners for tag, it in planner.sent.items()}
        for it in self.planners:
            it.sent = {}
        calls = recorded(self.record)
        os.remove(self.record)
        return calls, sent

    def moments(self, calls, count):
        """After how many calls the power is lost: at random, in the start, and beside an answer, a sync, a change of
        names, or what is written to another file than the store."""
        kinds = [range(1, len(calls) + 1), *([] for _ in range(4))]
        for number, call in enumerate(calls, 1):
            if call.kind == SENT:
                kinds[1].append(number)
            elif call.kind in (BEGIN_SYNC, SYNC):
                kinds[2] += [max(1, number - 1), number]
            elif call.kind != WRITE:
                kinds[3].append(number)
            elif call.place % BLOCK or len(call.text) % BLOCK:
                kinds[4].append(number)
        kinds = [*filter(None, kinds), range(1, kinds[1][0] if kinds[1] else len(calls))]
        return sorted(self.chance.choice(self.chance.choice(kinds)) for _ in range(count))


class Trial:
    """Runs over one store, and losses in each of them."""

    def __init__(self, said, place, seed):
        self.said, self.place, self.count = said, Path(place), Counter()
        self.chance = random.Random(seed)
        self.planners = [Planner(number, random.Random(f"{seed} {number}"), self.named) for number in range(PLANNERS)]
        # The batches that are durable in the files of the run, and those that the loss before showed, with the state of
        # the model before each of them and after the last one.
        self.durable, self.batches, self.states = 0, [], [kill.EMPTY._replace(blocks=BLOCKS)]
        self.service = None

    def named(self, path, name):
        """A connection by whose name its answers are found in the record."""
        return Connection(path, f"{self.place.name}-{name}")

    def lose_all(self, losses):
        folder = self.place / "0"
        folder.mkdir()
        words = [self.said.altctl, "create", f"{folder}/map.alt", str(BLOCKS)]
        subprocess.run(words, check=True, stdout=subprocess.DEVNULL)
        for number in range(1, -(-losses // LOSSES) + 1):
            folder = self.run(folder, self.place / str(number), min(losses, number * LOSSES) - (number - 1) * LOSSES)

    def run(self, folder, after, losses):
        """One run and its losses. One of them gives the folder for the next run."""
        run = Run(self.said, str(folder), self.said.library, self.chance, self.planners)
        self.service = run.service
        run.work(self.states[-1], self.count)
        calls, sent = run.results()
        self.count["calls"] += len(calls)
        done, chosen, left = 0, self.chance.randrange(losses), None
        for number, moment in enumerate(run.moments(calls, losses)):
            for call in calls[done:moment]:
                run.disk.apply(call)
            done = moment
            run.disk.make(self.chance, self.place / "left")
            where = f"run in {folder.name}, loss {number} after call {done} of {len(calls)}"
            self.try_loss(self.at_moment(sent, run.disk.sent), where)
            if number == chosen:
                (self.place / "left").rename(after)
                left = self.batches, self.states
            else:
                shutil.rmtree(self.place / "left")
        for call in calls[done:]:
            run.disk.apply(call)
        run.disk.check()
        shutil.rmtree(folder)
        self.batches, self.states = left
        self.durable = len(self.batches)
        return after

    def try_loss(self, sent, where):
        """Looks at a copy of what a loss left, which is kept in the folder of `--keep` if the look fails."""
        shutil.copytree(self.place / "left", self.place / "lost")
        try:
            self.look(sent)
        except Failure as failure:
            if self.said.keep is not None:
                where = f"{where}, as {self.said.keep}/{self.place.name}"
                shutil.copytree(self.place / "left", f"{self.said.keep}/{self.place.name}")
            raise Failure(f"{where}: {failure}") from None
        shutil.rmtree(self.place / "lost")
        self.count["losses"] += 1

    def at_moment(self, sent, bytes_sent):
        """What was sent, with the answers that planners had then."""
        found = {}
        for tag, it in sent.items():
            is_answered = it.end <= bytes_sent[f"{self.place.name}-{tag.split('-')[0]}"]
            found[tag] = it if is_answered or it.due == "refused" else it._replace(due=None)
            self.count["batches acknowledged"] += is_answered and it.due not in (None, "refused")
        return found

    def look(self, sent):
        """Whether store, journal and what was answered agree, and go on to do so."""
        file = f"{self.place}/lost/map.alt"
        self.service = Service(self.said, file, f"{self.place}/said")
        self.service.start()
        connection = self.service.connect()
        try:
            connection.shown("alts")
            journal = self.journal(file)
            self.replay(journal.kept, sent)
            compare(connection, self.states[-1], journal)
            self.compare_log(connection, journal)
            journal = self.go_on(connection, file, journal)
        finally:
            connection.close()
        self.service.end()
        compare_makers(file, self.states[-1])
        self.look_alone(file, journal)

    def journal(self, file):
        """The journal, behind all archives."""
        found = Journal()
        text = Path(f"{file}.journal").read_bytes()
        while text.startswith(b'{"dropped":'):
            name = json.loads(text.split(b"\n")[0])["archive"]
            text = Path(f"{file}.archives/{name}").read_bytes() + text
        found.read(text)
        return found

    def replay(self, batches, sent):
        """Carries the batches out in the model. Those that were there at the last look need not be again."""
        if batches[: self.durable] != self.batches[: self.durable]:
            raise Failure(f"of {self.durable} batches that were durable before the run, the journal lacks some")
        known = sum(1 for _ in takewhile_same(batches, self.batches))
        states = self.states[: known + 1]
        waiting = dict(sent)
        for place in range(self.durable, len(batches)):
            batch = batches[place]
            it = waiting.pop(tag_of(batch), None)
            if it is None:
                raise Failure(f"a batch that nobody sent, or that came twice: {batch}")
            if place >= known:
                states.append(replayed(states[-1], batch, it))
            look_at_seen(batch, it, batches[self.durable :])
            self.count["batches that are there and were not acknowledged"] += it.due is None
        for it in waiting.values():
            if it.due not in (None, "refused"):
                raise Failure(f"lost: {it.lines} was acknowledged, and is not in the journal")
        self.batches, self.states = batches, states

    def compare_log(self, connection, journal):
        """Whether the service lists the last batches."""
        after = max(0, journal.last - 100)
        batches = [it for it in journal.kept if it["batch"] > after]
        rows = [f"entry {it['batch']} {it['time']} {it['who']} {text}" for it in batches for text in it["lines"]]
        for line, due in (f"log after={after}", rows), (f"log after={after} planner={os.geteuid()} last=9", rows[-9:]):
            same(line, [*due, f"end {len(due)}"], connection.shown(line))

    def go_on(self, connection, file, journal):
        """Whether two more batches are carried out. Gives the journal then."""
        for lines in ["put top 9 1 after"], ["begin", "put top 9 2 after", "put top 9 3 after", "commit"]:
            same(f"{lines} after the start", ["ok"] * len(lines), connection.ask(lines))
        found = self.journal(file)
        same("batches after the start", [journal.highest + 2], [found.last])
        same("lines after the start", ["put top 9 1 after"], found.kept[-2]["lines"])
        return found

    def look_alone(self, file, journal):
        """Whether the program alone shows the last batches."""
        words = [self.said.altctl, "do", "--read-only", file, f"checks {OWN}"]
        checks = subprocess.run(words, capture_output=True, text=True).stdout.splitlines()
        changes = subprocess.run([*words[:-1], f"changes {OWN}"], capture_output=True, text=True).stdout.splitlines()
        compare_own(checks, changes, journal)


def compare_makers(file, state):
    """Whether a service that ended knew of each alternative and checkpoint that somebody made it, as all were made by
    planners."""
    makers = json.loads(Path(f"{file}.owners").read_text())["makers"]
    due = {(name, it) for name, made in state.tree.items() for it in ["", *made.checkpoints]} - {("top", "")}
    known = {(name, it) for name, made in makers.items() for it in made}
    if known != due:
        raise Failure(f"who made {sorted(due - known)} is not known, but of {sorted(known - due)}, which are not there")


def takewhile_same(one, other):
    for first, second in zip(one, other):
        if first != second:
            return
        yield first


def tried(words):
    """One trial: a failure or None, and what it counted."""
    said, number, losses = words
    with tempfile.TemporaryDirectory(dir=MEMORY) as place:
        trial = Trial(said, place, f"{said.seed} {number}")
        try:
            trial.lose_all(losses)
        except Failure as failure:
            return f"seed {said.seed}, trial {number}, {failure}", trial.count
        finally:
            if trial.service is not None:
                trial.service.stop()
    return None, trial.count


def main():
    parser = arguments(__doc__, 100)
    parser.add_argument("--broken", metavar="END", help="take every second sync of files whose names end so for none")
    parser.add_argument("--keep", metavar="FOLDER", help="keep the files there that a failure is about")
    said = parsed(parser)
    with tempfile.TemporaryDirectory() as folder:
        said.library = compiled("record_folder", folder)
        failures, count = shared_out(said, tried, ROUNDS * LOSSES)
    for it in failures:
        print(f"crash_service: {short(it)}")
    if not failures:
        lost = f"{count['losses']} losses of power, 0 batches lost"
        print(f"crash_service: all is as acknowledged, and the journal agrees, seed {said.seed}: {lost}")
    for what, number in count.items():
        print(f"    {number} {what}")
    return int(bool(failures))


if __name__ == "__main__":
    sys.exit(main())
