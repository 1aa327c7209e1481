#!/usr/bin/env python3
"""Kills the service and its program at random moments while planners write, and looks each time whether each batch that
was acknowledged is in the store whole, each other one whole or not at all, and whether the journal agrees:
`tools/faults/kill_service.py [ALTCTL] [COUNT] [SEED]`. If not, the status is 1. It stands beside the gate.

After each kill the lines of the journal are carried out by the model of `kill.py`, and the store has to show what the
model has then. The journal is read here by a reader of its own, and so is what the store's alternative `.service` tells
of the last batches. Numbers must have no gaps. After so many kills as TRIAL says it begins with a new store; `--jobs N`
does so in N processes at once."""
import argparse
import json
import multiprocessing
import os
import random
import re
import signal
import socket
import subprocess
import sys
import tempfile
import threading
import time
import traceback
from collections import Counter
from pathlib import Path
from typing import NamedTuple, Optional
from urllib.parse import unquote_to_bytes

sys.dont_write_bytecode = True
import kill
from kill import Failure, answered, unlike

TOP = Path(__file__).resolve().parents[2]
ALTSERVE = str(TOP / "desk" / "altserve")
BLOCKS = 16384
PLANNERS = 16
LONGEST_LIFE = 0.5
# How many kills one store sees.
TRIAL = 50
OWN = ".service"
# The tables of OWN from this one on have the lines of the last batches, behind so many digits each.
RECORDS, DIGITS = 65520, 8
# The put by which a batch is found in the journal.
TAG = re.compile(r"put p\d+ 0 0 (p\d+-\d+)")
# What a planner sends, and how often.
KINDS = {
    "one": 40, "few": 18, "ten": 12, "random": 18, "refused": 5, "design": 8, "seen": 5, "long": 3, "many": 0.3,
    "huge": 0.5,
}
# Values that JSON has to quote, or that look like a line of the journal.
QUOTED = ['a"b', "c\\d", '\\"', '{"done":7}', '"]}', "%0A{", "%25", "\\u0041"]
# As many values of 4,000 bytes have huge batches.
HUGE = [12, 15, 16, 17, 30, 70]


class Connection:
    """A planner's socket, which may have a name. `ask` and `rows` return None if the other end is gone."""

    def __init__(self, path, name=None):
        self.socket = socket.socket(socket.AF_UNIX)
        try:
            if name is not None:
                self.socket.bind(f"\0{name}")
            self.socket.connect(path)
        except OSError:
            self.socket.close()
            raise
        self.answers = self.socket.makefile("r", encoding="ascii", newline="\n")
        # How many bytes of answers have come.
        self.came = 0

    def close(self):
        self.answers.close()
        self.socket.close()

    def read(self):
        line = self.answers.readline()
        self.came += len(line)
        return line

    def ask(self, lines):
        """The answers to lines, each of one line."""
        try:
            self.socket.sendall("".join(f"{it}\n" for it in lines).encode())
            answers = [self.read() for _ in lines]
        except OSError:
            return None
        return [it[:-1] for it in answers] if all(it.endswith("\n") for it in answers) else None

    def rows(self, line):
        """The whole answer to a query."""
        rows = self.ask([line])
        try:
            while rows and not rows[-1].startswith(("end ", "error ")):
                row = self.read()
                if not row.endswith("\n"):
                    return None
                rows.append(row[:-1])
        except OSError:
            return None
        return rows

    def shown(self, line):
        """The same, of a service that is not killed."""
        rows = self.rows(line)
        if rows is None:
            raise Failure(f"{line}: no answer")
        return rows


class Sent(NamedTuple):
    """A batch that was sent: its lines; the answers to them, or "refused", or None if it is not known; the alternative
    that must not have changed after a batch; and how many bytes of answers had come in the end."""

    lines: list
    due: object
    seen: Optional[tuple] = None
    end: int = 0


class Planner:
    """Sends batches until the service is gone. Each has a put with a unique value, which identifies it in the
    journal."""

    def __init__(self, number, chance, connected=Connection):
        self.number, self.name, self.chance, self.connected = number, f"p{number}", chance, connected
        self.count = 0
        # By the values that identify them.
        self.sent = {}
        # An answer that no batch may have.
        self.fault = None

    # --- batches at random ------------------------------------------------------------------------

    def batch(self, kind, stamp, state, connection):
        """The lines of a batch, and the alternative and the batch that `begin` names. The lines are None if the service
        is gone."""
        chance = self.chance
        if kind == "design":
            return self.design(stamp, connection), None
        if kind == "seen":
            return self.seen(stamp, connection)
        if kind == "random":
            lines = [stamp, *(self.change(state) for _ in range(chance.randrange(1, 3)))]
            chance.shuffle(lines)
            return lines, None
        if kind == "refused":
            bad = chance.choice(["put nowhere 0 0 x", f"remove {self.name} 9 9", f"new {self.name} top", "post top"])
            lines = [stamp, *self.puts(chance.randrange(1, 9)), bad]
            chance.shuffle(lines)
            return lines, None
        counts = {"one": 0, "few": chance.randrange(1, 9), "ten": 9, "long": chance.randrange(1, 9)}
        counts |= {"many": 3000, "huge": chance.choice(HUGE)}
        return [stamp, *self.puts(counts[kind], kind in ("long", "huge"))], None

    def puts(self, count, are_long=False):
        values = ["w" * 3990, "%00" * 1333, "v" * 4000] if are_long else [*kill.VALUES, *QUOTED]
        values = ["-", "duct"] if count > 1000 else values
        for _ in range(count):
            key = self.chance.choice(kill.TABLES[1:]), self.chance.choice(kill.NUMBERS)
            yield f"put {self.name} {key[0]} {key[1]} {self.chance.choice(values)}"

    def change(self, state):
        """A change at random, but no `rollback`: to the service that ends a batch and drops it."""
        while (line := kill.change(self.chance, state, True)) == "rollback":
            pass
        return line

    def design(self, stamp, connection):
        """Makes a design, or merges and posts it."""
        name = f"m{self.number}"
        rows = connection.rows(f"conflicts {name}")
        if rows is None:
            return None
        if rows[-1].startswith("error "):
            key = f"{self.chance.choice(kill.TABLES)} {self.chance.choice(kill.NUMBERS)}"
            lines = [f"new {name} {self.name}", f"put {name} {key} mine", f"put {name} 2 70 a", stamp]
            return [*lines, f"put {self.name} {key} theirs"]
        lines = [stamp, kill.merge(self.chance, name, rows), f"post {name}"]
        return [*lines, *([f"drop {name}"] if self.chance.random() < 0.5 else [])]

    def seen(self, stamp, connection):
        """A batch that rests on what an alternative was at a batch."""
        answers = connection.ask(["batches"])
        if answers is None:
            return None, None
        time.sleep(self.chance.choice([0, 0, 0.01]))
        other = self.chance.choice([self.name, f"p{self.chance.randrange(PLANNERS)}", "top", "a"])
        return [stamp, *self.puts(2)], (other, int(answers[0].split(" ")[1]))

    # --- at work ----------------------------------------------------------------------------------

    def work(self, path, is_over, state):
        connection = None
        while connection is None and not is_over.is_set():
            try:
                connection = self.connected(path, self.name) if self.connected is not Connection else Connection(path)
            except OSError:
                time.sleep(0.005)
        if connection is None:
            return
        try:
            lines = []
            while not is_over.is_set() and self.fault is None and lines is not None:
                lines = self.send(connection, state, lines)
        except Exception:
            self.fault = traceback.format_exc()
        finally:
            connection.close()

    def send(self, connection, state, before):
        """Sends one batch. Returns the lines that have to be in the next one, or None if the service is gone."""
        self.count += 1
        tag = f"{self.name}-{self.count}"
        kind = self.chance.choices(list(KINDS), list(KINDS.values()))[0]
        lines, seen = self.batch(kind, f"put {self.name} 0 0 {tag}", state, connection)
        if lines is None:
            return None
        lines = [*before, *lines]
        begin = f"begin {seen[0]}={seen[1]}" if seen else "begin"
        is_single = len(lines) == 1 and seen is None
        answers = connection.ask(lines if is_single else [begin, *lines, "commit"])
        if answers is None:
            self.sent[tag] = Sent(lines, None, seen)
            return None
        errors = [it for it in answers if it.startswith("error ")]
        if errors and not is_single:
            self.look_at_refusal(lines, answers)
        due = answers if is_single else answers[1:-1]
        is_unsure = any(it.startswith("error 101 ") for it in errors)
        self.sent[tag] = Sent(lines, None if is_unsure else "refused" if errors else due, seen, connection.came)
        return [f"new {self.name} top"] if "error 1 NoSuchAlternative" in errors else []

    def look_at_refusal(self, lines, answers):
        """Whether one line of a batch, or its commit, is refused, and each other one as not done for that."""
        others = [it for it, answer in enumerate(answers[1:]) if not answer.startswith("error 91 NotDone ")]
        due = [f"error 91 NotDone {others[0] + 1}"] * len(lines) if others else []
        if answers[0] != "ok" or len(others) != 1 or [*answers[1 : others[0] + 1], *answers[others[0] + 2 :]] != due:
            self.fault = f"{lines} is answered {answers}"


# --- what store and journal have ------------------------------------------------------------------


class Journal:
    """The lines of a journal, as a reader of its own takes them."""

    def __init__(self):
        # The batches in the store, in their order, the last one of them, and the highest number.
        self.kept, self.last, self.highest = [], 0, 0
        # Those of which it is not told yet what became of them.
        self.waiting = []

    def read(self, text):
        """Takes the next lines."""
        if not text.endswith(b"\n"):
            raise Failure(f"the journal does not end with a whole line: {text[-80:]}")
        for line in text.split(b"\n")[:-1]:
            try:
                self.take(json.loads(line))
            except (ValueError, KeyError, TypeError):
                raise Failure(f"a line of the journal is none: {line[:100]} .. {line[-100:]}") from None
        if self.waiting:
            raise Failure(f"the journal ends with a batch of which it isn't told what became of it: {self.waiting[-1]}")

    def take(self, line):
        if "batch" in line:
            if line["batch"] != self.highest + 1:
                raise Failure(f"after batch {self.highest} the journal has {line}")
            self.highest = line["batch"]
            self.waiting.append(line)
            return
        if "dropped" in line:
            self.highest = line["dropped"]
            return
        last = line["done"] if "done" in line else line["last"]
        if not self.last <= last <= self.highest:
            raise Failure(f"after batch {self.last} of {self.highest} in the store the journal says {line}")
        if "next" in line:
            if line["next"] != self.highest + 1:
                raise Failure(f"after batch {self.highest} the journal says {line}")
            self.highest = line["next"] - 1
        self.kept += [it for it in self.waiting if it["batch"] <= last]
        self.last, self.waiting = last, []


class GrowingJournal(Journal):
    """A journal that is looked at again and again, each time from where the last look ended: what is before that stays
    as it is."""

    def __init__(self, path):
        super().__init__()
        self.path, self.at, self.tail = path, 0, b""

    def settled(self):
        """The batches that have come into the store since the last look."""
        with open(self.path, "rb") as file:
            file.seek(self.at - len(self.tail))
            tail, text = file.read(len(self.tail)), file.read()
        if tail != self.tail:
            raise Failure("what the journal had before was changed")
        self.at += len(text)
        self.tail = (tail + text)[-4096:]
        before = len(self.kept)
        self.read(text)
        return self.kept[before:]


def tag_of(batch):
    """The value that identifies a batch of the journal."""
    tags = [it[1] for it in map(TAG.fullmatch, batch["lines"]) if it]
    if len(tags) != 1:
        raise Failure(f"a batch that nobody sent: {batch}")
    return tags[0]


def replayed(state, batch, sent):
    """The state of the model after a batch of the journal, whose answers were those that its planner got."""
    if sent.lines != batch["lines"]:
        raise Failure(f"not as it was sent: {batch}, and not {sent.lines}")
    came = []
    for line in sent.lines:
        answer, state = answered(state, line)
        came += answer
    if sent.due == "refused" or any(it.startswith("error ") for it in came):
        raise Failure(f"{batch} is in the store; it was answered {sent.due}, and the model answers {came}")
    if sent.due is not None and sent.due != came:
        raise Failure(f"{sent.lines} was answered {sent.due}, and the model answers {came}")
    return state


def look_at_seen(batch, sent, batches):
    """Whether an alternative had not changed that a batch rests on."""
    if sent.seen is not None:
        name, after = sent.seen
        for it in batches:
            if after < it["batch"] < batch["batch"] and name in it["alternatives"]:
                raise Failure(f"{batch} rests on {name} as of {after}, which {it} changed")


def same(line, due, came):
    if due != came:
        raise Failure(unlike(line, due, came))


def short(failure):
    """A failure with long values cut."""
    return re.sub(r"(\S{40})\S{40,}(\S{10})", r"\1..\2", failure)[:4000]


def compare(connection, state, journal):
    """Whether the store shows what the model has, and tells of the batches of the journal."""
    rows = [it for it in connection.shown("alts")[:-1] if it.split(" ")[1] != OWN]
    same("alts", answered(state, "alts")[0][:-1], rows)
    for name in state.tree:
        for verb in ("list", "checks", *(["changes"] if name != "top" else [])):
            line = f"{verb} {name}"
            same(line, answered(state, line)[0], connection.shown(line))
    same("batches", [f"batches {journal.last}"], connection.ask(["batches"]))
    compare_own(connection.shown(f"checks {OWN}"), connection.shown(f"changes {OWN}"), journal)


def compare_own(checks, changes, journal):
    """Whether the alternative of the service names the last batches: the only checkpoint one of them, and the records
    those after it, in their order."""
    if len(checks) != 2 or not re.fullmatch("checkpoint [0-9]+", checks[0]):
        raise Failure(f"checks {OWN}: {checks}")
    number = int(checks[0].split(" ")[1])
    told, due = told_by(changes[:-1]), [it for it in journal.kept if it["batch"] > number]
    if number > journal.last or len(told) != len(due) or not due and number != journal.last:
        last = f"the last one {told[-1:]}"
        raise Failure(f"{OWN} tells of {number} batches and {len(told)} more, {last}, and the journal of {journal.last}")
    for line, batch in zip(told, due):
        # The numbers are known by the order, and how many records a merge has changed is not known.
        unknown = {"batch": 0, "records": 0} if any(it.startswith("merge ") for it in batch["lines"]) else {"batch": 0}
        if {**line, **unknown} != {**batch, **unknown}:
            raise Failure(f"{OWN} tells {line}, and the journal {batch}")


def told_by(rows):
    """The batches that the records of the service tell, by the rows of its changes. A record of many bytes goes over
    several tables, and each begins with digits by chance."""
    found = {}
    for _, table, key, _, value in (it.split(" ") for it in rows):
        if int(table) >= RECORDS and value != "~":
            found.setdefault(int(key), []).append((-int(table), unquote_to_bytes(value)[DIGITS:]))
    texts = [b"".join(text for _, text in sorted(found[key])) for key in sorted(found)]
    try:
        return list(map(json.loads, texts))
    except ValueError:
        raise Failure(f"a record of {OWN} is no line of a journal: {texts}") from None


# --- a trial --------------------------------------------------------------------------------------


class Service:
    """The service over a file, which is started again and again."""

    def __init__(self, said, file, faults):
        self.said, self.file, self.faults = said, file, faults
        self.process = None

    def start(self, variables=None):
        words = [sys.executable, self.said.service, "--program", self.said.altctl, self.file]
        with open(self.faults, "wb") as faults:
            self.process = subprocess.Popen(words, stderr=faults, env=variables)

    def told(self):
        return Path(self.faults).read_text(errors="replace")[-2000:]

    def connect(self):
        late = time.monotonic() + 120
        while True:
            try:
                return Connection(f"{self.file}.sock")
            except OSError:
                if self.process.poll() is not None or time.monotonic() > late:
                    raise Failure(f"the service did not start: {self.told()}") from None
                time.sleep(0.005)

    def programs(self):
        """The processes that it has started."""
        tasks = Path(f"/proc/{self.process.pid}/task").iterdir()
        return [child for it in tasks for child in (it / "children").read_text().split()]

    def kill_program(self):
        """Kills the program. Returns False if there is none at this moment."""
        try:
            children = self.programs()
            for it in children:
                os.kill(int(it), signal.SIGKILL)
        except (OSError, ValueError):
            return False
        return bool(children)

    def end(self):
        """Ends it, and looks whether it ends as it should."""
        self.process.terminate()
        status = self.process.wait()
        if status or "Traceback" in self.told():
            raise Failure(f"the service ended with status {status}: {self.told()}")

    def stop(self):
        if self.process is not None and self.process.poll() is None:
            self.process.kill()
            self.process.wait()


class Trial:
    def __init__(self, said, folder, seed):
        self.service, self.count = Service(said, f"{folder}/map.alt", f"{folder}/said"), Counter()
        self.chance = random.Random(seed)
        self.planners = [Planner(number, random.Random(f"{seed} {number}")) for number in range(PLANNERS)]
        self.state = kill.EMPTY._replace(blocks=BLOCKS)
        self.journal = GrowingJournal(f"{self.service.file}.journal")
        subprocess.run(
            [said.altctl, "create", self.service.file, str(BLOCKS)], check=True, stdout=subprocess.DEVNULL
        )

    def kills(self):
        return sum(number for what, number in self.count.items() if what.startswith("kills"))

    def life(self):
        """One service, from its start until it is killed, with planners at work. Its program may be killed before, or
        with it."""
        is_over, path = threading.Event(), f"{self.service.file}.sock"
        work = [threading.Thread(target=it.work, args=(path, is_over, self.state)) for it in self.planners]
        self.service.start()
        for it in work:
            it.start()
        try:
            # Some are killed while they start; most while planners write.
            has_started = self.chance.random() < 0.9 and self.has_started()
            while self.chance.random() < 0.4:
                time.sleep(self.chance.uniform(0, LONGEST_LIFE))
                self.count["kills of the program"] += self.service.kill_program()
            time.sleep(self.chance.uniform(0, LONGEST_LIFE))
            if has_started or self.service.process.poll() is None:
                self.end_life()
            self.count["starts that ended with their program"] += self.service.process.poll() in (1, 3)
        finally:
            self.service.stop()
            is_over.set()
            for it in work:
                it.join()

    def has_started(self):
        """Waits for a service that answers."""
        connection = self.service.connect()
        answers = connection.ask(["whoami"])
        connection.close()
        return answers is not None

    def end_life(self):
        how, process = self.chance.random(), self.service.process
        if process.poll() is not None:
            raise Failure(f"the service ended with status {process.poll()}: {self.service.told()}")
        if how < 0.4:
            # Both, the program first or last, with hardly a moment between.
            first = self.chance.random() < 0.5
            killed = self.service.kill_program() if first else False
            process.kill()
            killed = killed or self.service.kill_program()
            self.count["kills of both"] += killed
            self.count["kills of the service"] += not killed
        elif how < 0.9:
            process.kill()
            self.count["kills of the service"] += 1
        else:
            process.terminate()
            self.count["ends by TERM"] += 1
        process.wait()

    def look(self):
        """Whether store, journal and what was answered agree. The service has been started again for it."""
        self.service.start()
        connection = self.service.connect()
        try:
            connection.ask(["whoami"])
            self.replay(self.journal.settled())
            compare(connection, self.state, self.journal)
        finally:
            connection.close()
        self.service.end()

    def replay(self, batches):
        """Carries the batches out in the model, and compares the answers with those that planners got."""
        sent = {tag: it for planner in self.planners for tag, it in planner.sent.items()}
        for batch in batches:
            it = sent.pop(tag_of(batch), None)
            if it is None:
                raise Failure(f"a batch that nobody sent, or that came twice: {batch}")
            self.state = replayed(self.state, batch, it)
            look_at_seen(batch, it, batches)
            self.note(it)
        for it in sent.values():
            if it.due not in (None, "refused"):
                raise Failure(f"lost: {it.lines} was acknowledged, and is not in the journal")
            self.count["batches refused"] += it.due == "refused"
            self.count["not answered and not in the store"] += it.due is None
        for planner in self.planners:
            if planner.fault is not None:
                raise Failure(planner.fault)
            planner.sent.clear()

    def note(self, sent):
        """Counts a batch that is in the store."""
        self.count["batches in the store"] += 1
        self.count["of these, not answered"] += sent.due is None
        self.count["of these, with `begin ALT=N`"] += sent.seen is not None
        self.count["of these, with a merge and a post"] += any(it.startswith("post ") for it in sent.lines)
        self.count["of these, larger than 64,000 bytes"] += sum(map(len, sent.lines)) > 64_000


def tried(words):
    """One trial: a failure or None, and what it counted."""
    said, number, count = words
    with tempfile.TemporaryDirectory() as folder:
        trial = Trial(said, folder, f"{said.seed} {number}")
        try:
            while trial.kills() < count:
                trial.life()
                trial.look()
        except Failure as failure:
            return f"seed {said.seed}, trial {number}, after {trial.kills()} kills: {failure}", trial.count
        finally:
            trial.service.stop()
    return None, trial.count


def arguments(about, count):
    parser = argparse.ArgumentParser(description=about.split(":")[0])
    parser.add_argument("altctl", nargs="?", default=str(TOP / "altctl"))
    parser.add_argument("count", nargs="?", type=int, default=count)
    parser.add_argument("seed", nargs="?", type=int, default=1)
    parser.add_argument("--service", default=ALTSERVE, metavar="PATH", help="another altserve")
    parser.add_argument("--jobs", type=int, default=1, metavar="N", help="so many processes at once")
    return parser


def parsed(parser):
    said = parser.parse_args()
    said.altctl, said.service = map(os.path.abspath, (said.altctl, said.service))
    subprocess.run([said.altctl, "--help"], stdout=subprocess.DEVNULL, check=True)
    return said


def shared_out(said, work, most):
    """Has work done in parts of at most so many each, and gives the failures and what was counted."""
    parts = [(said, number, min(most, said.count - at)) for number, at in enumerate(range(0, said.count, most), 1)]
    failures, count = [], Counter()
    with multiprocessing.Pool(said.jobs) as pool:
        for failure, counted in pool.imap_unordered(work, parts):
            failures += [failure] if failure else []
            count.update(counted)
    return failures, count


def main():
    said = parsed(arguments(__doc__, 100))
    failures, count = shared_out(said, tried, TRIAL)
    kills = sum(number for what, number in count.items() if what.startswith("kills"))
    for it in failures:
        print(f"kill_service: {short(it)}")
    if not failures:
        print(f"kill_service: all is as acknowledged, and the journal agrees, seed {said.seed}: {kills} kills, 0 lost")
    for what, number in count.items():
        print(f"    {number} {what}")
    return int(bool(failures))


if __name__ == "__main__":
    sys.exit(main())
