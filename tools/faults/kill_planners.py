#!/usr/bin/env python3
"""Has planners send random lines and batches, by turns and long before they are answered, in the one stream of
`altctl serve --planners` over one real file, compares each answer with a plain model, kills the program at random
moments, and looks each time whether the file then shows each batch that was acknowledged as a whole, at most one more,
or one more group of those that waited, and no part of another: `tools/faults/kill_planners.py [ALTCTL] [COUNT] [SEED]`.
The status is 1 if it does not. The model is that of `kill.py`, the lives are those of `kill_batches.py`. Half of them
are over a small store, which is full at times, and half over one that never is."""
import queue
import signal
import sys
import threading
from collections import Counter, deque
from pathlib import Path
from typing import NamedTuple

sys.dont_write_bytecode = True
sys.path.insert(0, str(Path(__file__).resolve().parent))
from kill import COMMANDS, EDITS, Failure, answered, change, part_query, pick, unlike
from kill_batches import Life, carried_out, is_full, is_own_growth, main, refused

NUMBERS = [*range(1, 10), 4294967295]
# A store of so many blocks is full at times, and one of so many never is.
SMALL, LARGE = 64, 16384
# Up to so many lines are sent before they are answered.
MOST_AHEAD = 60
NO_CHANGES = ["list top", "alts", "begin", "free"]
BLANK = ["", "  ", "# a note"]
STRANGE = ["line 0 commit", "line x commit", "line 4294967296 commit", "join", "join 1 2", "leave 0", "commit"]
STRANGE += ["go on", "go # a note", "later", "later 0 commit", "later x commit"]
# The words that end a batch, or do nothing outside of one.
ENDS = ["commit", "abort", "rollback"]
CHANGES = [*EDITS, *(it for it in COMMANDS if it not in ENDS), "grow"]
COUNT = Counter()


class Said(NamedTuple):
    """A line of the stream: `join`, `leave`, `line` or `later`, a planner, and the line that it says; or `go`; or any
    text."""

    verb: str
    number: int
    part: str

    def __str__(self):
        if self.verb == "go":
            return self.verb
        return self.part if not self.verb else f"{self.verb} {self.number} {self.part}".rstrip()


class Ended(NamedTuple):
    """A batch that has ended and waits."""

    number: int
    lines: list
    is_begun: bool

    def carried_out(self, state):
        """What its planner is answered, label and all, and the state that it leaves."""
        answers, after = carried_out(state, self.lines) if self.is_begun else answered(state, self.lines[0])
        return [f"@{self.number}", *answers], after

    def forgotten(self):
        return [f"@{self.number}", *["error 92 Aborted"] * (len(self.lines) + self.is_begun)]


def is_blank(part):
    return not part.split() or part.split()[0].startswith("#")


def is_refused(answers):
    return any(it.startswith("error ") for it in answers)


class Stream:
    """What a stream of planners is answered, and what it does: those who have joined, in order, with the lines of
    the batch that each has begun, or None; and the batches that wait, in the order in which they ended."""

    def __init__(self, state):
        self.state, self.batches, self.waiting = state, {}, []

    def settles_first(self, said):
        """Whether all that waits is carried out before this line."""
        return said.verb == "go" or said.verb != "" and any(it.number == said.number for it in self.waiting)

    def group(self):
        """The states that the first of the batches that wait leave, one after another, before one that is refused:
        they are committed together."""
        state = self.state
        for it in self.waiting:
            answers, state = it.carried_out(state)
            if is_refused(answers):
                return
            yield state

    def answered(self, said):
        """The answers to a line before which nothing is carried out, and the state that it leaves."""
        number, state = said.number, self.state
        if said.verb == "go":
            return ["@0", "ok"], state
        if not said.verb:
            return ([] if is_blank(said.part) else ["@0", "error 22 BadLine word 1: there is no such line"]), state
        if said.verb == "join" and number in self.batches:
            return [f"@{number}", "error 107 PlannerExists"], state
        if said.verb == "join":
            self.batches[number] = None
            return [f"@{number}", "ok"], state
        if number not in self.batches:
            return [f"@{number}", "error 106 NoSuchPlanner"], state
        if said.verb == "leave":
            return self.parted(number), state
        if is_blank(said.part):
            return [], state
        if said.verb == "later" and self.waits(number, said.part):
            return [], state
        answers, after = self.answered_in_batch(number, said.part)
        return [f"@{number}", *answers] if answers else [], after

    def waits(self, number, part):
        """Puts a batch that ends with this line behind those that wait, if it has lines and none of them is lost."""
        batch = self.batches[number]
        if batch is None and part.split()[0] in CHANGES:
            self.waiting.append(Ended(number, [part], False))
            return True
        if batch and part == "commit" and not any(it in NO_CHANGES for it in batch):
            self.waiting.append(Ended(number, batch, True))
            self.batches[number] = None
            return True
        return False

    def answered_in_batch(self, number, part):
        """The answers to a line with words, without their label, and the state that it leaves."""
        batch, state = self.batches[number], self.state
        if batch is None:
            self.batches[number] = [] if part == "begin" else None
            return (["ok"], state) if part in ["begin", *ENDS] else answered(state, part)
        if part not in ENDS:
            batch.append(part)
            return [], state
        self.batches[number] = None
        if part != "commit":
            return [*["error 92 Aborted"] * len(batch), "ok"], state
        for place, line in enumerate(batch):
            if line in NO_CHANGES:
                return refused(len(batch), place, "error 93 NotInBatch"), state
        return carried_out(state, batch)

    def parted(self, number):
        """The answers to one who leaves."""
        batch = self.batches.pop(number)
        return [] if batch is None else [f"@{number}", *["error 92 Aborted"] * len(batch)]

    def ended(self, half):
        """The answers to the end of the input."""
        answers = [line for it in self.waiting for line in it.forgotten()]
        answers += [line for number in list(self.batches) for line in self.parted(number)]
        return [*answers, "@0", "error 96 HalfLine"] if half else answers


class Seats:
    """Who will have joined once all that was sent is taken, whether each will have begun a batch, and about whose will
    wait."""

    def __init__(self, grows, chance):
        self.begun, self.waiting, self.grows = {}, set(), grows
        # How many of the lines are said by `later`.
        self.later = chance.choice([0, 0.3, 0.9])

    def next(self, chance, state):
        """A line to send."""
        verb = chance.choices(["line", "join", "leave", "go", ""], [88, 5, 1, 3, 3])[0]
        if not verb:
            return Said("", 0, chance.choice(STRANGE + BLANK))
        if verb == "go":
            self.waiting.clear()
            return Said("go", 0, "")
        if verb == "join" or not self.begun:
            number = chance.choice(NUMBERS)
            self.begun.setdefault(number, False)
            return self.said("join", number)
        # Mostly one whose batch does not wait, so that several come to wait.
        number = pick(chance, self.begun, NUMBERS)
        if number in self.waiting and chance.random() < 0.9:
            number = pick(chance, [it for it in self.begun if it not in self.waiting], NUMBERS)
        if verb == "leave":
            self.begun.pop(number, None)
            return self.said("leave", number)
        part = self.part(chance, state, self.begun.get(number, False))
        return self.said("later" if chance.random() < self.later else "line", number, part)

    def said(self, verb, number, part=""):
        """Notes what a line will do."""
        if number in self.waiting:
            self.waiting.clear()
        if number in self.begun:
            is_last = part == "commit" if self.begun[number] else part.split(" ")[0] in CHANGES
            if verb == "later" and is_last:
                self.waiting.add(number)
            if part in ["begin", *ENDS]:
                self.begun[number] = part == "begin"
        return Said(verb, number, part)

    def part(self, chance, state, in_batch):
        """A line that a planner says in a batch, or outside of one."""
        inside = {"change": 72, "commit": 20, "abort": 3, "query": 1, "blank": 4}
        outside = {"change": 20, "begin": 50, "query": 20, "word": 5, "blank": 5}
        kinds = inside if in_batch else outside
        kind = chance.choices(list(kinds), list(kinds.values()))[0]
        if kind == "change":
            line = change(chance, state, True)
            return chance.choice(BLANK) if is_own_growth(self.grows, line) else line
        if kind == "query":
            return chance.choice(NO_CHANGES if in_batch else ["alts", part_query(chance, state.tree)])
        if kind == "word":
            return chance.choice(ENDS)
        return chance.choice(BLANK) if kind == "blank" else kind


class PlannersLife(Life):
    """One process and its planners."""

    JOB = ["serve", "--planners"]
    # Many small ones, as each is grown after a while.
    SIZES = [SMALL] * 10 + [LARGE] * 10

    def __init__(self, altctl, file, chance, state, count):
        super().__init__(altctl, file, chance, state, count)
        self.stream, self.ahead = Stream(state), chance.choice([1, 8, MOST_AHEAD])
        # Where the store may be full, a group may be committed in parts: the model does not know of blocks.
        self.is_ample = self.grows or state.blocks >= LARGE
        self.texts = queue.SimpleQueue()
        self.sender = threading.Thread(target=self.send)
        self.sender.start()

    def send(self):
        """Sends texts up to one that is None, or until the program ends."""
        try:
            for text in iter(self.texts.get, None):
                self.process.stdin.write(text.encode())
                self.process.stdin.flush()
            self.process.stdin.close()
        except BrokenPipeError:
            pass  # It was killed.

    def live(self):
        seats, sent = Seats(self.grows, self.chance), deque()
        for _ in range(self.count):
            if not sent or len(sent) < self.ahead // 2:
                lines = [seats.next(self.chance, self.state) for _ in range(self.ahead - len(sent))]
                sent.extend(lines)
                self.texts.put("".join(f"{it}\n" for it in lines))
            if not self.take(sent.popleft()):
                COUNT["lines that were sent and not taken"] += len(sent)
                return
        self.close(sent)

    def take(self, said):
        """Reads what a line is answered, and before it what waits, if that is carried out first. False where the
        program ended before."""
        if self.stream.settles_first(said) and not self.settle():
            return False
        expected, after = self.stream.answered(said)
        possible = [self.state, after]
        return self.read(said, expected, after, possible, possible)

    def settle(self):
        """Reads what those are answered whose batches wait. False where the program ended before."""
        while self.stream.waiting:
            group = list(self.stream.group())
            if group and not self.settle_group(group):
                return False
            if not group:
                it = self.stream.waiting.pop(0)
                expected, _ = it.carried_out(self.state)
                if not self.read(it, expected, self.state, [self.state], [self.state]):
                    return False
                COUNT["batches that waited and were refused"] += 1
        return True

    def settle_group(self, group):
        """Reads what those are answered whose batches are committed together, up to one that is refused after all, as
        the store is full. False where the program ended before."""
        for place, after in enumerate(group):
            # Once one of them is answered, all are committed.
            there = group[-1:] if self.is_ample else group[place:]
            before = there if place and self.is_ample else [self.state, *there]
            it = self.stream.waiting.pop(0)
            expected, _ = it.carried_out(self.state)
            if not self.read(it, expected, after, before, there):
                COUNT["groups of several batches under way"] += len(group) > 1
                return False
            if self.state is not after:
                return True
        COUNT["batches that waited"] += len(group)
        COUNT["groups of several batches"] += len(group) > 1
        return True

    def read(self, said, expected, after, before, there):
        """Reads an answer, after which a state is reached. False where the program ended before: it may have left one
        of the states before, and if some of the answer came, one of those that are there."""
        self.possible = before
        came, is_whole = self.answers(expected)
        if not is_whole:
            self.look_at_end(str(said), expected, came)
            if len(came) > 1:
                self.possible = there
            COUNT["batches and changes under way"] += len(self.possible) > 1 and after is not self.state
            return False
        # A change for which there is no block, or a batch with one.
        may_be_full = not self.is_ample and is_full(expected, came) and came[0] == expected[0]
        if came != expected and not may_be_full:
            raise Failure(f"{said}\n{unlike(str(said), expected, came)}")
        if came != expected:
            COUNT["refusals of a full store"] += 1
        elif after is not self.state:
            COUNT["batches and changes acknowledged"] += 1
            COUNT["batches of several lines"] += len(expected) > 3
            self.state = self.stream.state = after
        self.possible = [self.state]
        return True

    def look_at_end(self, line, expected, came):
        """The program has ended here: it must have been killed."""
        status = self.process.wait()
        if status != -signal.SIGKILL:
            raise Failure(f"the program ended with status {status}: {unlike(line, expected, came)}")

    def close(self, sent):
        """Takes what was sent, and ends the input, sometimes within a line."""
        half = self.chance.choice(["", "line 1 commit", "join", "go", "later 1 reclaim"])
        self.texts.put(half)
        self.texts.put(None)
        while sent:
            if not self.take(sent.popleft()):
                return
        expected = self.stream.ended(half)
        COUNT["ends of the input while a batch waits"] += bool(self.stream.waiting)
        came = self.process.stdout.read().decode().splitlines()
        if came != expected or self.process.wait():
            self.look_at_end("the end of the input", expected, came)
        COUNT["ends of the input"] += came == expected

    def end(self):
        self.texts.put(None)
        self.sender.join()
        super().end()


if __name__ == "__main__":
    status = main(PlannersLife, __doc__)
    for what, number in COUNT.items():
        print(f"    {number} {what}")
    sys.exit(status)
