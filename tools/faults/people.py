"""Planners at work at several stores, and what became of each change, for `travels.py`.

The model knows nothing of how designs travel: each put has a value of its own, and supersedes the value that its
planner saw; a settlement supersedes the side that it gives up."""
import contextlib
import random
import socket
import subprocess
import time

TABLES, KEYS = (7, 107), 12
PATIENCE = 600  # seconds that nothing takes, on a busy machine either


class Failure(Exception):
    pass


class Gone(Exception):
    """The other end is gone: what was asked may be done or not."""


class History:
    """What became of each change of a record: which others it supersedes. A put is known by its value, which no other
    one has, and a removal by a number of its own; who sees no value sees every removal so far."""

    def __init__(self):
        self.changes, self.count = {}, 0

    def new_value(self, who):
        self.count += 1
        return f"{who}-{self.count}"

    def seen(self, key, value):
        """The changes that a planner sees who sees this value, or None."""
        return {it for it in self.changes.get(key, ()) if it.startswith("~")} if value in (None, "~") else {value}

    def put(self, key, saw, value):
        """A planner who saw a value put another one, or removed it: None."""
        if value is None:
            value = self.new_value("~")
        self.changes.setdefault(key, {}).setdefault(value, set()).update(self.seen(key, saw))

    def settle(self, key, kept, lost):
        for it in self.seen(key, kept):
            self.changes[key][it] |= self.seen(key, lost) - {it}

    def superseded(self, key, changes, but=frozenset()):
        """What these changes supersede, at once or by others that are none of `but`."""
        found, waiting = set(), list(changes)
        while waiting:
            new = self.changes[key][waiting.pop()] - found - but
            found |= new
            waiting += new
        return found

    def fault(self, top):
        """What is wrong with the records that `top` shows in the end, or None. Each value that was put is there, or
        what is there supersedes it, or a removal does. No removal supersedes what is there, unless that supersedes it,
        too: two people who settle the same at the same time may each keep what the other gives up, and then either may
        be there. So it says nothing either that a removal supersedes something which supersedes what is there, if what
        is there supersedes that. Two removals are one change, and to put and to remove again is none, so a removal need
        not be superseded."""
        for key, known in self.changes.items():
            shown, removals = self.seen(key, top.get(key)), self.seen(key, None)
            if not shown or not shown <= known.keys():
                return f"{key} is {top.get(key)}, and nobody put that"
            lost = known.keys() - self.superseded(key, shown | removals) - shown - removals
            if lost:
                return f"{key} is {top.get(key)}, and nothing there supersedes {lost}: {known}"
            before = self.superseded(key, shown) - shown
            later = removals - shown - before
            if shown & self.superseded(key, later, before):
                return f"{key} is {top.get(key)}, which was removed by {later}: {known}"
        for key in top.keys() - self.changes.keys():
            return f"{key} was put by nobody"
        return None


class Lines:
    """Somebody who asks a service, or the program at a file, by lines."""

    def __init__(self, world, place):
        self.world, self.place, self.is_service = world, place, place.endswith(".sock")
        if self.is_service:
            self.socket = socket.socket(socket.AF_UNIX)
            late = time.monotonic() + PATIENCE
            while True:
                try:
                    self.socket.connect(place)
                    break
                except OSError:
                    if time.monotonic() > late:
                        raise Failure(f"nobody serves {place}") from None
                    time.sleep(0.01)
                    world.serve_again()
            self.write, self.read = self.socket.makefile("w"), self.socket.makefile("r")
        else:
            self.process = subprocess.Popen(
                [world.altctl, "run", "--wait", "--grow", place],
                stdin=subprocess.PIPE,
                stdout=subprocess.PIPE,
                text=True,
            )
            self.write, self.read = self.process.stdin, self.process.stdout

    def __enter__(self):
        return self

    def __exit__(self, *_):
        with contextlib.suppress(OSError):
            self.write.close()
        self.read.close()
        if self.is_service:
            self.socket.close()
        else:
            self.process.wait()

    def answers(self, lines):
        try:
            self.write.write("".join(f"{it}\n" for it in lines))
            self.write.flush()
            found = [self.read.readline() for _ in lines]
        except OSError:
            raise Gone from None
        if not all(it.endswith("\n") for it in found):
            raise Gone
        return [it.split() for it in found]

    def batch(self, *lines):
        """Lines that take effect together. Returns the words of the refusal, or None."""
        around = (["begin"], ["commit"]) if self.is_service else ([], [])
        found = self.answers([*around[0], *lines, *([] if not self.is_service else around[1])])
        refused = next((it for it in found if it[0] == "error" and it[1] != "91"), None)
        if not self.is_service:
            self.answers(["rollback" if refused else "commit"])
        return refused

    def get(self, at, key):
        [words] = self.answers([f"get {at} {key[0]} {key[1]}"])
        return words[1] if words[0] == "value" else None

    def rows(self, line):
        try:
            self.write.write(line + "\n")
            self.write.flush()
            found = []
            while True:
                words = self.read.readline().split()
                if not words:
                    raise Gone
                if words[0] in ("end", "error"):
                    return found
                found.append(words[1:])
        except OSError:
            raise Gone from None

    def parents(self):
        return {alt: parent for alt, parent in self.rows("alts") if not alt.startswith(".")}


class Planner:
    """A person at HEAD or in an office, who works as planners do: in a design of their own below another one, which
    they merge, settle and post. What was interrupted they look after first."""

    def __init__(self, world, who, place, designs):
        self.world, self.who, self.place, self.designs = world, who, place, designs
        self.chance, self.count, self.doubt = random.Random(f"{world.seed} {who}"), 0, None

    def work(self):
        place = self.place()
        with Lines(self.world, place) as lines:
            self.look_after(lines)
            for _ in range(self.chance.randrange(1, 4)):
                self.act(lines)

    def look_after(self, lines):
        """Finds out about what was not answered."""
        if self.doubt is not None:
            is_done, note = self.doubt
            if is_done(lines):
                note()
            self.doubt = None

    def sure(self, lines, batch, is_done, note):
        """Has a batch carried out. If its answer does not come, the next look tells. Returns its refusal."""
        self.doubt = is_done, note
        refused = lines.batch(*batch)
        self.doubt = None
        if refused is None:
            note()
        return refused

    def act(self, lines):
        parents = lines.parents()
        mine = f"w{self.who}"
        if mine in parents and (self.chance.random() < 0.5 or self.world.is_over):
            self.bring_in(lines, mine, parents[mine])
        elif mine in parents:
            self.edit(lines, mine)
        else:
            others = [it for it in parents if it != "top" and not it.startswith("w")]
            what = self.chance.random()
            if what < 0.5 or not others:
                under = self.chance.choice([it for it in self.designs if it in parents] + self.extra(others))
                if lines.batch(f"new {mine} {under}") is None:
                    self.edit(lines, mine)
            elif what < 0.75:
                self.merge(lines, self.chance.choice(others))
            else:
                self.tend(lines, parents)

    def extra(self, others):
        return [it for it in others if it.startswith("n" + self.who)]

    def edit(self, lines, design):
        for _ in range(self.chance.randrange(1, 6)):
            key = self.chance.choice(TABLES), self.chance.randrange(KEYS)
            saw, value = lines.get(design, key), self.world.history.new_value(self.who)
            line = f"put {design} {key[0]} {key[1]} {value}"
            if saw is not None and self.chance.random() < 0.2:
                line, value = f"remove {design} {key[0]} {key[1]}", None
            self.sure(
                lines,
                [line],
                lambda it: it.get(design, key) == value,
                lambda: self.world.history.put(key, saw, value),
            )

    def settlement(self, lines, design):
        """The words that settle what is in conflict, and what they supersede."""
        words, given_up = [], []
        for table, number, _, parent, mine in lines.rows(f"conflicts {design}"):
            side = self.chance.choice(("mine", "theirs"))
            words.append(f"{table}:{number}={side}")
            kept, lost = (mine, parent) if side == "mine" else (parent, mine)
            given_up.append(((int(table), int(number)), kept, lost))
        return " ".join([f"merge {design}", *words]), given_up

    def note(self, given_up):
        for it in given_up:
            self.world.history.settle(*it)
        self.world.count["settled by name"] += len(given_up)

    def bring_in(self, lines, design, under):
        """Merges a design, posts it and drops it."""
        for _ in range(20):
            merge, given_up = self.settlement(lines, design)
            refused = self.sure(
                lines,
                [merge, f"post {design}", f"drop {design}"],
                lambda it: design not in it.parents(),
                lambda: self.note(given_up),
            )
            if refused is None or refused[1] not in ("9", "10", "8"):
                return

    def merge(self, lines, design):
        merge, given_up = self.settlement(lines, design)
        keys = [it[0] for it in given_up]
        self.sure(
            lines,
            [merge],
            lambda it: not keys
            or all([int(row[0]), int(row[1])] != list(keys[0]) for row in it.rows(f"conflicts {design}")),
            lambda: self.note(given_up),
        )


class AtHead(Planner):
    def tend(self, lines, parents):
        """Takes an office's own version in, or, now and then, ends a design."""
        leaves = [
            it for it in parents if it not in parents.values() and it not in self.designs and not it.startswith("w")
        ]
        if leaves and (self.chance.random() < 0.6 or self.world.is_over):
            design = self.chance.choice(leaves)
            self.bring_in(lines, design, parents[design])


class InOffice(Planner):
    def tend(self, lines, parents):
        """Makes a design of the office's own, or takes one that the tool left beside another into that."""
        left = [it for it in parents if f".{self.who}" in it and it not in parents.values()]
        if left and self.chance.random() < 0.7:
            design = self.chance.choice(left)
            if parents[design] != "top" and self.is_local(lines, design):
                self.bring_in(lines, design, parents[design])
        elif len(parents) < 8:
            self.count += 1
            lines.batch(f"new n{self.who}{self.count} top")

    def is_local(self, lines, design):
        """Whether HEAD has nothing of a design: there its planners look after it."""
        return not any(it[0].startswith(".office.") for it in lines.rows(f"checks {design}"))
