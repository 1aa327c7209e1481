"""How HEAD's changes come to the clone.

HEAD first gets a new mark on each design, in one batch; what differs between the old mark and the new one is read,
however long that takes, and one batch in the clone brings it there and names the new mark. In the clone a design then
is what it is at HEAD, with its own changes merged on top; if that gives conflicts, its own changes become a design
beside it."""
from typing import Dict, List, NamedTuple, Optional

from carry import names
from carry.batch import Batch
from carry.links import Fault
from carry.names import MINE, base_mark, beside, mark, passing
from carry.pair import Pair
from carry.pushing import finish
from carry.versions import Differences, Rebase, after, between, clashes, values

MOST_TRIES = 5


class Incoming(NamedTuple):
    """What came of a design: its parent at HEAD, what differs from the mark to its records (of a new one: from its
    parent's mark), and from its parent's mark to its base."""

    parent: Optional[str]
    rows: Differences
    base: Differences


class Local(NamedTuple):
    """What a design of the clone has of its own: its changes since the mark, what differs from its parent's mark to
    its base as both knew it, and to its base now."""

    rows: Differences
    base: Differences
    base_now: Differences


class Pull:
    def __init__(self, pair: Pair, asked: List[str]):
        self.pair, self.asked, self.token = pair, asked, names.new_token()
        self.frozen = mark(pair.name, self.token)
        self.incoming: Dict[str, Incoming] = {}
        self.said, self.last, self.dropped, self.left = [], [], set(), []

    # --- at HEAD ----------------------------------------------------------------------------------

    def fetch(self) -> None:
        """Marks the designs at HEAD, and reads what came since the last mark. A base cannot be marked: it is read
        before and after, and again if it has changed meanwhile."""
        pair = self.pair
        designs = [it for it in pair.carried() if pair.is_there(it)]
        designs += [it for it in self.asked if it not in pair.marks]
        parents = {it: pair.there.parents[it] for it in designs}
        nearest = {it: self._nearest(it, parents[it]) for it in designs if parents[it]}
        bases = [(known, f"{it}@") for it, known in nearest.items()]
        for _ in range(MOST_TRIES):
            before = pair.differ(pair.head, *bases)
            self._freeze(designs)
            known = [
                (pair.mark(it) if it in pair.marks else pair.mark(parents[it]), f"{it}@{self.frozen}") for it in designs
            ]
            found = pair.differ(pair.head, *bases, *known)
            if found[: len(bases)] == before:
                break
            pair.tidy()
        else:
            raise Fault("HEAD's designs are merged all the time: try again later")
        rows = dict(zip(designs, found[len(bases) :]))
        base = {it: self._from_parent(it, parents[it], *its) for it, its in zip(nearest, zip(nearest.values(), before))}
        self.incoming = {it: Incoming(parents[it], rows[it], base.get(it, {})) for it in designs}

    def _nearest(self, design: str, parent: str) -> str:
        """The version that both know from which a design's base is read: its parent's mark, or its own one. The nearer
        one makes the answer short, however much the parent has changed since the last merge."""
        pair = self.pair
        known = [pair.mark(it) for it in (parent, design) if it in pair.marks]
        if len(known) == 1 or pair.parent(design) != parent:
            return known[0]
        found = pair.differ(pair.clone, *((it, pair.base(design)) for it in known))
        return min(zip(map(len, found), known), key=lambda it: it[0])[1]

    def _from_parent(self, design: str, parent: str, known: str, rows: Differences) -> Differences:
        """What differs from the parent's mark to the base, where `rows` are what differs from a known version to it."""
        pair = self.pair
        if known == pair.mark(parent):
            return rows
        [to_parent] = pair.differ(pair.clone, (known, pair.mark(parent)))
        return between(to_parent, rows)

    def _freeze(self, designs: List[str]) -> None:
        batch, pair = Batch(), self.pair
        pair.freeze_there(batch, self.token)
        for it in designs:
            batch.add("checkpoint", it, self.frozen)
        pair.carry_out(pair.head, batch)
        pair.note_there(self.token, designs)

    # --- in the clone -----------------------------------------------------------------------------

    def apply(self) -> None:
        """Brings it to the clone, in one batch."""
        pair = self.pair
        own = [it for it in self.incoming if it in pair.marks]
        changed = self._changed_here(own)
        local = self._local(own, changed)
        batch = Batch()
        pair.renew_here(batch, [self.token])
        for it, came in self.incoming.items():
            if it not in pair.marks:
                self._add(batch, it, came)
            elif came.rows or came.base != local[it].base:
                self._bring(batch, it, came, local[it])
        for it in reversed(pair.carried()):
            if it not in self.incoming:
                self._let_go(batch, it)
        for it, checks in pair.here.checks.items():
            if MINE in checks and it not in self.dropped:
                batch.add("uncheck", it, MINE)
        batch.lines += self.last
        pair.carry_out(pair.clone, batch)
        pair.beside += self.left
        for text in self.said:
            pair.say(text)

    def _changed_here(self, designs: List[str]) -> List[str]:
        pair = self.pair
        pairs = [(pair.mark(it), it) for it in designs]
        changed = [it for it, rows in zip(designs, pair.differ(pair.clone, *pairs)) if rows]
        pair.hold_mine(changed)
        return changed

    def _local(self, designs: List[str], changed: List[str]) -> Dict[str, Local]:
        pair, found = self.pair, {}
        for it in designs:
            pairs = [(pair.mark(it), f"{it}@{MINE}")] if it in changed else []
            pairs += pair.base_pairs(it) if pair.parent(it) else []
            answers = iter(pair.differ(pair.clone, *pairs))
            rows = next(answers) if it in changed else {}
            base, base_now = (next(answers), next(answers)) if pair.parent(it) else ({}, {})
            found[it] = Local(rows, base, base_now)
        return found

    def _add(self, batch: Batch, design: str, came: Incoming) -> None:
        """A design that the clone does not have yet."""
        pair = self.pair
        if design in pair.here.parents:
            raise Fault(
                f"{design} is at HEAD, and another design of this name is here: drop that, or give HEAD's another name"
            )
        pair.set_base(batch, design, came.parent, after(came.base))
        batch.add("new", design, came.parent, base_mark(design))
        batch.restore(came.parent)
        batch.set(design, after(between(came.base, came.rows)))
        batch.add("checkpoint", design, self.frozen)
        self.said.append(f"{design}: new here")

    def _bring(self, batch: Batch, design: str, came: Incoming, local: Local) -> None:
        """A design that has changed at HEAD."""
        pair = self.pair
        if came.parent != pair.parent(design):
            raise Fault(f"{design} lies under another design at HEAD than here")
        self._compare_before(design, came.rows)
        self.last.append(("uncheck", (design, pair.check(design))))
        has_moved = local.base_now != local.base
        fights = clashes(local.rows, came.rows)
        if not local.rows and not has_moved:
            batch.guard(design, pair.check(design), passing(design, self.token))
            self._become(batch, design, came, local)
            self.said.append(f"{design}: {len(came.rows)} changes came")
            return
        if local.rows:
            batch.guard(design, MINE, passing(design, self.token))
        if has_moved and came.base == local.base and not fights:
            self._take_in(batch, design, came)
        elif has_moved:
            self._keep_sibling(batch, design, came, local)
            return
        else:
            self._put_on_top(batch, design, came, local, fights)
            if fights:
                return
        self.said.append(f"{design}: {len(came.rows)} changes came; {len(local.rows)} of your own stay")

    def _compare_before(self, design: str, rows: Differences) -> None:
        found = values(self.pair.clone.store, self.pair.mark(design), rows)
        if any(found[key] != before for key, (before, _) in rows.items()):
            raise Fault(
                f"{design} at HEAD is not the one that this clone has: HEAD or the clone was put back from a backup"
            )

    def _become(self, batch: Batch, design: str, came: Incoming, local: Local) -> None:
        """Makes a design of the clone what it is at HEAD, from the mark on."""
        pair = self.pair
        rest = after(came.rows)
        batch.add("back", design, pair.check(design))
        if came.base != local.base:
            moved = between(local.base, came.base)
            rebase = Rebase(moved, came.rows, values(pair.clone.store, pair.mark(design), moved))
            pair.set_base(batch, design, came.parent, after(came.base))
            batch.add("merge", design, rebase.settled)
            batch.restore(came.parent)
            rest = rebase.rest
        batch.set(design, rest)
        batch.add("checkpoint", design, self.frozen)

    def _put_on_top(self, batch: Batch, design: str, came: Incoming, local: Local, fights: list) -> None:
        """The clone's own changes, as a design below what HEAD has: merged and posted, or left there if there are
        conflicts."""
        pair, name = self.pair, passing(design, self.token)
        if fights:
            name = self._beside(design)
            self.said.append(
                f"{design}: {len(came.rows)} changes came, and {len(fights)} of them are in conflict with your own. "
                "Your changes are "
                f"the design {name} now: merge it, settle, and post it"
            )
        self._become(batch, design, came, local)
        batch.add("new", name, design, pair.check(design))
        batch.set(name, after(local.rows))
        if not fights:
            batch.add("merge", name)
            batch.add("post", name)
            batch.add("drop", name)

    def _take_in(self, batch: Batch, design: str, came: Incoming) -> None:
        """HEAD's changes, merged into a design of the clone that has a base of its own, which stays."""
        pair, name = self.pair, passing(design, self.token)
        batch.aside(design, pair.check(design))
        batch.set(design, after(came.rows))
        batch.add("checkpoint", design, self.frozen)
        batch.restore(design)
        batch.add("new", name, design, pair.check(design))
        batch.set(name, after(came.rows))
        batch.add("merge", name)
        batch.add("post", name)
        batch.add("drop", name)

    def _beside(self, design: str) -> str:
        """The name of the design that has the clone's own version, for a person to settle."""
        name = beside(design, self.pair.name, {*self.pair.here.parents, *self.pair.there.parents})
        self.left.append(name)
        return name

    def _keep_sibling(self, batch: Batch, design: str, came: Incoming, local: Local) -> None:
        """The clone's own version, which was merged here, as a design beside what HEAD has."""
        pair, parent = self.pair, self.pair.parent(design)
        name = self._beside(design)
        [rows] = pair.differ(pair.clone, (f"{design}@", f"{design}@{MINE}" if local.rows else design))
        batch.aside(parent, pair.check(parent))
        batch.set(parent, after(local.base_now))
        batch.add("checkpoint", parent, MINE + ".base")
        batch.add("new", name, parent, MINE + ".base")
        batch.add("uncheck", parent, MINE + ".base")
        batch.restore(parent)
        batch.set(name, after(rows))
        self._become(batch, design, came, local)
        self.said.append(
            f"{design}: {len(came.rows)} changes came, but it was merged both here and at HEAD. What you had is the "
            f"design {name} beside it: merge that, and drop or post the one and the other"
        )

    def _let_go(self, batch: Batch, design: str) -> None:
        """A design that HEAD has dropped: dropped here, too, if nothing here hangs on it."""
        pair, parent = self.pair, self.pair.parent(design)
        rows, before, now = pair.differ(pair.clone, (pair.mark(design), design), *pair.base_pairs(design))
        has_own = [it for it in pair.here.checks[design] if not it.startswith(".")]
        is_parent = any(parent == design and it not in self.dropped for it, parent in pair.here.parents.items())
        what = "another design of this name now" if design in pair.there.parents else "dropped it"
        pair.forget_base(batch, design, parent)
        if rows or before != now or has_own or is_parent:
            batch.add("uncheck", design, pair.check(design))
            self.said.append(
                f"{design}: HEAD has {what}. It stays here as a design of your own, since you have changed it"
            )
            return
        batch.guard(design, pair.check(design), passing(design, self.token))
        batch.add("drop", design)
        self.dropped.add(design)
        self.said.append(f"{design}: HEAD has {what}, so it is dropped here")


def pull(pair: Pair, asked: List[str]) -> None:
    """Brings what came at HEAD to the clone, and the designs that are asked for: the designs above them come along."""
    pair.look()
    finish(pair)
    pair.tidy()
    for wave in waves(pair, asked):
        found = Pull(pair, wave)
        found.fetch()
        if found.incoming:
            found.apply()
        pair.look_here()
        pair.tidy()


def waves(pair: Pair, asked: List[str]) -> List[List[str]]:
    """The designs that are new here, those nearer to `top` first: a design is read by its parent's mark."""
    levels: Dict[int, List[str]] = {}
    for design in asked:
        path = []
        while design is not None and design not in pair.marks:
            if design not in pair.there.parents or design.startswith("."):
                raise Fault(f"HEAD has no design {design}")
            path.append(design)
            design = pair.there.parents[design]
        for depth, it in enumerate(reversed(path)):
            if it not in levels.setdefault(depth, []):
                levels[depth].append(it)
    return [levels[it] for it in sorted(levels)] or [[]]
