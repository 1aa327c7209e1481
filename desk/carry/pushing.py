"""How a design's changes come to HEAD: as one batch, which is refused unless HEAD still has what the clone knows of
it."""
from typing import Dict, List, Optional

from altctl import Refusal
from carry import names
from carry.batch import ASIDE, Batch
from carry.links import Fault
from carry.names import MINE, beside, mark, passing
from carry.pair import Pair, told
from carry.versions import Differences, Rebase, after, differences, values

EXISTS, NOT_MERGED, UNSETTLED, DENIED = 2, 8, 9, 90
MOST_TRIES = 20
CHANGED_BOTH = "{} was merged here, and changed or merged at HEAD meanwhile: pull, and push again"


class Push:
    """A push of one design: `begin` notes in the clone what will be sent, `send` sends it, and `end` notes that HEAD
    has it. The clone's settings tell of a push that was interrupted, and `send` can be done again: HEAD takes it
    once."""

    def __init__(self, pair: Pair, design: str, token: str, moves: bool):
        self.pair, self.design, self.token, self.moves = pair, design, token, moves
        self.pending = mark(pair.name, token)
        self.is_new = pair.marks.get(design) in (None, token)

    # --- in the clone -----------------------------------------------------------------------------

    def begin(self) -> None:
        batch, pair = Batch(), self.pair
        pair.renew_here(batch, [pair.token, self.token], [self.design, self.token, self.moves])
        batch.add("checkpoint", self.design, self.pending)
        pair.carry_out(pair.clone, batch)

    def cancel(self) -> None:
        """HEAD has refused it: the clone is as before."""
        batch, pair = Batch(), self.pair
        pair.renew_here(batch, [pair.token])
        batch.add("uncheck", self.design, self.pending)
        pair.carry_out(pair.clone, batch)

    def end(self) -> None:
        """Notes that HEAD has it: the pending mark is the one that both know."""
        batch, pair, design = Batch(), self.pair, self.design
        pair.renew_here(batch, [self.token])
        if not self.is_new:
            batch.add("uncheck", design, pair.check(design))
        if self.is_new or self.moves:
            pair.set_base(batch, design, pair.parent(design), {})
            batch.restore(pair.parent(design))
        pair.carry_out(pair.clone, batch)

    def end_beside(self, name: str) -> None:
        """Notes that HEAD has it as a design of its own below this one: so it is here. This one has what both know."""
        pair, design = self.pair, self.design
        pair.hold_mine([design])
        sent, later = pair.differ(
            pair.clone,
            (pair.mark(design), f"{design}@{self.pending}"),
            (f"{design}@{self.pending}", f"{design}@{MINE}"),
        )
        batch = Batch()
        pair.renew_here(batch, [self.token])
        batch.guard(design, MINE, passing(design, self.token))
        batch.add("new", name, design, pair.check(design))
        batch.set(name, after(sent))
        batch.add("checkpoint", name, self.pending)
        batch.set(name, after(later))
        batch.add("back", design, pair.check(design))
        pair.name_base(batch, name, design)
        for it in (MINE, self.pending):
            batch.add("uncheck", design, it)
        pair.carry_out(pair.clone, batch)

    # --- at HEAD ----------------------------------------------------------------------------------

    def rows(self) -> Differences:
        """What is sent: the differences from what both know, or, of a new design, from its parent's mark."""
        pair, design = self.pair, self.design
        known = pair.mark(pair.parent(design)) if self.is_new else pair.mark(design)
        [rows] = pair.differ(pair.clone, (known, f"{design}@{self.pending}"))
        return rows

    def compare_before(self, rows: Differences, known: str) -> None:
        """Raises a Fault unless HEAD has the value before each change, in the version that both know."""
        found = values(self.pair.head.store, known, rows)
        for key, (before, _) in rows.items():
            if found[key] != before:
                raise Fault(
                    f"{key[0]}:{key[1]} has another value in HEAD's {known} than here: this is no clone of that store. "
                    "Nothing is sent."
                )

    def send(self) -> Optional[str]:
        """Brings it to HEAD. Returns the name of the design that it is there, if that is another one."""
        rows, pair, design = self.rows(), self.pair, self.design
        self.compare_before(rows, pair.mark(pair.parent(design)) if self.is_new else pair.mark(design))
        if self.is_new:
            self._send_new(rows)
        elif self.moves:
            self._send_moved(rows)
        else:
            return self._send_changes(rows)
        return None

    def arrived_at(self) -> List[str]:
        """The design at HEAD that has this push, if it was there when HEAD was looked at."""
        return [alt for alt, tokens in self.pair.there.marks.items() if self.token in tokens]

    def _batch(self) -> Batch:
        batch = Batch()
        self.pair.renew_there(batch, self.token)
        return batch

    def _send_new(self, rows: Differences) -> None:
        pair, design, batch = self.pair, self.design, self._batch()
        batch.add("new", design, pair.parent(design), pair.check(pair.parent(design)))
        batch.set(design, after(rows))
        batch.add("checkpoint", design, self.pending)
        try:
            batch.carry_out(pair.head)
        except Refusal as refusal:
            if refusal.number == EXISTS:
                raise Fault(f"HEAD has another design {design}: choose another name for this one") from refusal
            raise Fault(told(refusal, "HEAD")) from refusal

    def _send_changes(self, rows: Differences) -> Optional[str]:
        """As it is, if HEAD has not changed the design; merged, if that goes without a conflict; else as a design
        below it."""
        pair, design = self.pair, self.design
        for batch, ends_at in (self._plain(rows), NOT_MERGED), (self._merged(rows), UNSETTLED):
            try:
                batch.carry_out(pair.head)
                if ends_at == UNSETTLED:
                    pair.say(
                        f"{design}: HEAD had changed it meanwhile; the changes of both are merged there: pull brings it"
                    )
                return None
            except Refusal as refusal:
                if refusal.number == DENIED:
                    break
                if refusal.number not in (NOT_MERGED, UNSETTLED):
                    raise Fault(told(refusal, "HEAD")) from refusal
        return self._send_beside(rows)

    def _plain(self, rows: Differences) -> Batch:
        """Posted from a design below: the post is refused unless HEAD's design is what both know."""
        pair, design, batch, name = self.pair, self.design, self._batch(), passing(self.design, self.token)
        batch.add("new", name, design, pair.check(design))
        batch.set(name, after(rows))
        batch.add("post", name)
        batch.add("drop", name)
        batch.add("uncheck", design, pair.check(design))
        batch.add("checkpoint", design, self.pending)
        return batch

    def _merged(self, rows: Differences) -> Batch:
        """Posted from a design below, which is merged first. Before, the design is put back for a moment to get the
        mark."""
        pair, design, batch, name = self.pair, self.design, self._batch(), passing(self.design, self.token)
        batch.add("new", name, design, pair.check(design))
        batch.set(name, after(rows))
        batch.add("checkpoint", name, ASIDE)
        batch.aside(design, pair.check(design))
        batch.add("post", name)
        batch.add("checkpoint", design, self.pending)
        batch.restore(design)
        batch.add("back", name, ASIDE)
        batch.add("merge", name)
        batch.add("post", name)
        batch.add("drop", name)
        batch.add("uncheck", design, pair.check(design))
        return batch

    def _send_beside(self, rows: Differences) -> str:
        pair, design = self.pair, self.design
        taken = {*pair.here.parents, *pair.there.parents}
        for _ in range(MOST_TRIES):
            name = beside(design, pair.name, taken)
            batch = self._batch()
            batch.add("new", name, design, pair.check(design))
            batch.set(name, after(rows))
            batch.add("checkpoint", name, self.pending)
            try:
                batch.carry_out(pair.head)
                return name
            except Refusal as refusal:
                if refusal.number != EXISTS:
                    raise Fault(told(refusal, "HEAD")) from refusal
                taken.add(name)
        raise Fault(f"no name for {design} at HEAD: try again")

    def _send_moved(self, rows: Differences) -> None:
        """Of a design that was merged here with its parent's mark: HEAD merges it with that, too, and settles as was
        settled here. The parent is put back for it within the batch. All is refused unless HEAD's design has the
        records and the base that both know: a post of the design to that base shows it."""
        pair, design, parent = self.pair, self.design, self.pair.parent(self.design)
        [old_base] = pair.differ(pair.clone, (pair.mark(parent), pair.base(design)))
        base_rows = {key: (old, now) for key, (now, old) in old_base.items()}
        rebase = Rebase(base_rows, rows, values(pair.clone.store, pair.mark(design), base_rows))
        self.compare_before(old_base, pair.mark(parent))
        [base_there] = pair.differ(pair.head, (pair.mark(parent), f"{design}@"))
        if base_there != old_base:
            raise Fault(CHANGED_BOTH.format(design))
        batch = self._batch()
        batch.guard(design, pair.check(design), passing(design, self.token))
        batch.aside(parent, pair.check(parent))
        if not pair.tables:
            batch.set(parent, after(old_base))
            batch.add("checkpoint", design, ASIDE)
            batch.add("post", design)
            batch.restore(design)
            batch.add("back", parent, pair.check(parent))
        batch.add("merge", design, rebase.settled)
        batch.restore(parent)
        batch.set(design, rebase.rest)
        batch.add("uncheck", design, pair.check(design))
        batch.add("checkpoint", design, self.pending)
        try:
            batch.carry_out(pair.head)
        except Refusal as refusal:
            if refusal.number in (NOT_MERGED, UNSETTLED):
                raise Fault(CHANGED_BOTH.format(design)) from refusal
            raise Fault(told(refusal, "HEAD")) from refusal


def prepare(pair: Pair, design: str) -> Optional[Push]:
    """A push of a design as it is now, or None if HEAD has all of it."""
    if design not in pair.here.parents or design.startswith("."):
        raise Fault(f"there is no design {design} here")
    parent, token = pair.parent(design), names.new_token()
    refuse_others(pair, design)
    if design in pair.marks and not pair.is_there(design):
        raise Fault(f"{design} is not at HEAD any more: pull tells what became of it")
    if parent is None:
        [rows] = pair.differ(pair.clone, (pair.mark(design), design))
        return Push(pair, design, token, False) if rows else None
    if parent not in pair.marks or not pair.is_there(parent):
        raise Fault(f"{design} lies under {parent}, which HEAD doesn't have: push {parent} first")
    if design not in pair.marks:
        [moved] = pair.differ(pair.clone, (pair.mark(parent), f"{design}@"))
        if moved:
            raise Fault(
                f"{design} rests on another {parent} than HEAD's last one: merge it here, and push {parent} first "
                "if it was changed here"
            )
        return Push(pair, design, token, False)
    rows, moved, ahead = pair.differ(
        pair.clone, (pair.mark(design), design), (pair.base(design), f"{design}@"), (pair.mark(parent), f"{design}@")
    )
    if moved and ahead:
        raise Fault(
            f"{design} was merged here with another {parent} than HEAD's last one: pull, merge {design} again, and "
            f"push {parent} first if it was changed here"
        )
    return Push(pair, design, token, bool(moved)) if rows or moved else None


def refuse_others(pair: Pair, design: str) -> None:
    """A clone of some tables has no others to push: HEAD may have records there that are not here."""
    if not pair.tables:
        return
    known = pair.mark(design) if design in pair.marks else f"{design}@"
    [rows] = differences(pair.clone.store, [(known, design)], [])
    others = sorted(key for key in rows if key[0] not in pair.tables)
    if others:
        raise Fault(
            f"{others[0][0]}:{others[0][1]} is in a table that this clone does not have from HEAD: nothing is pushed"
        )


def finish(pair: Pair) -> None:
    """Ends a push that was interrupted: HEAD has it, or is sent it again as it was."""
    if "push" not in pair.settings:
        return
    design, token, moves = pair.settings["push"]
    pair.say(f"{design}: a push of it was interrupted, and is ended first")
    try:
        complete(pair, Push(pair, design, token, moves))
    except Fault as fault:
        pair.say(f"{fault}. So that push is given up: {design} is as before")
        pair.look_here()


def complete(pair: Pair, push: Push) -> None:
    """Sends a push that was begun, unless HEAD has it, and notes that it has."""
    try:
        beside_it = None if push.arrived_at() else push.send()
    except (Fault, Refusal) as fault:
        # What was sent before a link broke may have come there in this moment.
        pair.there = names.read_names(pair.head.store, pair.name)
        if not push.arrived_at():
            push.cancel()
            raise fault if isinstance(fault, Fault) else Fault(told(fault, "HEAD")) from fault
        beside_it = None
    beside_it = beside_it or next((it for it in push.arrived_at() if it != push.design), None)
    if beside_it is None:
        push.end()
        pair.say(f"{push.design}: pushed")
    else:
        push.end_beside(beside_it)
        pair.beside.append(beside_it)
        pair.say(
            f"{push.design}: HEAD has changed it meanwhile, and not all of that fits. Your changes are the design "
            f"{beside_it} under it, here and at HEAD: merge {beside_it}, settle, and post it"
        )
    pair.note_there(push.token, [beside_it or push.design])
    pair.there.tokens[:] = [push.token]
    if beside_it:
        pair.there.parents[beside_it] = push.design
    else:
        pair.there.marks[push.design] = [push.token]
        pair.there.parents.setdefault(push.design, pair.parent(push.design))
    pair.look_here()
    pair.tidy()


def push(pair: Pair, designs: List[str]) -> Dict[str, bool]:
    """Pushes designs, one after another, and tells for each whether there was something to push."""
    pair.look()
    finish(pair)
    pair.tidy()
    done = {}
    for it in designs:
        found = prepare(pair, it)
        done[it] = found is not None
        if found is None:
            pair.say(f"{it}: HEAD has all of it")
            continue
        found.begin()
        complete(pair, found)
    return done
