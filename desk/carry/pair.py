"""A store and its clone: what both know of each other, and the end of a step that was interrupted."""
from typing import Callable, Dict, List, Optional

from altctl import Refusal
from carry import names
from carry.batch import Batch
from carry.links import Fault, Link
from carry.names import MINE, Names, base_mark, mark
from carry.versions import Differences, differences

Say = Callable[[str], None]
NO_SUCH_CHECKPOINT, CHECKPOINT_EXISTS = 3, 4
PULLS = "pulls"  # A checkpoint of HEAD's `.office.NAME` while a pull reads.


class Pair:
    """HEAD and a clone of it, both open. `look` finds out what each has; `marks` then has the token of each design
    that both know, and `token` that of the last step."""

    def __init__(self, clone: Link, head: Link, say: Say = print):
        self.clone, self.head, self.say = clone, head, say
        self.name, self.settings = names.settings_of(clone.store)
        self.tables = self.settings["tables"]
        self.here: Optional[Names] = None
        self.there: Optional[Names] = None
        self.marks: Dict[str, str] = {}
        self.token = ""
        # The designs that steps made, here or at HEAD, for changes of both sides that do not fit: a person settles
        # them.
        self.beside: List[str] = []

    # --- what there is ----------------------------------------------------------------------------

    def look(self) -> None:
        """Reads the names of both sides, and compares them. Raises a Fault unless one belongs to the other."""
        self.there = names.read_names(self.head.store, self.name)
        self.look_here()

    def look_here(self) -> None:
        """Compares the clone with what HEAD had when it was looked at, and has got since."""
        self.here = names.read_names(self.clone.store, self.name)
        common = set(self.here.tokens) & set(self.there.tokens)
        if len(common) != 1:
            self._refuse_stranger()
        [self.token] = common
        self.marks = {alt: tokens[0] for alt, tokens in self.here.marks.items()}
        pushed = self.settings.get("push", [None, None])[:2]
        for alt, token in self.marks.items():
            found = self.there.marks.get(alt, [])
            is_pushed = alt == pushed[0] and pushed[1] in found
            if token not in found and (alt == "top" or found) and not is_pushed:
                raise Fault(
                    f"{alt} at HEAD is not the one that this clone has: HEAD or the clone was put back from a backup"
                )

    def _refuse_stranger(self) -> None:
        if not self.there.tokens:
            raise Fault(
                f"HEAD knows no office {self.name}: it is another store, or was put back from a backup of before "
                "the clone was made. Nothing is changed."
            )
        raise Fault(
            f"HEAD and this clone of the office {self.name} do not belong together: one of them was put back from a "
            "backup, or a copy of the clone was used meanwhile. Nothing is changed."
        )

    def is_there(self, design: str) -> bool:
        """Whether HEAD still has a design as the clone knows it."""
        return self.marks.get(design) in self.there.marks.get(design, [])

    def mark(self, design: str) -> str:
        """The version of a design that both know."""
        return f"{design}@{mark(self.name, self.marks[design])}"

    def check(self, design: str) -> str:
        return mark(self.name, self.marks[design])

    def parent(self, design: str) -> Optional[str]:
        return self.here.parents[design]

    def base(self, design: str) -> str:
        """The base of a design as both know it, in the clone."""
        return f"{self.parent(design)}@{base_mark(design)}"

    def carried(self) -> List[str]:
        """The designs that both know, parents first."""
        return [it for it in self.here.parents if it in self.marks]

    def differ(self, link: Link, *pairs) -> List[Differences]:
        return differences(link.store, pairs, self.tables)

    def base_pairs(self, design: str):
        """What differs from the parent's mark to the old base, and from there to the present one, in the clone."""
        parent = self.mark(self.parent(design))
        return (parent, self.base(design)), (parent, f"{design}@")

    # --- steps ------------------------------------------------------------------------------------

    def renew_here(self, batch: Batch, tokens: List[str], push=None) -> None:
        """The clone's names of a step, with the push that is under way."""
        settings = {it: value for it, value in self.settings.items() if it != "push"}
        self.settings = {**settings, "push": push} if push else settings
        names.renew(batch, self.name, self.token, tokens, self.settings)

    def renew_there(self, batch: Batch, *tokens: str) -> None:
        names.renew(batch, self.name, self.token, list(tokens))

    def freeze_there(self, batch: Batch, token: str) -> None:
        """HEAD's names while a pull reads. A pull that began before, and whose batch comes late, is refused then, and
        so is this one if that batch has come."""
        office = names.office_of(self.name)
        batch.add("uncheck", office, self.token)
        for it in (self.token, token, PULLS):
            batch.add("checkpoint", office, it)

    def tidy(self) -> None:
        """Removes at HEAD what an earlier step has left there, except the marks that the clone has."""
        extra = self.there.extra(self.name, self.marks, self.token)
        if not extra and self.there.tokens == [self.token]:
            return
        batch = Batch()
        self.renew_there(batch, self.token)
        for alt, check in extra:
            batch.add("uncheck", alt, check)
        self.carry_out(self.head, batch)
        kept = {alt: [self.marks[alt]] for alt, tokens in self.there.marks.items() if self.marks.get(alt) in tokens}
        self.there = self.there._replace(tokens=[self.token], marks=kept)

    def note_there(self, token: str, designs: List[str]) -> None:
        """Notes that HEAD has got a token, and these designs a mark of it."""
        self.there.tokens.append(token)
        for it in designs:
            self.there.marks.setdefault(it, []).append(token)

    def carry_out(self, link: Link, batch: Batch) -> None:
        try:
            batch.carry_out(link)
        except Refusal as refusal:
            raise Fault(told(refusal, "HEAD" if link is self.head else "the clone")) from refusal

    def hold_mine(self, designs: List[str]) -> None:
        """Notes designs of the clone as they are now, so that a later batch can tell whether they still are."""
        batch = Batch()
        for it in designs:
            if MINE in self.here.checks.get(it, []):
                batch.add("uncheck", it, MINE)
            batch.add("checkpoint", it, MINE)
        if designs:
            self.carry_out(self.clone, batch)
            for it in designs:
                self.here.checks[it] = sorted({*self.here.checks.get(it, []), MINE})

    def set_base(self, batch: Batch, design: str, parent: str, rows: Dict) -> None:
        """Names the base of a design in the clone: its parent's mark, except at these values. The parent stays put
        back."""
        batch.aside(parent, self.check(parent))
        batch.set(parent, rows)
        self.name_base(batch, design, parent)

    def name_base(self, batch: Batch, design: str, parent: str) -> None:
        """Names what a parent has now as the base of a design, in the clone."""
        self.forget_base(batch, design, parent)
        batch.add("checkpoint", parent, base_mark(design))

    def forget_base(self, batch: Batch, design: str, parent: str) -> None:
        if base_mark(design) in self.here.checks.get(parent, []):
            batch.add("uncheck", parent, base_mark(design))


def told(refusal: Refusal, where: str) -> str:
    """What a refused batch means."""
    if refusal.number in (NO_SUCH_CHECKPOINT, CHECKPOINT_EXISTS):
        return f"{where} was changed by somebody else at this moment: try again"
    if refusal.number == 90:
        return f"you may not do that in {where}: {refusal}"
    if refusal.number == 12:
        return f"{where} has too many designs and checkpoints: drop some"
    if refusal.number == 13:
        return f"{where} is full: it has to grow"
    return f"{where} refused it: {refusal}. Nothing is changed there."
