"""What is ahead and behind, design by design, as data."""
from typing import List, NamedTuple, Optional

from carry import names
from carry.links import Link
from carry.pair import Pair, Say
from carry.versions import differences


class Status(NamedTuple):
    """A design of the clone or of HEAD. `ahead` counts the records that were changed here since the last step,
    `behind` those that were changed at HEAD; None if that is not known. `state` is one of `same`, `ahead`, `behind`,
    `both`, `new here`, `only at HEAD`, `dropped at HEAD`, `unknown`."""

    design: str
    state: str
    ahead: Optional[int] = None
    behind: Optional[int] = None
    conflicts: int = 0
    merged_here: bool = False
    push_is_under_way: bool = False


STATES = {(False, False): "same", (True, False): "ahead", (False, True): "behind", (True, True): "both"}


def status(clone: Link, head: Optional[Link], say: Say = print) -> List[Status]:
    """The designs of both, parents first. Without `head`, only what is ahead."""
    if head is None:
        return offline(clone)
    pair = Pair(clone, head, say)
    pair.look()
    carried = [it for it in pair.carried() if pair.is_there(it) or "push" in pair.settings]
    shown = [it for it in carried if pair.is_there(it)]
    mine = dict(zip(carried, pair.differ(clone, *((pair.mark(it), it) for it in carried))))
    theirs = dict(zip(shown, pair.differ(head, *((pair.mark(it), it) for it in shown))))
    pushed, pending = pair.settings.get("push", [None, None])[:2]
    found = []
    for it in designs_of(pair.here):
        if it not in pair.marks or it == pushed and pair.marks[it] == pending:
            found.append(Status(it, "new here", push_is_under_way=it == pushed))
        elif it == pushed and it not in theirs:
            found.append(Status(it, "ahead", len(mine[it]), push_is_under_way=True))
        elif it not in theirs:
            found.append(Status(it, "dropped at HEAD"))
        else:
            clashing = sum(mine[it][key][1] != theirs[it][key][1] for key in mine[it].keys() & theirs[it].keys())
            state = STATES[bool(mine[it]), bool(theirs[it])]
            found.append(Status(it, state, len(mine[it]), len(theirs[it]), clashing, has_moved(pair, it), it == pushed))
    known = {it.design for it in found}
    return found + [Status(it, "only at HEAD") for it in designs_of(pair.there) if it not in known]


def has_moved(pair: Pair, design: str) -> bool:
    """Whether a design was merged here since the last step."""
    if pair.parent(design) is None:
        return False
    before, now = pair.differ(pair.clone, *pair.base_pairs(design))
    return before != now


def designs_of(found: names.Names) -> List[str]:
    return [it for it in found.parents if not it.startswith(".")]


def offline(clone: Link) -> List[Status]:
    name, settings = names.settings_of(clone.store)
    here = names.read_names(clone.store, name)
    pushed = settings.get("push", [None])[0]
    carried = [it for it in designs_of(here) if it in here.marks]
    pairs = [(f"{it}@{names.mark(name, here.marks[it][0])}", it) for it in carried]
    counts = {it: len(rows) for it, rows in zip(carried, differences(clone.store, pairs, settings["tables"]))}
    new = [Status(it, "new here") for it in designs_of(here) if it not in here.marks]
    states = [
        Status(it, "ahead" if counts[it] else "unknown", counts[it], push_is_under_way=it == pushed) for it in carried
    ]
    return states + new


def text_of(it: Status) -> str:
    """A row as a person reads it."""
    words = [f"{it.design}: {it.state}"]
    if it.ahead:
        words.append(f"{it.ahead} changes to push")
    if it.behind:
        words.append(f"{it.behind} to pull")
    if it.conflicts:
        words.append(f"{it.conflicts} in conflict")
    if it.merged_here:
        words.append("merged here")
    if it.push_is_under_way:
        words.append("a push of it was interrupted")
    return ", ".join(words)
