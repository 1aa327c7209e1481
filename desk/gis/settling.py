"""`altgis merge`: a merge by field. What both sides have changed differently is shown, and chosen for."""
import re
import sys

from osgeo import ogr

import maps
from gis import interrupts
from gis.exporting import steady
from maps import Fault, numbers
from maps.merging import Choices, Feature, Merging
from maps.merging import merge as make_merge

OPEN = 4  # The status if somebody has to choose, and nothing was merged.
CHOICE = re.compile(r"(\d{1,20}):(\d{1,20})(?:\.(.+))?=(mine|theirs|both)")


def choices_of(words):
    """What was chosen: `all=SIDE`, `TABLE:NUMBER=SIDE`, `TABLE:NUMBER.FIELD=SIDE`."""
    found, rest = {}, None
    for it in words:
        one = CHOICE.fullmatch(it)
        if it in ("all=mine", "all=theirs"):
            rest = it[4:]
        elif one and not (one[3] and one[4] == "both"):
            found[int(one[1]), int(one[2]), one[3] or ""] = one[4]
        else:
            raise Fault(
                f"a choice is TABLE:NUMBER=mine, =theirs or =both, TABLE:NUMBER.FIELD=mine or all=mine, and not {it}"
            )
    return Choices(found, rest)


def text_of(value):
    """A value as a person reads it, in one line."""
    if value is None:
        return "none"
    if isinstance(value, Feature):
        return maps.to_text(value.attributes or {})[:60]
    if not isinstance(value, bytes):
        return maps.to_text(value)[:60]
    try:
        text = ogr.CreateGeometryFromWkb(value).ExportToWkt()
    except (AttributeError, RuntimeError):
        text = repr(value)
    return text if len(text) <= 60 else f"{text[:57]}..."


def show(clash):
    if clash.field or clash.base is not None and clash.parent is not None and clash.mine is not None:
        return f"{clash}: base {text_of(clash.base)}, parent {text_of(clash.parent)}, mine {text_of(clash.mine)}"
    what = (
        "added by both" if clash.base is None else "removed by the parent" if clash.parent is None else "removed here"
    )
    return f"{clash}: {what}: parent {text_of(clash.parent)}, mine {text_of(clash.mine)}"


def merge(store, words):
    check = steady(store, words, words.alt)
    choices = choices_of(words.choices)
    take = lambda table, count: numbers.take(store, table, count, words.is_service)
    if words.dry_run:
        take = lambda table, count: range(numbers.free_number(store, table), 2**63)
    merging = Merging(store, words.alt, choices, take)
    plan = merging.make()
    unknown = [it for it in choices.given() if it[:2] not in {clash[:2] for clash in plan.clashes}]
    if unknown:
        raise Fault(f"{unknown[0][0]}:{unknown[0][1]} is no clash of {words.alt}")
    for it in plan.open:
        print(show(it))
    joined = len({key for key in plan.settlements} - {it[:2] for it in plan.clashes})
    if plan.open:
        print(f"{len(plan.open)} to choose, and nothing was merged", file=sys.stderr)
        return OPEN
    if not words.dry_run:
        check()
        with interrupts.held_back(f"{words.alt} is merged"):
            make_merge(store, words.alt, plan, words.is_service)
    both, chosen = len(plan.settlements), len(plan.clashes)
    told = f"{both} records that both changed, {joined} of them joined by field, {chosen} chosen"
    print(f"{'a dry run: ' if words.dry_run else ''}{words.alt} is merged: {told}")
    for (table, number), new in plan.renamed.items():
        print(f"{table}:{number} of {words.alt} is {table}:{new} now")
    return 0
