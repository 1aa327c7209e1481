"""The layer that a merge leaves where both sides have changed the layer's record: properties and fields are taken from
the side that changed them."""
from typing import Any, Callable, Dict, List, Optional

from maps.layer import NO_LAYER, UNKNOWN_GEOMETRY, Layer, kind_of, next_number, numbered, numbers_of

PROPERTIES = "name", "crs", "id"
# What settles a clash: given what it is and the three values, it gives one of these, or None to leave it open.
Choose = Callable[[str, Any, Any, Any], Optional[str]]


def three_way(base, parent, mine):
    """The value that is left, and whether both sides have changed it differently."""
    if mine == base or parent == mine:
        return parent, False
    return mine, parent != base


class MergedLayer:
    """The layer of a merge. `renumbered` has the numbers of own fields that the parent has given to other ones
    meanwhile."""

    def __init__(self, base: Optional[Layer], parent: Layer, mine: Layer, choose: Choose):
        self._choose, self.renumbered = choose, {}
        base, parent, mine = (numbered(it) for it in (base or NO_LAYER, parent, mine))
        self.layer: Layer = {**parent, **self._properties(base, parent, mine)}
        self._next = max(map(next_number, (base, parent, mine)))
        kept = self._old_fields(base, parent, mine)
        self.layer["fields"] = self._with_new(kept, base, parent, mine)
        self.layer["next"] = self._next

    def _settled(self, what: str, base, parent, mine):
        value, is_clash = three_way(base, parent, mine)
        if is_clash and self._choose(what, base, parent, mine) == "theirs":
            return parent
        return value

    def _properties(self, base: Layer, parent: Layer, mine: Layer) -> Dict[str, Any]:
        found = {it: self._settled(it, base[it], parent[it], mine[it]) for it in PROPERTIES}
        geometry, is_clash = three_way(base["geometry"], parent["geometry"], mine["geometry"])
        return {**found, "geometry": UNKNOWN_GEOMETRY if is_clash else geometry}

    def _old_fields(self, base: Layer, parent: Layer, mine: Layer) -> List[dict]:
        """The fields that the base has, as they are left, in the parent's order."""
        sides = [by_number(it) for it in (base, parent, mine)]
        due = [it["number"] for layer in (parent, base) for it in layer["fields"] if it["number"] in sides[0]]
        left = []
        for number in dict.fromkeys(due):
            versions = [side.get(number) for side in sides]
            name = next(it["name"] for it in versions[::-1] if it)
            found = self._settled(name, *versions)
            if found:
                left.append(found)
        return left

    def _with_new(self, kept: List[dict], base: Layer, parent: Layer, mine: Layer) -> List[dict]:
        """The fields with those that the sides have added. One that both have added is one field with both numbers."""
        old = by_number(base)
        fields = kept + [it for it in parent["fields"] if it["number"] not in old]
        for field in (it for it in mine["fields"] if it["number"] not in old):
            taken = {number for it in fields for number in numbers_of(it)}
            same = next((at for at, it in enumerate(fields) if it["name"] == field["name"]), None)
            if same is not None and kind_of(fields[same]) == kind_of(field):
                self._unite(fields, same, field, taken)
                continue
            if same is not None:
                if self._settled(field["name"], None, fields[same], field) is fields[same]:
                    continue
                del fields[same]
            if set(numbers_of(field)) & taken:
                field = self._renumber(field)
            fields.append(field)
        return fields

    def _unite(self, fields: List[dict], at: int, field: dict, taken: set) -> None:
        theirs, own = fields[at], [it for it in numbers_of(field) if it not in numbers_of(fields[at])]
        for number in own:
            if number in taken:
                self.renumbered[str(number)] = str(theirs["number"])
        more = [it for it in own if it not in taken]
        if more:
            fields[at] = {**theirs, "also": [*theirs.get("also", []), *more]}

    def _renumber(self, field: dict) -> dict:
        number, self._next = self._next, self._next + 1
        self.renumbered.update({str(it): str(number) for it in numbers_of(field)})
        return {**{it: value for it, value in field.items() if it != "also"}, "number": number}


def by_number(layer: Layer) -> Dict[int, dict]:
    return {number: it for it in layer["fields"] for number in numbers_of(it)}
