"""The layers of a map: what the store has of each beside its features, as a dict that its record has as JSON.

Each field has a number, by which the values of features name it, so a new field changes this record alone. No number is
given twice: `next` is the first one that none has had. A field that two designs added at once has both of their
numbers, the second one in `also`. A layer that an older program made has no numbers, and its values have names in their
place."""
import json
from typing import Any, Dict, List, Optional, Tuple

from maps.records import SHOWN, TABLES, Fault, read, scan_values, value_at

UNKNOWN_GEOMETRY = "Unknown (any)"
NO_LAYER = {"name": "", "crs": None, "geometry": UNKNOWN_GEOMETRY, "fields": [], "id": None}
Layer = Dict[str, Any]

to_text = json.JSONEncoder(sort_keys=True, separators=(",", ":"), ensure_ascii=False, allow_nan=False).encode


def free_name(name, fields):
    """A name that no field has, however it is written."""
    while name.lower() in [it["name"].lower() for it in fields]:
        name += "_"
    return name


def layers(store, at) -> Dict[int, Layer]:
    """The layers of a version, as a dict from table to layer. What is no layer is left out: `layers_and_bad` tells of
    it."""
    return layers_and_bad(store, at)[0]


def layers_and_bad(store, at) -> Tuple[Dict[int, Layer], Dict[int, Fault]]:
    """The layers of a version, and what is wrong with the other records of table 0, each a dict from table."""
    good, bad = {}, {}
    for number, value in scan_values(store, at, 0, bad.__setitem__):
        try:
            good[number] = layer_of(number, value)
        except Fault as fault:
            bad[number] = fault
    return good, bad


def layer_at(store, at, table: int) -> Optional[Layer]:
    """The layer of a table, None if there is none that can be read."""
    try:
        value = value_at(read(store, at, [(0, table)]), 0, table)
        return None if value is None else layer_of(table, value)
    except Fault:
        return None


def layer_of(table: int, value: bytes) -> Layer:
    """A layer from its record."""
    fault = Fault(f"table 0 has a record that is no layer, for table {table}: {value[:SHOWN]!r}")
    try:
        found = {**NO_LAYER, **json.loads(value)}
    except (TypeError, ValueError, RecursionError):
        raise fault from None
    texts = [found["name"], found["geometry"], *(found[it] for it in ("crs", "id") if found[it] is not None)]
    fields = found["fields"] if isinstance(found["fields"], list) else [None]
    if table not in TABLES or not all(isinstance(it, str) for it in texts) or not all(map(is_field, fields)):
        raise fault
    numbers = [number for it in fields for number in numbers_of(it)]
    if len(set(numbers)) < len(numbers) or not isinstance(found.get("next", 0), int):
        raise fault
    return found


def is_field(it) -> bool:
    if not isinstance(it, dict) or not isinstance(it.get("name"), str) or not isinstance(it.get("type"), str):
        return False
    numbers = numbers_of(it) if isinstance(it.get("also", []), list) else [None]
    return all(isinstance(number, int) and not isinstance(number, bool) and number > 0 for number in numbers)


def numbers_of(field) -> List[int]:
    """The numbers that a field has in values: the one by which it is written, and others."""
    return [*([field["number"]] if "number" in field else []), *field.get("also", [])]


def next_number(layer: Layer) -> int:
    return max([layer.get("next", 1), *(it + 1 for field in layer["fields"] for it in numbers_of(field))])


def numbered(layer: Layer, first: int = 1) -> Layer:
    """A layer with a number for each field. One that is also the name of a field, which older values may have as a key,
    is passed over."""
    names, at = {it["name"] for it in layer["fields"]}, max(first, next_number(layer))
    fields = []
    for it in layer["fields"]:
        if "number" not in it:
            while str(at) in names:
                at += 1
            it, at = {**it, "number": at}, at + 1
        fields.append(it)
    return {**layer, "fields": fields, "next": at}


def kind_of(field) -> Tuple[str, Any]:
    return field["type"], field.get("subtype")


def joined(old: Layer, new: Layer) -> Layer:
    """A layer that has the fields of both, those of the old one first. New ones have no number yet."""
    for what in ("crs", "id"):
        if old[what] != new[what]:
            raise Fault(f"the layer in the store has as its {what} {old[what]}, and the other one {new[what]}")
    fields = {it["name"]: it for it in old["fields"]}
    for field in new["fields"]:
        known = fields.setdefault(field["name"], field)
        if kind_of(known) != kind_of(field):
            told = f"{known['type']} in the store, and {field['type']} in the other layer"
            raise Fault(f"the field {field['name']} is {told}")
        if any(known.get(it) != field.get(it) for it in ("width", "precision")):
            fields[field["name"]] = {it: value for it, value in known.items() if it not in ("width", "precision")}
    geometry = old["geometry"] if old["geometry"] == new["geometry"] else UNKNOWN_GEOMETRY
    return {**old, **new, "fields": list(fields.values()), "geometry": geometry}


def replaced(old: Layer, new: Layer) -> Layer:
    """The new layer, whose fields keep the numbers and links that they have in the old one."""
    known = {it["name"]: it for it in old["fields"]}
    fields = []
    for field in new["fields"]:
        its = known.get(field["name"])
        kept = its if its and kind_of(its) == kind_of(field) else {}
        fields.append({**field, **{it: kept[it] for it in ("number", "also", "link") if it in kept}})
    return {**new, "fields": fields, "next": next_number(old)}
