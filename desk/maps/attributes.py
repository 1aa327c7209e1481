"""The attributes of a feature: a JSON object without nulls, in which a field has its number as its key. What an older
program wrote has names in their place, and is read as well."""
import json
from typing import Any, Dict

from maps.layer import Layer, numbers_of
from maps.records import SHOWN, Fault

to_json = json.JSONEncoder(separators=(",", ":"), ensure_ascii=False, allow_nan=False).encode


class Fields:
    """The fields of a layer, and what the keys of its values stand for."""

    def __init__(self, layer: Layer):
        self.all = layer["fields"]
        self.by_name = {it["name"]: it for it in self.all}
        # Each key that stands for a field, and the one by which it is written.
        self._names = {str(number): it["name"] for it in self.all for number in numbers_of(it)}
        self._keys = {it["name"]: str(it["number"]) if "number" in it else it["name"] for it in self.all}

    def name(self, key: str) -> str:
        """The name of the field that a key stands for, or the key if there is none."""
        return self._names.get(key, key)

    def key(self, name: str) -> str:
        """The key by which a field is written."""
        return self._keys.get(name, name)

    def order(self, name: str):
        """Where a field stands among those of a value."""
        return order(self.key(name))

    def named(self, value: bytes) -> Dict[str, Any]:
        """The attributes that a value has, by the names of their fields. A key that is no field stays as it is."""
        found, known = object_of(value), self._names
        try:
            return {known[key]: it for key, it in found.items() if it is not None}
        except KeyError:
            pass
        names = {self._names.get(key, key): key for key in sorted(found, key=self._names.__contains__)}
        return {name: found[key] for name, key in names.items() if found[key] is not None}

    def packed(self, attributes: Dict[str, Any]) -> bytes:
        """The value that has these attributes."""
        keys = {self._keys.get(name, name): value for name, value in attributes.items() if value is not None}
        return to_json({key: keys[key] for key in sorted(keys, key=order)}).encode()

    def is_same(self, old: bytes, new: bytes) -> bool:
        """Whether two values have the same attributes, however they are written."""
        try:
            return old == new or self.packed(self.named(old)) == self.packed(self.named(new))
        except (Fault, ValueError):
            return False


def order(key: str):
    """Numbers come first, by their size, and then names."""
    return (0, int(key), "") if key.isdecimal() and len(key) < 10 else (1, 0, key)


def object_of(value: bytes) -> Dict[str, Any]:
    try:
        found = json.loads(value)
    except (ValueError, RecursionError):
        found = None
    if not isinstance(found, dict):
        raise Fault(f"these are no attributes: {value[:SHOWN]!r}")
    return found
