"""Which values of JSON a field may have, by its type: what is put by hand or by the desk is looked at by this before it
is there, so that each value can go out again."""
import re
from datetime import date
from typing import Any, Optional

SIZES = {"Integer": 31, "Integer64": 63}
WORDS = ("nan", "inf", "-inf")  # JSON has no others for reals that are not finite.
TIME = r"([01]\d|2[0-3]):[0-5]\d:([0-5]\d|60)(\.\d{1,9})?"
ZONE = r"(Z|[+-]\d{2}(:?\d{2})?)?"
MOMENTS = {
    "Date": r"(\d{4}-\d{2}-\d{2})",
    "Time": f"(){TIME}{ZONE}",
    "DateTime": rf"(\d{{4}}-\d{{2}}-\d{{2}})[T ]{TIME}{ZONE}",
}


def is_day(text: str) -> bool:
    try:
        date.fromisoformat(text)
    except ValueError:
        return False
    return True


def is_whole(value: Any, bits: int) -> bool:
    return isinstance(value, int) and not isinstance(value, bool) and -(2**bits) <= value < 2**bits


def is_real(value: Any) -> bool:
    if isinstance(value, int) and not isinstance(value, bool):
        return -(2**1023) <= value <= 2**1023
    return value in WORDS if isinstance(value, str) else isinstance(value, float)


def is_fit(kind: str, subtype: Optional[str], value: Any) -> bool:
    if kind.endswith("List"):
        return isinstance(value, list) and all(is_fit(kind[:-4], None, it) for it in value)
    if kind in SIZES:
        is_boolean = subtype == "Boolean" and isinstance(value, bool)
        return is_boolean or is_whole(value, 15 if subtype == "Int16" else SIZES[kind])
    if kind == "Real":
        return is_real(value)
    if kind in MOMENTS:
        found = isinstance(value, str) and re.fullmatch(MOMENTS[kind], value)
        return bool(found) and (not found[1] or is_day(found[1]))
    if kind == "Binary":
        return isinstance(value, str) and bool(re.fullmatch("([0-9A-Fa-f]{2})*", value))
    return isinstance(value, str) if kind == "String" else True


def fault_of(field: dict, value: Any) -> Optional[str]:
    """Why a field cannot have a value, or None. No value, None, may be anywhere."""
    kind = field["type"]
    if value is None or is_fit(kind, field.get("subtype"), value):
        return None
    return f"{value!r} is no {kind}, as the field {field['name']} is"
