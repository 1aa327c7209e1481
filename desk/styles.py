"""How layers are drawn: a record of each design, so a style is versioned, merged and posted as all else.

Record (300, T) has the style of the layer of table T, as JSON: colour, width, pattern and symbol, the field whose
values have styles of their own, and the field that labels show. What is not said, and what is no style, is as in
`PLAIN`."""
import json
import re

import maps
from maps import Fault

STYLES = 300
COLOUR = re.compile("#[0-9a-fA-F]{6}")
PATTERNS = ("solid", "dashed", "dotted")
SYMBOLS = ("circle", "square", "triangle", "diamond")
PLAIN = {
    "colour": "#7A828A", "width": 1.5, "pattern": "solid", "symbol": "circle", "by": None, "label": None, "values": {},
}
MOST_VALUES = 50


def cleaned(style):
    """A style with what of another one is one."""
    found = {**PLAIN, "values": {}}
    if not isinstance(style, dict):
        return found
    found.update(look_of(style))
    found.update({it: style[it] for it in ("by", "label") if isinstance(style.get(it), str) and style[it]})
    values = style.get("values")
    if isinstance(values, dict):
        found["values"] = {name: look_of(it) for name, it in list(values.items())[:MOST_VALUES] if isinstance(it, dict)}
    return found


def look_of(style):
    """The colour, width, pattern and symbol that a style says."""
    found = {}
    if isinstance(style.get("colour"), str) and COLOUR.fullmatch(style["colour"]):
        found["colour"] = style["colour"]
    width = style.get("width")
    if isinstance(width, (int, float)) and not isinstance(width, bool) and 0.5 <= width <= 12:
        found["width"] = width
    for name, due in (("pattern", PATTERNS), ("symbol", SYMBOLS)):
        if style.get(name) in due:
            found[name] = style[name]
    return found


def read(store, at, tables):
    """The styles of layers in a version, as a dict from table."""
    records = maps.read(store, at, [(STYLES, table) for table in tables])
    found = {}
    for table in tables:
        try:
            found[table] = cleaned(json.loads(records.get((STYLES, table), b"{}")))
        except (ValueError, RecursionError):
            found[table] = cleaned(None)
    return found


def record_of(table, style):
    """The record of a style."""
    value = maps.to_text({name: it for name, it in cleaned(style).items() if it != PLAIN[name]}).encode()
    if len(value) > maps.LONGEST:
        raise Fault("this style has too many values")
    return (STYLES, table), value
