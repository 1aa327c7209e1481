"""Whether a geometry can be used: its bytes are WKB as a whole, and each place is a finite one. GDAL takes a count of
points for granted, and GEOS may never return from a line with a NaN in it, so both are looked at first."""
import math
import struct
import sys
from array import array
from typing import List, Optional, Tuple

MOST_PLACE = 1e38  # The index of places has 32 bits for a coordinate.
MOST_DEPTH = 32  # GDAL reads no deeper ones.
POINT, SEQUENCES, RINGS = 1, (2, 8), (3, 17)
NAMES = {1: "point", 2: "line", 3: "polygon", 4: "points", 5: "lines", 6: "polygons"}
COLLECTIONS = (4, 5, 6, 7, 9, 10, 11, 12, 15, 16)
PLAIN_POINT, TWO_REALS = b"\1\1\0\0\0", struct.Struct("<dd")
FLAG_Z, FLAG_M = 0x80000000, 0x40000000  # As PostGIS writes them; ISO adds 1,000 and 2,000.


class Bad(Exception):
    """Why a geometry cannot be used."""


def fault_of(value: bytes) -> Optional[str]:
    """What is wrong with a geometry, or None."""
    try:
        bounds_of(value)
    except Bad as bad:
        return str(bad)
    return None


def bounds_of(value: bytes) -> Optional[List[float]]:
    """The least and the greatest x, and those of y, or None if the geometry is empty."""
    if value[:5] == PLAIN_POINT and len(value) >= 21:  # Most geometries are points and lines.
        x, y = TWO_REALS.unpack_from(value, 5)
        if abs(x) <= MOST_PLACE and abs(y) <= MOST_PLACE:
            return [x, x, y, y]
    bounds = [math.inf, -math.inf, math.inf, -math.inf]
    try:
        end_of(value, 0, 0, bounds)
    except struct.error:
        raise Bad("its bytes end too early") from None
    return bounds if bounds[0] <= bounds[1] else None


def head_of(value: bytes, at: int, depth: int) -> Tuple[str, int, int, int]:
    """The byte order of the geometry that begins here, its type, how many numbers each of its coordinates has, and the
    place behind all that."""
    if depth > MOST_DEPTH or value[at : at + 1] not in (b"\0", b"\1"):
        raise Bad("its bytes are no geometry")
    order = "<" if value[at] else ">"
    code = struct.unpack_from(order + "I", value, at + 1)[0]
    flags, code = code & (FLAG_Z | FLAG_M), code & ~(FLAG_Z | FLAG_M)
    kind, more = code % 1000, code // 1000
    if more > 3 or kind not in (POINT, *SEQUENCES, *RINGS, *COLLECTIONS):
        raise Bad("its bytes are no geometry")
    return order, kind, 2 + (2 if more == 3 else 1 if more else 0) + bin(flags).count("1"), at + 5


def end_of(value: bytes, at: int, depth: int, bounds: List[float]) -> int:
    """The place behind the geometry that begins here, whose bounds are added to the others."""
    order, kind, width, at = head_of(value, at, depth)
    if kind == POINT:
        return past_places(value, at, 1, width, order, bounds, True)
    count, at = struct.unpack_from(order + "I", value, at)[0], at + 4
    if kind in SEQUENCES:
        return past_places(value, at, count, width, order, bounds)
    for _ in range(count):
        if kind in RINGS:
            points, at = struct.unpack_from(order + "I", value, at)[0], at + 4
            at = past_places(value, at, points, width, order, bounds)
        else:
            at = end_of(value, at, depth + 1, bounds)
    return at


def past_places(value: bytes, at: int, count: int, width: int, order: str, bounds, is_point: bool = False) -> int:
    """The place behind so many coordinates, of which x and y are looked at. An empty point has NaN for both."""
    end = at + count * width * 8
    if end > len(value):
        raise Bad("its bytes end too early")
    numbers = array("d", value[at:end])
    if (order == "<") != (sys.byteorder == "little"):
        numbers.byteswap()
    if is_point and math.isnan(numbers[0]) and math.isnan(numbers[1]):
        return end
    for which in (0, 1) if count else ():
        axis = numbers[which::width]
        if not math.isfinite(sum(axis)):
            raise Bad("it has a coordinate that is not finite")
        least, most = min(axis), max(axis)
        if least < -MOST_PLACE or most > MOST_PLACE:
            raise Bad(f"it has a coordinate beyond {MOST_PLACE:g}")
        bounds[2 * which : 2 * which + 2] = min(least, bounds[2 * which]), max(most, bounds[2 * which + 1])
    return end


def vertices_of(value: bytes) -> Tuple[str, List[tuple]]:
    """What a geometry is called, and its vertices, of all of its parts."""
    if fault_of(value):
        raise Bad(fault_of(value))
    found: List[tuple] = []
    kind = head_of(value, 0, 0)[1]
    add_vertices(value, 0, found)
    return NAMES.get(kind, "shape"), found


def add_vertices(value: bytes, at: int, found: List[tuple]) -> int:
    """Adds the vertices of the geometry that begins here, whose bytes are good. Gives the place behind it."""
    order, kind, width, at = head_of(value, at, 0)
    if kind in COLLECTIONS:
        count, at = struct.unpack_from(order + "I", value, at)[0], at + 4
        for _ in range(count):
            at = add_vertices(value, at, found)
        return at
    rings = 1
    if kind in RINGS:
        rings, at = struct.unpack_from(order + "I", value, at)[0], at + 4
    for _ in range(rings):
        count = 1
        if kind != POINT:
            count, at = struct.unpack_from(order + "I", value, at)[0], at + 4
        places = struct.unpack_from(f"{order}{count * width}d", value, at)
        found += zip(*(places[it::width] for it in range(width)))
        at += count * width * 8
    return at
