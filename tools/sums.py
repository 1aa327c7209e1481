"""The sums in the blocks of a store's file (docs/FORMATS.md), for scripts that read or write such a file by themselves.

A sum is the lower half of XXH64, with seed 0, of a block with its number in the place of the sum. Debian's
`python3-xxhash` gives that hash where it is installed, and `plain_hash` gives it elsewhere, some hundred times slower.
"""
import struct
from functools import lru_cache
from typing import Callable

try:
    from xxhash import xxh64_intdigest
except ImportError:
    xxh64_intdigest = None

BLOCK, SLOTS, DATA = 4096, 2, 34
# Where the sum stands: in the last bytes of a slot block's first cell, or in the head of a data block.
PLACE_IN_SLOT, PLACE_IN_DATA = 124, 12
WORD = (1 << 64) - 1
FIRST, SECOND, THIRD, FOURTH = 0x9E3779B185EBCA87, 0xC2B2AE3D27D4EB4F, 0x165667B19E3779F9, 0x85EBCA77C2B2AE63


def round_of(lane: int, word: int) -> int:
    """A lane after a word."""
    lane = lane + word * SECOND & WORD
    return (lane << 31 | lane >> 33) * FIRST & WORD


def rotated(number: int, by: int) -> int:
    return (number << by | number >> 64 - by) & WORD


def plain_hash(text: bytes) -> int:
    """XXH64 with seed 0 of bytes, which have to be a whole number of stripes of 32 bytes, and one at least."""
    one, two, three, four = FIRST + SECOND & WORD, SECOND, 0, -FIRST & WORD
    for words in struct.iter_unpack("<4Q", text):
        one, two = round_of(one, words[0]), round_of(two, words[1])
        three, four = round_of(three, words[2]), round_of(four, words[3])
    found = rotated(one, 1) + rotated(two, 7) + rotated(three, 12) + rotated(four, 18) & WORD
    for lane in (one, two, three, four):
        found = (found ^ round_of(0, lane)) * FIRST + FOURTH & WORD
    found = found + len(text) & WORD
    found = (found ^ found >> 33) * SECOND & WORD
    found = (found ^ found >> 29) * THIRD & WORD
    return found ^ found >> 32


hash_of: Callable[[bytes], int] = xxh64_intdigest or lru_cache(maxsize=4096)(plain_hash)


def place_of(number: int) -> int:
    """Where the sum stands in a block of this number, which is 2 or more."""
    return PLACE_IN_SLOT if number < DATA else PLACE_IN_DATA


def sum_of(number: int, text: bytes) -> int:
    """The sum of a block of these bytes. What stands in the place of the sum does not count."""
    at = place_of(number)
    return hash_of(text[:at] + struct.pack("<I", number) + text[at + 4 :]) & 0xFFFFFFFF


def exchanged(number: int, text: bytes) -> bytes:
    """The bytes of a block in the file, of those that it shows, or the other way round: the number in the place of the
    sum XOR the sum. So zero there becomes the sum, and the sum zero. Header and selector have none."""
    if number < SLOTS:
        return text
    at = place_of(number)
    stored, = struct.unpack_from("<I", text, at)
    return text[:at] + struct.pack("<I", stored ^ sum_of(number, text)) + text[at + 4 :]
