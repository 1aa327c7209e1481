#!/usr/bin/env python3
"""Runs random sessions of `altctl` over real files beside a model of its own, and compares all answers, and the file
after each session: `tools/faults/compare.py [-n FILES] [-s SEED] [--plain] [ALTCTL]`.

Of the file every byte is compared where no written block waits (half of the files), and else those of header, slots and
each block that a committed version reaches, since blocks that nobody needs are not written then. Now and then the file
is copied to another size, after a session or between two of its lines, and each byte of the copy is compared. At the
end it spoils bytes of the file, and compares what a check and an opening for lines are answered. Most spoiled blocks
get the sum of their new bytes, so that their form alone tells; others keep the old one, or have none. The model goes by
docs/MODEL.md and docs/FORMATS.md, and shares nothing with the store. It stands beside the gate."""
import argparse
import os
import random
import struct
import subprocess
import sys
import tempfile
import time
from itertools import accumulate

sys.dont_write_bytecode = True
sys.path.insert(0, os.path.join(os.path.dirname(os.path.abspath(__file__)), ".."))
from sums import exchanged, place_of

BLOCK, FIRST = 4096, 34
LEAST, MOST = 64, 1 << 26
# A leaf has an entry of 12 bytes for each record and the values behind them: at most this many bytes.
ENTRY, LEAF_ROOM, LONGEST = 12, 4080, 4000
CHILD, FAN = 14, 256
# So many blocks have to be spare for each record that is changed.
MARGIN = 17
# For so many blocks of the store one change has to come before the set of held blocks is copied again.
COPIED = 16384
LETTERS = {*b"ABCDEFGHIJKLMNOPQRSTUVWXYZabcdefghijklmnopqrstuvwxyz0123456789_-."}
NAMES = "NoSuchAlternative AlternativeExists NoSuchCheckpoint CheckpointExists NoSuchRecord IsTop HasChildren"
NAMES += " NotMerged Unsettled"
NAMES = [None, *NAMES.split(), "NotInConflict", "SettledTwice", "TooMany", "Full", "Deep", "Device", "Memory", "Failed"]
NAMES += ["Damaged", "NotAStore", "AlreadyAStore", "BadSize"]


class Refused(Exception):
    def __init__(self, code, detail=""):
        self.text = f"error {code} {NAMES[code]}{detail}"


def leaf_of(records):
    """The bytes of a leaf."""
    entries, values = b"", b""
    for key, value in records:
        values += value
        entries += struct.pack("<HQH", *key, len(values))
    return (b"LEF3" + struct.pack("<III", 0, len(records), 0) + entries + values).ljust(BLOCK, b"\0")


def node_of(level, children):
    """The bytes of an inner block."""
    head = b"NODE" + struct.pack("<III", level, len(children), 0)
    return (head + b"".join(struct.pack("<HQI", *key, child) for key, child in children)).ljust(BLOCK, b"\0")


def records_in(text, count):
    """So many records of a leaf, whether or not the bytes are one."""
    records, begin, values = [], 0, text[16 + ENTRY * count :]
    for table, number, end in struct.iter_unpack("<HQH", text[16 : 16 + ENTRY * count]):
        records.append(((table, number), values[begin:end]))
        begin = end
    return records


def children_in(text, count):
    """So many children of an inner block."""
    return [
        ((table, number), child) for table, number, child in struct.iter_unpack("<HQI", text[16 : 16 + CHILD * count])
    ]


def leaves_of(records, key, is_new):
    """The records of a leaf, of which the one with this key came last, in one leaf or as many as they need: two, of
    which the larger one is as small as it can be, or three. A new record behind all others gets a leaf of its own."""
    *sums, total = accumulate(ENTRY + len(value) for _, value in records)
    if total <= LEAF_ROOM:
        return [records]
    at = [it for it, _ in records].index(key)
    larger, cut = min((max(size, total - size), cut) for cut, size in enumerate(sums, 1))
    if is_new and key == records[-1][0]:
        cut = at
    elif larger > LEAF_ROOM:
        return [records[:at], [records[at]], records[at + 1 :]]
    return [records[:cut], records[cut:]]


class Alternative:
    """An entry of the slot, with its owner: the parent, or the alternative of a checkpoint. Maps are numbers of
    roots."""

    def __init__(self, tag, name, owner, current, base):
        self.tag, self.name, self.owner, self.current, self.base = tag, name, owner, current, base

    def copy(self):
        return Alternative(self.tag, self.name, self.owner, self.current, self.base)

    def encoded(self):
        name, owner = self.name.encode(), self.owner.encode()
        text = self.tag + bytes([len(name)]) + name.ljust(32, b"\0") + bytes([len(owner)]) + owner.ljust(32, b"\0")
        return (text + struct.pack("<II", self.current, self.base)).ljust(128, b"\0")


def header(version):
    return (b"ALTSTORE" + struct.pack("<II", version, BLOCK)).ljust(BLOCK, b"\0")


class Store:
    """A file: blocks are bytes with their sums, and trees are decoded from them anew for each use. The file may have
    more blocks than the store, which has as many as the last commit said, and in a session those of its growths."""

    def __init__(self, blocks, copies=False):
        self.disk, self.kept, self.blocks = [bytes(BLOCK)] * blocks, blocks, blocks
        self.copies = copies
        self.write_slot(2, [Alternative(b"A", "top", "", 0, 0)])
        self.disk[0] = header(3)

    # --- the slots

    def write_slot(self, slot, entries):
        head = b"SLOT" + struct.pack("<III", 3, self.blocks, len(entries))
        text = head.ljust(128, b"\0") + b"".join(it.encoded() for it in entries)
        for at in range(0, len(text), BLOCK):
            block = slot + at // BLOCK
            self.disk[block] = exchanged(block, text[at : at + BLOCK].ljust(BLOCK, b"\0"))

    def open(self):
        """What a session begins with."""
        slot = 18 if self.disk[1][0] & 1 else 2
        self.kept, count = struct.unpack_from("<II", self.disk[slot], 8)
        self.blocks = self.kept
        text = slot_text(self.disk, slot, count)
        self.working = []
        for at in range(128, 128 * (count + 1), 128):
            name = text[at + 2 : at + 2 + text[at + 1]].decode()
            owner = text[at + 35 : at + 35 + text[at + 34]].decode()
            self.working.append(Alternative(text[at : at + 1], name, owner, *struct.unpack_from("<II", text, at + 67)))
        self.committed = [it.copy() for it in self.working]
        self.held = self.reached(self.committed)
        # The alternative of the series that goes on, and the blocks that were held before it.
        self.series, self.before, self.unpaid = None, set(), 0

    def commit(self):
        slot = 2 if self.disk[1][0] & 1 else 18
        self.write_slot(slot, self.working)
        self.disk[1] = bytes([1 if slot == 18 else 0]).ljust(BLOCK, b"\0")
        self.committed, self.kept = [it.copy() for it in self.working], self.blocks

    def rollback(self):
        """Blocks that came by a growth since the last commit are no blocks of the store any more, whether held or
        free."""
        self.working, self.blocks = [it.copy() for it in self.committed], self.kept
        self.held = {it for it in self.held if it < self.kept}

    # --- trees

    def decoded(self, block):
        """The level of a block, and its records or its children: keys with values, or with blocks."""
        text = exchanged(block, self.disk[block])
        level, count, zero = struct.unpack_from("<III", text, 4)
        assert text[:4] == (b"NODE" if level else b"LEF3") and not zero
        return level, (children_in if level else records_in)(text, count)

    def take(self):
        """The lowest block that isn't held, which is held from then on."""
        block = next(it for it in range(FIRST, self.blocks) if it not in self.held)
        self.held.add(block)
        return block

    def own(self, block, base):
        """The block, if it was taken since a series began; base has the blocks that were held before."""
        return block if base is not None and block in self.held and block not in base else None

    def write(self, level, items, place=None):
        """Writes items into a place, or into the lowest block that isn't held, and gives their first key, and the
        block."""
        block = self.take() if place is None else place
        self.disk[block] = exchanged(block, node_of(level, items) if level else leaf_of(items))
        return items[0][0], block

    def write_divided(self, level, children, place):
        if len(children) <= FAN:
            return [self.write(level, children, place)]
        half = (len(children) + 1) // 2
        return [self.write(level, children[:half], place), self.write(level, children[half:])]

    def blocks_under(self, root, found):
        if root and root not in found:
            found.add(root)
            level, items = self.decoded(root)
            for _, it in items if level else []:
                self.blocks_under(it, found)
        return found

    def reached(self, entries):
        found = set()
        for it in entries:
            self.blocks_under(it.current, found)
            self.blocks_under(it.base, found)
        return found

    def records(self, root):
        if not root:
            return {}
        level, items = self.decoded(root)
        if level == 0:
            return dict(items)
        found = {}
        for _, child in items:
            found.update(self.records(child))
        return found

    @staticmethod
    def chosen(items, key):
        return max((at for at, it in enumerate(items) if it[0] <= key), default=0)

    def put_below(self, block, key, value, base):
        level, items = self.decoded(block)
        place = self.own(block, base)
        if level == 0:
            records = {**dict(items), key: value}
            parts = leaves_of(sorted(records.items()), key, key not in dict(items))
            return 0, [self.write(0, it, None if at else place) for at, it in enumerate(parts)]
        at = self.chosen(items, key)
        _, now = self.put_below(items[at][1], key, value, base)
        return level, self.write_divided(level, [*items[:at], *now, *items[at + 1 :]], place)

    def put(self, root, key, value, base=None):
        if not root:
            return self.write(0, [(key, value)])[1]
        level, now = self.put_below(root, key, value, base)
        return now[0][1] if len(now) == 1 else self.write(level + 1, now)[1]

    def remove_below(self, block, key, base):
        """What stands for the block in the one above it: nothing, or a block that was written."""
        level, items = self.decoded(block)
        place = self.own(block, base)
        if level == 0:
            rest = [it for it in items if it[0] != key]
        else:
            at = self.chosen(items, key)
            rest = [*items[:at], *self.remove_below(items[at][1], key, base), *items[at + 1 :]]
        return [self.write(level, rest, place)] if rest else []

    def is_dropped(self, block, key):
        """Whether nothing is left of the block without the key."""
        level, items = self.decoded(block)
        return len(items) == 1 and (level == 0 or self.is_dropped(items[0][1], key))

    def remove(self, root, key, base=None):
        level, items = self.decoded(root)
        if level and len(items) == 2:
            at = self.chosen(items, key)
            if self.is_dropped(items[at][1], key):
                rest = items[1 - at][1]
                while True:
                    level, items = self.decoded(rest)
                    if level == 0 or len(items) > 1:
                        return rest
                    rest = items[0][1]
        now = self.remove_below(root, key, base)
        return now[0][1] if now else 0

    # --- copies

    def copied(self, blocks):
        """The store that a copy of what was committed is. Each block that a version reaches gets the next number: the
        versions in order, the current records before the base, and each block after those that it names."""
        copy, numbers = Store(blocks), {}
        copy.working, copy.held = [it.copy() for it in self.committed], set()
        for it in copy.working:
            it.current = self.copy_under(it.current, copy, numbers)
            it.base = self.copy_under(it.base, copy, numbers)
        copy.write_slot(2, copy.working)
        return copy

    def copy_under(self, root, copy, numbers):
        """Copies what lies under a root, each block once, and gives the number that the root has there."""
        if root and root not in numbers:
            level, items = self.decoded(root)
            if level:
                items = [(key, self.copy_under(child, copy, numbers)) for key, child in items]
            numbers[root] = copy.write(level, items)[1]
        return numbers[root] if root else 0

    # --- space

    def free(self):
        return self.blocks - FIRST - len(self.held)

    def grow(self, blocks):
        """Blocks that the file lacks are zeros; others keep the bytes that they have."""
        if not self.blocks < blocks <= MOST:
            raise Refused(21)
        self.disk += [bytes(BLOCK)] * (blocks - len(self.disk))
        self.blocks = blocks

    def mark(self):
        self.held = self.reached(self.committed) | self.reached(self.working)
        self.before &= self.held

    def demand(self, changes):
        if self.free() < MARGIN * changes:
            self.mark()
            if self.free() < MARGIN * changes:
                raise Refused(13)

    def copy_held(self, changes):
        """The blocks that are held, unless too few changes came since they were copied before."""
        self.unpaid += changes
        if self.copies or self.unpaid < self.blocks // COPIED:
            return None
        self.unpaid, self.before = 0, {*self.held}
        return self.before

    def series_of(self, alt):
        """The blocks that were held before the series of an alternative, which goes on or begins; None if none
        does."""
        if self.series != alt:
            self.series = alt if self.copy_held(1) is not None else None
        return self.before if self.series else None

    # --- commands

    def find(self, name):
        for it in self.working:
            if it.tag == b"A" and it.name == name:
                return it
        raise Refused(1)

    def checkpoint_of(self, alt, name):
        return next((it for it in self.working if it.tag == b"C" and (it.owner, it.name) == (alt, name)), None)

    def sides(self, alt):
        it = self.find(alt)
        if alt == "top":
            raise Refused(6)
        parent = self.find(it.owner)
        return it, parent, self.records(it.base), self.records(parent.current), self.records(it.current)

    @staticmethod
    def in_conflict(base, parent, own):
        keys = sorted({*base, *parent, *own})
        values = [(key, base.get(key), parent.get(key), own.get(key)) for key in keys]
        return [it for it in values if it[1] != it[2] and it[1] != it[3] and it[2] != it[3]]

    def merge(self, alt, settled, side=None):
        """A merge with these settlements, and with this side, if one is given, for each conflict that has none of
        them."""
        it, parent, base, theirs, own = self.sides(alt)
        conflicts = {key for key, *_ in self.in_conflict(base, theirs, own)}
        keys = [key for key, _ in settled]
        for at, key in enumerate(keys):
            if key in keys[:at]:
                raise Refused(11, f" {key[0]}:{key[1]}")
        for key in keys:
            if key not in conflicts:
                raise Refused(10, f" {key[0]}:{key[1]}")
        if conflicts - {*keys} and not side:
            raise Refused(9, f" {len(conflicts - {*keys})}")
        sides, merged = {**dict.fromkeys(conflicts, side), **dict(settled)}, {}
        for key in {*base, *theirs, *own}:
            is_own = theirs.get(key) == base.get(key) or sides.get(key) == "mine"
            merged[key] = (own if is_own else theirs).get(key)
        came = [key for key in sorted(merged) if merged[key] != own.get(key)]
        stays = [key for key in sorted(merged) if merged[key] != theirs.get(key)]
        self.make_changes(it, *((it.current, came) if len(came) < len(stays) else (parent.current, stays)), merged)
        it.base = parent.current
        return f"ok {len(came)}"

    def make_changes(self, it, root, keys, merged):
        """Gives the alternative the map under a root with the merged values at these keys."""
        if keys:
            self.demand(len(keys))
        self.series = None
        base = self.copy_held(len(keys))
        for key in keys:
            root = self.remove(root, key, base) if merged[key] is None else self.put(root, key, merged[key], base)
        it.current = root

    def apply(self, words):
        """Carries out a command or a query, and gives its answer."""
        verb, *rest = words
        if verb == "new":
            parent = self.find(rest[1])
            if any(it.tag == b"A" and it.name == rest[0] for it in self.working):
                raise Refused(2)
            shown = self.checkpoint_of(rest[1], rest[2]) if rest[2:] else parent
            if not shown:
                raise Refused(3)
            self.add(b"A", rest[0], rest[1], shown.current, shown.current)
        elif verb == "drop":
            it = self.find(rest[0])
            if rest[0] == "top":
                raise Refused(6)
            if any(other.tag == b"A" and other.owner == rest[0] for other in self.working):
                raise Refused(7)
            self.working = [
                other for other in self.working if other is not it and (other.tag, other.owner) != (b"C", rest[0])
            ]
        elif verb == "put":
            it = self.find(rest[0])
            self.demand(1)
            it.current = self.put(it.current, rest[1], rest[2], self.series_of(rest[0]))
        elif verb == "remove":
            it = self.find(rest[0])
            if rest[1] not in self.records(it.current):
                raise Refused(5)
            self.demand(1)
            it.current = self.remove(it.current, rest[1], self.series_of(rest[0]))
        elif verb == "checkpoint":
            it = self.find(rest[0])
            if self.checkpoint_of(*rest):
                raise Refused(4)
            self.add(b"C", rest[1], rest[0], it.current, it.base)
        elif verb in ("uncheck", "back"):
            it = self.find(rest[0])
            found = self.checkpoint_of(*rest)
            if not found:
                raise Refused(3)
            if verb == "uncheck":
                self.working.remove(found)
            else:
                it.current, it.base = found.current, found.base
        elif verb == "merge":
            return self.merge(*rest)
        elif verb == "post":
            it, parent, base, theirs, _ = self.sides(rest[0])
            if base != theirs:
                raise Refused(8)
            parent.current = it.base = it.current
        elif verb == "commit":
            self.commit()
        elif verb == "rollback":
            self.rollback()
        elif verb == "reclaim":
            self.mark()
        elif verb == "grow":
            self.grow(rest[0])
        else:
            return self.asked(verb, rest)
        if verb not in ("put", "remove"):
            self.series = None
        return "ok"

    def add(self, tag, name, owner, current, base):
        if len(self.working) == 511:
            raise Refused(12)
        self.working.append(Alternative(tag, name, owner, current, base))

    def version(self, word):
        """The records that a word means: those of an alternative, of its base, or of a checkpoint of it."""
        name, mark, behind = word.partition("@")
        it = self.find(name)
        if behind:
            it = self.checkpoint_of(name, behind)
            if not it:
                raise Refused(3)
        return self.records(it.base if mark and not behind else it.current)

    @staticmethod
    def changed(old, new):
        """The keys at which maps differ, in order."""
        return sorted(key for key in {*old, *new} if old.get(key) != new.get(key))

    def differing(self, old, new, part=()):
        keys = within(part, self.changed(old, new))
        return listed(f"change {k[0]} {k[1]} {spelled(old.get(k))} {spelled(new.get(k))}" for k in keys)

    def asked(self, verb, rest):
        if verb == "free":
            return f"free {self.free()}"
        if verb == "blocks":
            return f"blocks {self.blocks}"
        if verb == "alts":
            return listed(f"alternative {it.name} {it.owner or '~'}" for it in self.working if it.tag == b"A")
        if verb == "get":
            found = self.version(rest[0]).get(rest[1])
            return "none" if found is None else f"value {spelled(found)}"
        if verb in ("list", "next"):
            found = self.version(rest[0])
            keys = within(rest[1:], sorted(found)) if verb == "list" else first_of(*rest[1:], sorted(found))
            return listed(f"record {k[0]} {k[1]} {spelled(found[k])}" for k in keys)
        if verb == "diff":
            return self.differing(self.version(rest[0]), self.version(rest[1]), rest[2:])
        it = self.find(rest[0])
        if verb == "checks":
            return listed(f"checkpoint {c.name}" for c in self.working if c.tag == b"C" and c.owner == rest[0])
        if verb == "changes":
            return self.differing(self.records(it.base), self.records(it.current))
        if verb == "tally":
            _, _, base, theirs, own = self.sides(rest[0])
            numbers = self.changed(base, own), self.changed(base, theirs), self.in_conflict(base, theirs, own)
            return f"tally {' '.join(str(len(it)) for it in numbers)} {'yes' if base == theirs else 'no'}"
        assert verb == "conflicts"
        found = self.in_conflict(*self.sides(rest[0])[2:])
        return listed(f"conflict {k[0]} {k[1]} {spelled(b)} {spelled(p)} {spelled(o)}" for k, b, p, o in found)


def within(part, keys):
    """Those of the keys that are in a part: a table, a table with its first number and its last one, or all without
    words."""
    table, low, high = (*part, 0, 2**64 - 1)[:3] if part else (None, 0, 0)
    return [it for it in keys if table is None or it[0] == table and low <= it[1] <= high]


def first_of(table, number, count, keys):
    """The first ones of the keys, which rise, from a table and a number on."""
    return [it for it in keys if it >= (table, number)][:count]


def listed(lines):
    lines = list(lines)
    return "\n".join([*lines, f"end {len(lines)}"])


def spelled(value):
    """How a value is written."""
    if value is None:
        return "~"
    if value == b"-":
        return "%2D"
    return "".join(chr(b) if 0x21 <= b <= 0x7D and b != 0x25 else f"%{b:02X}" for b in value) or "-"


# --- files that are opened


class Damaged(Exception):
    pass


def name_in(text, size, least):
    """A name of `least` to 32 bytes, in 32 bytes that are zero behind it. None where they are not so."""
    if not least <= size <= 32 or any(text[size:]) or not {*text[:size]} <= LETTERS:
        return None
    return text[:size].decode()


def slot_text(disk, slot, count):
    """What the blocks of a slot with so many entries show."""
    return b"".join(exchanged(it, disk[it]) for it in range(slot, slot + (count + 32) // 32))


def slot_in(disk, slot):
    """The number of blocks and the entries of a slot, where it is one."""
    head = slot_text(disk, slot, 1)[:128]
    form, blocks, count = struct.unpack_from("<III", head, 4)
    if head[:4] != b"SLOT" or form != 3 or any(head[16:]):
        raise Damaged(slot)
    if not LEAST <= blocks <= MOST or not 1 <= count <= 511:
        raise Damaged(slot)
    text, entries = slot_text(disk, slot, count), []
    for at in range(128, 128 * (count + 1), 128):
        it, is_top = text[at : at + 128], at == 128
        name, owner = name_in(it[2:34], it[1], 1), name_in(it[35:67], it[34], 0 if is_top else 1)
        current, base = struct.unpack_from("<II", it, 67)
        same = [e for e in entries if e.tag == it[:1] and e.name == name and (e.tag == b"A" or e.owner == owner)]
        owned = is_top or any(e.tag == b"A" and e.name == owner for e in entries)
        if it[:1] not in (b"A", b"C") or name is None or owner is None or any(it[75:]) or same or not owned:
            raise Damaged(slot)
        if (
            is_top and (it[:1], name, owner) != (b"A", "top", "")
            or base and (is_top or it[:1] == b"C" and owner == "top")
        ):
            raise Damaged(slot)
        entries.append(Alternative(it[:1], name, owner, current, base))
    return blocks, entries


def is_leaf(text, count):
    """Whether a block that begins like a leaf of this many records is one."""
    if not 1 <= count <= LEAF_ROOM // ENTRY:
        return False
    ends = [end for _, _, end in struct.iter_unpack("<HQH", text[16 : 16 + ENTRY * count])]
    sizes = [end - begin for begin, end in zip([0, *ends], ends)]
    return (
        all(0 <= it <= LONGEST for it in sizes)
        and ENTRY * count + ends[-1] <= LEAF_ROOM
        and not any(text[16 + ENTRY * count + ends[-1] :])
    )


def is_node(text, level, count):
    """The same of an inner block."""
    return 1 <= level <= 7 and 1 <= count <= FAN and not any(text[16 + CHILD * count :])


class Walk:
    """A walk through the trees under roots, each block once. Of each block that was met it keeps the level, and the
    lowest and the highest key under it, as far as they are known. It goes on behind a damaged block."""

    def __init__(self, disk, blocks):
        self.disk, self.blocks, self.met = disk, blocks, {}
        self.first, self.damaged = None, set()

    def is_data(self, block):
        return FIRST <= block < self.blocks

    def note(self, number, *blocks):
        """Notes what is to be named, if it is the first, and the blocks that are damaged."""
        self.first = number if self.first is None else self.first
        self.damaged |= {*blocks}

    def items(self, block):
        """The level and the items of a block: records or children."""
        text = exchanged(block, self.disk[block])
        level, count, zero = struct.unpack_from("<III", text, 4)
        if zero or not (
            text[:4] == b"LEF3" and level == 0 and is_leaf(text, count)
            or text[:4] == b"NODE" and is_node(text, level, count)
        ):
            raise Damaged(block)
        items = (children_in if level else records_in)(text, count)
        if any(one >= other for (one, _), (other, _) in zip(items, items[1:])):
            raise Damaged(block)
        return level, items

    def visit(self, block, expected):
        """The lowest and the highest key under a block, or None if it is damaged."""
        if block not in self.met:
            self.met[block] = None, None
            try:
                level, items = self.items(block)
            except Damaged:
                return self.note(block, block)
            if expected not in (None, level):
                return self.note(block, block)
            self.met[block] = level, None
            ends, high = [key for key, _ in items[1:]] + [None], items[-1][0]
            for (key, child), end in zip(items if level else [], ends):
                high = self.visit_child(block, child, level - 1, key, end)
            self.met[block] = level, (items[0][0], high)
        level, keys = self.met[block]
        if block not in self.damaged and expected not in (None, level):
            self.note(block, block)
        return None if block in self.damaged else keys

    def visit_child(self, parent, child, level, low, end):
        """The highest key under a child that is listed with this lowest key, before one with this key. If it is
        damaged, the one that is listed is the highest known."""
        if not self.is_data(child):
            self.note(child, parent)
            return low
        keys = self.visit(child, level)
        if keys and (keys[0] != low or end and keys[1] >= end):
            keys = self.note(child, child)
        return keys[1] if keys else low


class Opening(Walk):
    """What an opening for lines finds under roots: the level of each, and by the inner blocks all that lies under them.
    Of the leaves it reads only those that are a root."""

    def __init__(self, disk, blocks, roots):
        super().__init__(disk, blocks)
        self.levels, self.found = {}, set()
        for root in filter(None, roots):
            if not self.is_data(root):
                raise Damaged(root)
            self.levels[root] = self.items(root)[0]
        for root in filter(None, roots):
            self.find(root, self.levels[root])

    def find(self, block, level):
        if not self.is_data(block):
            raise Damaged(block)
        if block in self.found and level:
            return
        self.found.add(block)
        if level:
            for _, child in self.items_of(block, level):
                self.find(child, level - 1)

    def items_of(self, block, level):
        found, items = self.items(block)
        if found != level:
            raise Damaged(block)
        return items

    def rows(self, block, level):
        """The records under a block of this level, in the order of the blocks."""
        items = self.items_of(block, level)
        return [row for _, it in items for row in self.rows(it, level - 1)] if level else items


def roots_of(entries):
    return [root for it in entries for root in (it.current, it.base)]


def lacks_sum(disk, block):
    """Whether the file has zero in the place of the sum of a block in front of the data."""
    return block < FIRST and not any(disk[block][place_of(block) :][:4])


def refusal(disk, is_whole):
    """What opening a file of these blocks is answered, if it is refused: a check, which reads every block and names
    each damaged one, or an opening for lines."""
    script = "tools/upgrade.py OLD NEW carries it over"
    if len(disk) < LEAST or disk[0] != header(3):
        is_earlier = disk[0] in (header(1), header(2))
        return "19 NotAStore" + f"\naltctl: the file is of an earlier format: {script}" * is_earlier
    try:
        blocks, entries = slot_in(disk, 18 if disk[1][0] & 1 else 2)
        if blocks > len(disk):
            return "21 BadSize"
        if not is_whole:
            Opening(disk, blocks, roots_of(entries))
            return None
        walk = Walk(disk, blocks)
        for root in filter(None, roots_of(entries)):
            walk.visit(root, None) if walk.is_data(root) else walk.note(root)
        first, others = walk.first, sorted(walk.damaged - {walk.first})
    except Damaged as damaged:
        first, others = damaged.args[0], []
    if first is None:
        return None
    told = f"\naltctl: the file has no checksums: {script}" * lacks_sum(disk, first)
    return f"18 Damaged {first}{told}" + "".join(f"\naltctl: 18 Damaged {it}" for it in others)


def first_answers(disk):
    """What the lines of `opened` are answered, over blocks that can be opened for lines. A leaf that is damaged is
    named by the list."""
    blocks, entries = slot_in(disk, 18 if disk[1][0] & 1 else 2)
    opening, top = Opening(disk, blocks, roots_of(entries)), entries[0].current
    alternatives = listed(f"alternative {it.name} {it.owner or '~'}" for it in entries if it.tag == b"A")
    try:
        rows = opening.rows(top, opening.levels[top]) if top else []
        records = listed(f"record {key[0]} {key[1]} {spelled(value)}" for key, value in rows)
    except Damaged as damaged:
        records = f"error 18 Damaged {damaged.args[0]}"
    return f"{alternatives}\n{records}\nfree {blocks - FIRST - len(opening.found)}\n"


def count_in(text, most):
    """The count in the head of a block, where it is no more than it may be."""
    return max(1, min(most, struct.unpack_from("<I", text, 8)[0]))


def spoiled_place(rng, text):
    """A place in a leaf: in an entry, mostly in its end, or about the end of the entries or of the values."""
    count = count_in(text, LEAF_ROOM // ENTRY)
    entries = 16 + ENTRY * count
    values = entries + struct.unpack_from("<H", text, entries - 2)[0]
    entry = 16 + ENTRY * rng.choice([0, count - 1, rng.randrange(count)])
    place = rng.choice(
        [3, 8, 9, entry + rng.choice([2, 9, 10, 10, 11, 11]), entries - 1, entries, values - 1, values, values + 1]
    )
    return min(place, BLOCK - 1)


def spoiled_text(rng, block, text, other):
    """The bytes of a block with some of them changed where they count, now and then those of another block."""
    text = bytearray(text)
    places = [rng.randrange(16), rng.randrange(128, 256), rng.randrange(300), rng.randrange(BLOCK)]
    at = rng.choice([*places, place_of(block) + rng.randrange(4)])
    if block >= FIRST and rng.random() < 0.3:
        return other
    if block == 0 and rng.random() < 0.3:
        return header(rng.choice([1, 1, 2, 4]))
    if text[:4] == b"NODE" and rng.random() < 0.6:
        at = 16 + 14 * rng.randrange(count_in(text, 256)) + rng.choice([2, 10, 10, 11])
        text[at] = rng.choice([0, 1, 33, 34, 35, rng.randrange(256)])
    elif text[:4] == b"LEF3" and rng.random() < 0.7:
        at = spoiled_place(rng, text)
        text[at] = rng.choice(
            [0, 1, 15, 16, 255, text[at] ^ 1, (text[at] + 1) % 256, text[at] - 1 & 255, rng.randrange(256)]
        )
    elif block in (2, 18) and rng.random() < 0.2:
        text[4] = rng.choice([0, 1, 2, 4, 255])
    elif block in (2, 18) and rng.random() < 0.4:
        at = 128 * rng.randrange(1, 6) + rng.choice([0, 1, 2, 34, 35, 67, 67, 71, 71])
        text[at] = rng.choice([0, 1, 0x41, 0x43, 34, 35, rng.randrange(256)])
    else:
        text[at] = rng.choice([0, 1, 255, text[at] ^ 1, rng.randrange(256)])
    return bytes(text)


def spoiled(rng, disk):
    """The blocks of a file, of which some are spoiled, or that is cut off. Most of those have the sum of their new
    bytes, so that nothing but their form is wrong; others keep the old sum, or have none."""
    disk = list(disk)
    if rng.random() < 0.05:
        return disk[: rng.choice([20, 63, len(disk) - 1])]
    used = [0, 1, 2, 2, 18, 18, *(it for it in range(FIRST, len(disk)) if any(disk[it]))]
    for _ in range(rng.choice([1, 1, 2])):
        block, other, draw = rng.choice(used), rng.choice(used), rng.random()
        if draw < 0.15:
            disk[block] = spoiled_text(rng, block, disk[block], disk[other])
        else:
            text = spoiled_text(rng, block, exchanged(block, disk[block]), exchanged(other, disk[other]))
            disk[block] = text if draw < 0.25 else exchanged(block, text)
    return disk


def opened(altctl, rng, file, disk, is_plain):
    """Opens spoiled files, and says what differs from the model. A plain program's check ends at the first damaged
    block."""
    for _ in range(12):
        blocks = spoiled(rng, disk)
        with open(file, "wb") as it:
            it.write(b"".join(blocks))
        why = refusal(blocks, is_whole=True)
        why = why.split("\n")[0] if why and is_plain else why
        came = started(altctl, "check", file)
        if (came[0], came[2]) != ((1, f"altctl: {why}\n") if why else (0, "")):
            return f"a spoiled file, left as spoiled.alt, is checked with {came}, and not {why}"
        ran = subprocess.run(
            [altctl, "run", file], input=b"alts\nlist top\nfree\n", stdout=subprocess.PIPE, stderr=subprocess.PIPE
        )
        why = refusal(blocks, is_whole=False)
        wanted = (1, b"", f"altctl: {why}\n".encode()) if why else (0, first_answers(blocks).encode(), b"")
        if (ran.returncode, ran.stdout, ran.stderr) != wanted:
            return f"a spoiled file, left as spoiled.alt, is answered {ran}, and not {wanted}"
    return None


# --- random sessions


def checked(altctl, file, store):
    """Checks a store, and says what differs from the model."""
    alternatives = sum(it.tag == b"A" for it in store.committed)
    free = store.kept - FIRST - len(store.reached(store.committed))
    wanted = f"alternatives {alternatives}\ncheckpoints {len(store.committed) - alternatives}\nfree {free}\n"
    came = started(altctl, "check", file)
    return None if came == (0, wanted, "") else f"a check says {came}, and not {wanted!r}"


# Sizes of values: of all kinds; two and three of which just fill a leaf, or just do not; which a leaf has beside a
# largest one.
SIZES = [
    [60, 300, 1000, 4000],
    [1348, 1349, 2027, 2028, 2029, 3000],
    [0, 44, 55, 56, 57, 68, 3999, 4000],
    range(LONGEST + 1),
]


# Bad lines, by what is wrong with each: the word, by its place, and what was expected there.
NAME = "1 to 32 of A-Za-z0-9_.-"
BAD_LINES = {
    "word 1: there is no such line": [
        "PUT top 1 1 a", "NEXT top 1 0 1", "get\ttop 1 1", "free\r\r", "merges top", "put\r top 1 1 a",
    ],
    "word 1 takes no other word": ["commit now", "rollback now", "blocks 1", "free 1", "alts top"],
    "word 1 takes ALT": ["tally", "drop", "post top top", "checks top 1"],
    "word 1 takes ALT NAME": ["checkpoint top", "back top a b"],
    "word 1 takes ALT TABLE NUMBER": ["remove top 1", "remove top 1 1 1"],
    "word 1 takes ALT TABLE NUMBER VALUE": ["put top 1 1", "put top@ 65536 1 a b"],
    "word 1 takes NAME PARENT [CHECKPOINT]": ["new a", "new a top c d"],
    "word 1 takes ALT [SETTLEMENT ..]": ["merge"],
    "word 1 takes BLOCKS": ["grow", "grow 70 80"],
    "word 1 takes AT TABLE NUMBER": ["get top @ 1 1", "get top 1"],
    "word 1 takes AT TABLE NUMBER COUNT": ["next", "next top", "next top 1", "next top 1 2", "next top 1 2 3 4"],
    "word 1 takes AT [TABLE [FIRST LAST]]": ["list", "list top 1 2", "list top 1 2 3 4"],
    "word 1 takes AT AT [TABLE [FIRST LAST]]": ["diff", "diff top@", "diff top top 1 2", "diff top top 1 2 3 4"],
    f"word 2: NAME is {NAME}": ["new a~ top", "new " + "n" * 33 + " top"],
    f"word 3: PARENT is {NAME}": ["new a top@"],
    f"word 4: CHECKPOINT is {NAME}": ["new a top c!"],
    f"word 3: NAME is {NAME}": ["checkpoint top c@"],
    f"word 2: ALT is {NAME}": [
        "put top@ 1 1 a", "remove top@k 1 1", "changes top@", "merge top@", "merge top@ 1:1=ours", "tally top@",
        "checks top@k", "put top/ 65536 -1 %",
    ],
    "word 2: AT is ALT, ALT@ or ALT@CHECKPOINT": [
        "get @ 1 1", "get top@~ 1 1", "list top@@", "list @k", "next top@@ 1 0 1", "next @k 1 0 1",
    ],
    "word 3: AT is ALT, ALT@ or ALT@CHECKPOINT": ["diff top @k"],
    "word 3: TABLE is 0 to 65535": [
        "get top x 1", "get top 65536 1", "list top 65536", "list top x", "next top 65536 0 1",
    ],
    "word 4: TABLE is 0 to 65535": ["diff top top@ x", "diff top top 65536"],
    f"word 4: NUMBER is 0 to {2**64 - 1}": ["get top 1 18446744073709551616", "next top 1 18446744073709551616 1"],
    f"word 4: FIRST is 0 to {2**64 - 1}": ["list top 1 -1 2"],
    f"word 5: FIRST is 0 to {2**64 - 1}": ["diff top top 1 18446744073709551616 0"],
    f"word 5: LAST is 0 to {2**64 - 1}": ["list top 1 0 18446744073709551616"],
    f"word 6: LAST is 0 to {2**64 - 1}": ["diff top 1 2 3 x"],
    f"word 5: COUNT is 0 to {2**32 - 1}": ["next top 1 0 4294967296", "next top 1 0 -1", "next top 1 0 x"],
    f"word 2: BLOCKS is 0 to {2**32 - 1}": [
        "grow 4294967296", "grow 18446744073709551616", "grow " + "0" * 20 + "1", "grow -1", "grow +70", "grow many",
    ],
    "word 5: VALUE is at most 4,000 bytes, % as %25": [
        "put top 1 1 %z1", "put top 1 1 " + "x" * 4001, "put top 1 1 " + "%61" * 4001,
    ],
    "word 3: SETTLEMENT is TABLE:NUMBER=mine|theirs": ["merge top 1:1=ours", "merge top all=ours"],
    "word 4: SETTLEMENT is TABLE:NUMBER=mine|theirs": ["merge top 1:1=mine all=mine", "merge top all=mine all=mine"],
}


class Editor:
    """Makes random lines, each with its meaning: None for no answer, a text for an answer that never changes, or words
    for the store."""

    def __init__(self, rng, is_plain=False):
        self.rng, self.is_plain = rng, is_plain
        # How often a value is one of those sizes that fill a leaf with a few others, so that it has to become two or
        # three.
        self.large, self.sizes = rng.choice([0, 0.02, 0.1, 0.4, 0.9]), rng.choice(SIZES)
        self.names = ["top", "top", "a", "b", "c", "d-1", "e.f_G"]
        self.marks = ["k", "l", "m" * 32]
        self.width = rng.choice([3, 20, 60, 400, 3000])
        self.growth = rng.choice([0, 0.01, 0.04])
        self.queries = rng.choice([0.04, 0.04, 0.3])

    def version(self, store):
        """The word of a version: mostly of one that is there."""
        if self.rng.random() < 0.2:
            return self.rng.choice(self.names) + self.rng.choice(["", "", "@", *("@" + it for it in self.marks)])
        it = self.rng.choice(store.working)
        return it.name + self.rng.choice(["", "", "@"]) if it.tag == b"A" else f"{it.owner}@{it.name}"

    def part(self):
        """The words of a part: none, a table, or one with two numbers, of which the first may be above the second."""
        table, number = self.key()
        ends = [number, number + self.rng.choice([0, 1, 2, 15, 16, 17, 100]), 0, 2**64 - 1, self.key()[1]]
        first, last = (min(self.rng.choice(ends), 2**64 - 1) for _ in range(2))
        return self.rng.choice([[], [table], [self.rng.choice([0, 2, 6, 8, 65535])], *[[table, first, last]] * 4])

    def page(self):
        """The words of a page: mostly from a key that may be there."""
        table, number = self.key()
        table = self.rng.choice([table] * 5 + [0, 2, 6, 8, 65535])
        return [
            table,
            self.rng.choice([number, number, 0, 2**64 - 1]),
            self.rng.choice([0, 1, 2, 16, 17, 100, 2**32 - 1]),
        ]

    def query(self, store, name):
        """A query of rows, or of numbers. `plain.c` has no versions and no parts."""
        if self.is_plain:
            return [self.rng.choice(["list", "changes", "conflicts", "checks"]), name]
        verb = self.rng.choice(
            ["list", "list", "next", "next", "diff", "diff", "changes", "conflicts", "tally", "checks"]
        )
        if verb == "list":
            return [verb, self.version(store), *self.part()]
        if verb == "next":
            return [verb, self.version(store), *self.page()]
        if verb == "diff":
            return [verb, self.version(store), self.version(store), *self.part()]
        return [verb, name]

    def key(self):
        if self.rng.random() < 0.02:
            return self.rng.choice([(65535, 2**64 - 1), (0, 0), (256, 1), (255, 2**63)])
        return self.rng.choice([1, 1, 1, 7]), self.rng.randrange(self.width)

    def value(self):
        """A value, of which some are large. Of those of many bytes half are such as may come again."""
        size = self.rng.choice(self.sizes if self.rng.random() < self.large else [0, 1, 1, 1, 2, 4, 4, 10, 240])
        if size > 10 and self.rng.random() < 0.5:
            return bytes([self.rng.choice([0, 97])]) * size
        return bytes(self.rng.choice([45, 97, 98, self.rng.randrange(256)]) for _ in range(size))

    def typed(self, value):
        """One of the ways to write a value."""
        if value == b"":
            return "-"
        if value == b"-":
            return self.rng.choice(["%2d", "%2D"])
        text = ""
        for b in value:
            plain = 0x21 <= b <= 0x7E and b != 0x25
            text += chr(b) if plain and self.rng.random() < 0.9 else self.rng.choice([f"%{b:02x}", f"%{b:02X}"])
        return text

    def spaced(self, words):
        """The words of a line, and an end of it."""
        if self.rng.random() < 0.9:
            return " ".join(words) + "\n"
        gap = lambda least: " " * self.rng.randrange(least, 4)
        return gap(0) + "".join(it + gap(1) for it in words[:-1]) + words[-1] + gap(0) + self.rng.choice(["\n", "\r\n"])

    def odd(self):
        """A line without an answer, or a bad one, of which `plain.c` does not tell what is wrong with it."""
        if self.rng.random() < 0.3:
            return self.rng.choice(["", "# note", "   ", "  #x"]) + "\n", None
        line, what = self.rng.choice([(line, what) for what, lines in BAD_LINES.items() for line in lines])
        return line + "\n", "error 22 BadLine" + ("" if self.is_plain else f" {what}")

    def grown(self, store):
        """A growth by some blocks, or one that is refused."""
        more = self.rng.choice([0, -1, 1, 1, 2, 5, 16, 16, 40, 300])
        blocks = self.rng.choice([store.blocks + more] * 6 + [0, 63, 64, MOST + 1, 2**32 - 1])
        typed = self.rng.choice([str(blocks), str(blocks), str(blocks).rjust(20, "0")])
        return self.spaced(["grow", typed]), ["grow", blocks]

    def line(self, store):
        draw, name = self.rng.random(), self.rng.choice(self.names)
        if draw < 0.02:
            return self.odd()
        if draw < 0.02 + self.growth:
            return self.grown(store)
        if self.rng.random() < self.queries:
            words = self.query(store, name)
            return self.spaced([str(it) for it in words]), words
        if draw < 0.45:
            key, value = self.key(), self.value()
            table = self.rng.choice([str(key[0]), str(key[0]).rjust(5, "0")])
            return self.spaced(["put", name, table, str(key[1]), self.typed(value)]), ["put", name, key, value]
        if draw < 0.62:
            key = self.key()
            verb = self.rng.choice(["remove", "remove", "get"])
            name = self.version(store) if verb == "get" and not self.is_plain else name
            return self.spaced([verb, name, str(key[0]), str(key[1])]), [verb, name, key]
        if draw < 0.70:
            words = ["new", self.rng.choice(self.names), name, *self.rng.sample(self.marks, self.rng.randrange(2))]
        elif draw < 0.72:
            words = ["drop", name]
        elif draw < 0.79:
            words = [self.rng.choice(["checkpoint", "uncheck", "back"]), name, self.rng.choice(self.marks)]
        elif draw < 0.87:
            return self.merged(store, name)
        elif draw < 0.91:
            words = ["post", name]
        else:
            others = ["commit", "commit", "rollback", "reclaim", "free", "free", "alts"]
            words = [self.rng.choice([*others, "free" if self.is_plain else "blocks"])]
        return self.spaced(words), words

    def merged(self, store, name):
        """A merge that mostly settles what is in conflict, now and then by a side for all conflicts. `plain.c` has no
        such side."""
        try:
            found = [key for key, *_ in store.in_conflict(*store.sides(name)[2:])]
        except Refused:
            found = []
        if self.rng.random() < 0.15 and found:
            found.pop(self.rng.randrange(len(found)))
        if self.rng.random() < 0.05:
            found.append(self.rng.choice([*found, self.key()]))
        if self.rng.random() < 0.3:
            self.rng.shuffle(found)
        side = None
        if not self.is_plain and self.rng.random() < 0.3:
            side = self.rng.choice(["mine", "theirs"])
            found = found[:self.rng.randrange(len(found) + 1)]
        settled = [(key, self.rng.choice(["mine", "theirs"])) for key in found]
        words = [f"all={side}"] if side else []
        words += [f"{key[0]}:{key[1]}={side_of_key}" for key, side_of_key in settled]
        return self.spaced(["merge", name, *words]), ["merge", name, settled, side]


def started(altctl, *words):
    """Runs the program, and gives its status, its output and its standard error."""
    ran = subprocess.run([altctl, *words], stdin=subprocess.DEVNULL, stdout=subprocess.PIPE, stderr=subprocess.PIPE)
    return ran.returncode, ran.stdout.decode(), ran.stderr.decode()


def read(file):
    with open(file, "rb") as it:
        return it.read()


def copies(altctl, rng, file, store, options):
    """Copies a file to a random size, and says what differs from the model."""
    to, used = f"{file}.copy", FIRST + len(store.reached(store.committed))
    chosen = rng.choice(
        [
            None, None, used - 1, used, used, used + 1, max(used, LEAST) + rng.randrange(300), 2 * store.kept, 63, 64,
            MOST + 1,
        ]
    )
    blocks, before = store.kept if chosen is None else chosen, read(file)
    came = started(altctl, "copy", *options, file, to, *([] if chosen is None else [str(chosen)]))
    what = f"a copy to {chosen} blocks"
    if not LEAST <= blocks <= MOST:
        due = 2, "", came[2]
    elif blocks < used:
        due = 1, "", "altctl: 13 Full\n"
    else:
        due = 0, f"copied {blocks}, {used} used\n", ""
    if came != due:
        return f"{what} is answered {came}, and not {due}"
    if read(file) != before:
        return f"{what} changes the file"
    if os.path.exists(to) != (due[0] == 0):
        return f"{what}, answered {came}: the file is there, or is not"
    return copied_twice(altctl, to, store.copied(blocks), used, what) if due[0] == 0 else None


def copied_twice(altctl, to, copy, used, what):
    """Compares a copy with the one of the model, and copies it to as many blocks, which gives the same bytes."""
    if read(to) != b"".join(copy.disk):
        os.replace(to, "copy.alt")
        return f"{what}, left as copy.alt, has other bytes"
    copy.open()
    why = checked(altctl, to, copy)
    if why:
        return f"{what}: {why}"
    due = [(0, f"copied {copy.blocks}, {used} used\n", ""), (1, "", f"altctl: cannot create {to}.2\n")]
    came = [started(altctl, "copy", to, f"{to}.2") for _ in due]
    if came != due:
        return f"{what}, copied again, is answered {came}, and not {due}"
    if read(f"{to}.2") != read(to):
        return f"{what}, copied again, has other bytes"
    os.remove(to)
    os.remove(f"{to}.2")
    return None


class Session:
    """A process of the program on a file. Its answers go to a file, too, so no side waits for the other."""

    PATIENCE = 60

    def __init__(self, altctl, options, file):
        self.answers = tempfile.TemporaryFile()
        how = {"stdin": subprocess.PIPE, "stdout": self.answers, "stderr": subprocess.PIPE}
        self.program = subprocess.Popen([altctl, "run", *options, file], **how)

    def say(self, lines, size):
        """Sends lines, and waits until the answers have this many bytes in all, or the program has ended."""
        try:
            self.program.stdin.write(lines)
            self.program.stdin.flush()
        except BrokenPipeError:
            return
        late = time.monotonic() + self.PATIENCE
        while (
            os.fstat(self.answers.fileno()).st_size < size and self.program.poll() is None and time.monotonic() < late
        ):
            time.sleep(0.001)

    def end(self):
        """Ends the input, and gives the status, the answers and what came on the standard error."""
        _, faults = self.program.communicate(timeout=self.PATIENCE)
        self.answers.seek(0)
        with self.answers:
            return self.program.returncode, self.answers.read().decode(), faults


def random_lines(store, editor, count):
    """Random lines, and what the model answers."""
    lines, answers = "", ""
    for _ in range(count):
        line, words = editor.line(store)
        lines += line
        if isinstance(words, list):
            try:
                words = store.apply(words)
            except Refused as refused:
                words = refused.text
        if words is not None:
            answers += words + "\n"
    return lines, answers


def session(altctl, rng, options, file, store, editor):
    """Runs a session of random lines, in some of them with a copy of the file between two lines. Gives the number of
    lines, the lines, and what differs from the model."""
    count, running = rng.choice([10, 100, 400]), Session(altctl, options, file)
    first = rng.randrange(count) if not editor.is_plain and rng.random() < 0.3 else count
    lines, answers = random_lines(store, editor, first)
    running.say(lines.encode("latin-1"), len(answers))
    why = copies(altctl, rng, file, store, ["--no-lock"]) if first < count else None
    more, due = random_lines(store, editor, count - first)
    running.say(more.encode("latin-1"), len(answers + due))
    came = running.end()
    if came != (0, answers + due, b""):
        why = f"the answers differ: {difference(answers + due, came)}"
    return count, lines + more, why


def bytes_differ(file, store, waits):
    """What differs between the file and the model's blocks, apart from those that need not be written."""
    found = read(file)
    needed = {*range(FIRST), *store.reached(store.committed)} if waits else range(len(store.disk))
    for at, block in enumerate(store.disk):
        if at in needed and found[at * BLOCK : (at + 1) * BLOCK] != block:
            return f"block {at} differs"
    if len(found) != BLOCK * len(store.disk):
        return f"the file has {len(found)} bytes, and not {BLOCK * len(store.disk)}"
    return None


def compared(altctl, rng, folder, waits, is_plain):
    """Makes a file, runs some sessions over it, and says what differs from the model."""
    options = [] if waits else ["--buffer", "0"]
    file, blocks = os.path.join(folder, "map.alt"), rng.choice([64, 64, 66, 100, 200, 1000])
    made = started(altctl, "create", file, str(blocks))
    if made[:2] != (0, f"created {blocks}\n"):
        return f"create said {made}"
    store, editor = Store(blocks, is_plain), Editor(rng, is_plain)
    count = 0
    for _ in range(rng.randrange(1, 5)):
        store.open()
        more, lines, why = session(altctl, rng, options, file, store, editor)
        count += more
        why = why or checked(altctl, file, store) or bytes_differ(file, store, waits)
        if not why and not editor.is_plain and rng.random() < 0.3:
            why = copies(altctl, rng, file, store, [])
        if why:
            shown = "\n".join(it if len(it) <= 120 else f"{it[:110]}.. ({len(it)} bytes)" for it in lines.split("\n"))
            return f"{why}, after these lines:\n{shown}"
    why = opened(altctl, rng, file, store.disk, is_plain)
    if why:
        os.replace(file, "spoiled.alt")
        return why
    os.remove(file)
    return count


def difference(answers, came):
    status, text, faults = came
    given, wanted = text.split("\n"), answers.split("\n")
    at = next((i for i, (a, b) in enumerate(zip(given, wanted)) if a != b), min(len(given), len(wanted)))
    return f"status {status}, {faults!r}, at answer line {at + 1}: {given[at : at + 3]} and not {wanted[at : at + 3]}"


def main():
    words = argparse.ArgumentParser(description=__doc__)
    words.add_argument("-n", type=int, default=200, help="so many files")
    words.add_argument("-s", type=int, default=1, help="the first seed")
    words.add_argument(
        "--plain", action="store_true", help="only what plain.c knows: neither versions nor parts, nor copies"
    )
    words.add_argument(
        "altctl", nargs="?", default=os.path.join(os.path.dirname(os.path.abspath(__file__)), "..", "..", "altctl")
    )
    said = words.parse_args()
    lines = 0
    with tempfile.TemporaryDirectory() as folder:
        for seed in range(said.s, said.s + said.n):
            found = compared(said.altctl, random.Random(seed), folder, seed % 2 == 1, said.plain)
            if isinstance(found, str):
                print(f"compare: seed {seed}: {found}", file=sys.stderr)
                return 1
            lines += found
    print(
        f"{said.n} files, {lines} lines, {12 * said.n} spoiled files: "
        "all answers, and all bytes that are due, are as the model has them"
    )
    return 0


if __name__ == "__main__":
    sys.exit(main())
