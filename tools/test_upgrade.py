#!/usr/bin/env python3
"""Tests of `tools/upgrade.py`: `tools/test_upgrade.py`. What an upgraded store has to show is what the model of
`tools/faults/compare.py`, which shares nothing with it but the sums in blocks, shows after the lines that made the old
one.

`old-stores/format-2.alt.gz` was made by the last program that wrote format 2, by the lines of `lines_of(2)`, and
`old-stores/format-1.alt.gz` by the C program of commit 775ff4e3 (`tools/plain.c`), which wrote format 1 like the
program of its day, by those of `lines_of(1)`; `old-stores/format-3.alt.gz` by the last program without checksums, by
those of `lines_of(3)`, without waiting blocks; all over 200 blocks."""
import fcntl
import gzip
import os
import shutil
import signal
import stat
import struct
import subprocess
import sys
import tempfile
import time
import unittest

sys.dont_write_bytecode = True
HERE = os.path.dirname(os.path.abspath(__file__))
sys.path.insert(0, os.path.join(HERE, "faults"))
from compare import BLOCK, Store, spelled

ALTCTL = os.environ.get("ALTCTL") or os.path.join(HERE, "..", "altctl")
UPGRADE = os.path.join(HERE, "upgrade.py")
BLOCKS = 200
LAST = 2**64 - 1


def lines_of(form):
    """The lines of an old store, each as words of the model. Format 1 has no values of more than 240 bytes."""
    longest = 240 if form == 1 else 4000
    values = [b"", b"-", b"%", bytes(range(60)), b"v" * 240, b"w" * min(241, longest), b"x" * longest]
    few = [(table, number) for table in (0, 1, 65535) for number in (0, 5, 256, LAST)]
    many = [(7, number) for number in range(400)]
    lines = [["put", "top", key, b"%d" % key[1]] for key in many]
    lines += [["put", "top", key, values[at % 7]] for at, key in enumerate(few)]
    lines += [["checkpoint", "top", "survey"], ["new", "north", "top"], ["new", "empty", "top"]]
    lines += [["new", "s-1.b_C", "north"]]
    lines += [["put", "north", (8, number), values[number % 7]] for number in range(20)]
    lines += [["put", "north", (7, 20), b"of north"], ["checkpoint", "north", "before"], ["commit"]]
    # What changes in top after it, in conflict once, so that north gets another base; and a post.
    lines += [["put", "top", (7, number), b"w" * min(300, longest)] for number in (10, 20, 30)]
    lines += [["remove", "top", (7, 399)], ["merge", "north", [((7, 20), "mine")], None]]
    lines += [["checkpoint", "north", "merged"], ["put", "north", (9, 1), b"posted"], ["post", "north"]]
    lines += [["put", "north", (9, 2), b"not yet"], ["remove", "north", (8, 3)]]
    lines += [["put", "s-1.b_C", (7, 20), b"of south"], ["checkpoint", "s-1.b_C", "k" * 32]]
    # One that began at a checkpoint, with the records from before the merge; one without records; one that went back.
    lines += [["new", "old", "north", "before"]]
    lines += [["remove", "empty", key] for key in [*many, *few]]
    lines += [["put", "old", (7, 0), b"gone"], ["checkpoint", "old", "a"], ["back", "north", "before"]]
    lines += [["checkpoint", "north", "again"], ["back", "north", "merged"], ["put", "north", (9, 3), b"later"]]
    lines += [["new", "dropped", "old"], ["drop", "dropped"]]
    # More entries than one block of a slot has.
    lines += [["checkpoint", "old", f"c{number}"] for number in range(30)]
    return [*lines, ["uncheck", "old", "c7"], ["commit"]]


def typed(words):
    """The line of these words."""
    verb, *rest = words
    if verb in ("put", "remove"):
        name, key, *value = rest
        return " ".join([verb, name, *map(str, key), *map(spelled, value)])
    if verb == "merge":
        return " ".join([verb, rest[0], *(f"{key[0]}:{key[1]}={side}" for key, side in rest[1])])
    return " ".join(words)


def model_of(form):
    """The model after the lines of an old store. All of them are carried out, by a program that changes no block in its
    place."""
    store = Store(BLOCKS, copies=True)
    store.open()
    for words in lines_of(form):
        assert store.apply(words).startswith("ok"), words
    return store


def unpacked(form):
    with gzip.open(os.path.join(HERE, "old-stores", f"format-{form}.alt.gz")) as it:
        return it.read()


def read(file):
    with open(file, "rb") as it:
        return it.read()


def script(file, text):
    """A program that starts the real one in a way of its own."""
    with open(file, "w") as it:
        it.write(f"#!/bin/sh\nprogram={ALTCTL}\n{text}\n")
    os.chmod(file, 0o755)
    return file


class UpgradeTests(unittest.TestCase):
    def setUp(self):
        self.folder = tempfile.mkdtemp()
        self.addCleanup(shutil.rmtree, self.folder)
        self.old, self.new = os.path.join(self.folder, "old"), os.path.join(self.folder, "new")

    def write(self, text):
        with open(self.old, "wb") as it:
            it.write(text)

    def upgrade(self, altctl=ALTCTL):
        ran = subprocess.run([UPGRADE, self.old, self.new, altctl], capture_output=True, text=True, timeout=300)
        return ran.returncode, ran.stdout, ran.stderr

    def refused(self, said, altctl=ALTCTL):
        """An upgrade that fails leaves the old store as it was, and nothing else."""
        before, names = read(self.old), sorted(os.listdir(self.folder))
        status, out, fault = self.upgrade(altctl)
        self.assertEqual((1, ""), (status, out), fault)
        self.assertIn(said, fault)
        self.assertEqual((before, names), (read(self.old), sorted(os.listdir(self.folder))), fault)

    def answers(self, *lines):
        text = "".join(f"{it}\n" for it in lines)
        ran = subprocess.run([ALTCTL, "run", self.new], input=text, capture_output=True, text=True)
        self.assertEqual((0, ""), (ran.returncode, ran.stderr))
        return ran.stdout

    def shown(self, store):
        """Queries of all that a store shows, and the answers of the model. The base of a checkpoint is that of its
        alternative once that went back; nothing is committed."""
        entries = [it.copy() for it in store.working]
        names = [it.name for it in entries if it.tag == b"A"]
        queries = [["alts"], *(["checks", it] for it in names)]
        queries += [["list", at] for it in names for at in (it, f"{it}@")]
        for it in entries:
            if it.tag == b"C":
                queries += [["list", f"{it.owner}@{it.name}"], ["back", it.owner, it.name], ["list", f"{it.owner}@"]]
        return [" ".join(it) for it in queries], "".join(store.apply(it) + "\n" for it in queries)

    def upgraded(self, form):
        self.write(unpacked(form))
        before = read(self.old), os.stat(self.old).st_mtime_ns
        store = model_of(form)
        kinds = [it.tag for it in store.working]
        said = f"upgraded: {kinds.count(b'A')} alternatives, {kinds.count(b'C')} checkpoints\n"
        self.assertEqual((0, said, ""), self.upgrade())
        self.assertEqual(before, (read(self.old), os.stat(self.old).st_mtime_ns))
        self.assertEqual(["new", "old"], sorted(os.listdir(self.folder)))
        queries, due = self.shown(store)
        self.assertEqual(due, self.answers(*queries))
        return read(self.new)

    def test_a_store_of_format_1_is_upgraded(self):
        text = self.upgraded(1)
        self.assertEqual((b"ALTSTORE\3\0\0\0", BLOCKS * BLOCK), (text[:12], len(text)))

    def test_a_store_of_format_2_is_upgraded(self):
        text = self.upgraded(2)
        self.assertEqual((b"ALTSTORE\3\0\0\0", BLOCKS * BLOCK), (text[:12], len(text)))

    def test_a_store_of_format_3_without_checksums_gets_them(self):
        text = self.upgraded(3)
        self.assertTrue(text == b"".join(model_of(3).disk), "the new file has other bytes than the model")
        self.assertNotEqual(text, unpacked(3))
        os.replace(self.new, self.old)
        self.refused(f"upgrade: {self.old}: its blocks have their checksums already\n")

    def test_the_old_stores_are_of_the_formats_that_they_are_named_for(self):
        for form in (1, 2):
            text = unpacked(form)
            slot = 18 if text[BLOCK] & 1 else 2
            self.assertEqual((b"ALTSTORE\1\0\0\0", b"SLOT" + bytes([form])), (text[:12], text[slot * BLOCK :][:5]))
        letters = {text[at : at + 4] for text in (unpacked(2),) for at in range(34 * BLOCK, len(text), BLOCK)}
        self.assertEqual({b"LEAF", b"LEF2", b"LONG", b"NODE", bytes(4)}, letters)
        text = unpacked(3)
        heads = [text[at : at + 16] for at in range(34 * BLOCK, len(text), BLOCK)]
        self.assertEqual(b"ALTSTORE\3\0\0\0", text[:12])
        self.assertEqual({b"LEF3", b"NODE", bytes(4)}, {it[:4] for it in heads})
        self.assertEqual({bytes(4)}, {it[12:] for it in heads})
        self.assertEqual({bytes(4)}, {text[at + 124 : at + 128] for at in range(2 * BLOCK, 34 * BLOCK, BLOCK)})

    def test_bytes_behind_the_blocks_of_a_store_are_left_out(self):
        for form in (2, 3):
            self.write(unpacked(form) + b"\1" * (BLOCK + 5))
            self.assertEqual(0, self.upgrade()[0])
            self.assertEqual(BLOCKS * BLOCK, len(read(self.new)))
            self.assertEqual(0o600, stat.S_IMODE(os.stat(self.new).st_mode))
            os.remove(self.new)

    def damaged(self, form, said, at, *values, by_program=False):
        """Refuses the old store with these bytes there."""
        text = bytearray(unpacked(form))
        text[at : at + len(values)] = bytes(values)
        self.assertNotEqual(text, unpacked(form))
        self.write(text)
        self.refused(f"altctl: {said}\n" if by_program else f"upgrade: {self.old}: {said}\n")

    def test_a_damaged_store_is_refused_with_the_block(self):
        text = unpacked(2)
        slot = 18 if text[BLOCK] & 1 else 2
        self.damaged(2, "19 NotAStore", 9, 1)
        self.damaged(2, "19 NotAStore", BLOCK - 1, 1)
        self.damaged(2, f"18 Damaged {slot}", slot * BLOCK + 4, 3)
        self.damaged(2, f"18 Damaged {slot}", slot * BLOCK + 20, 1)
        # The owner of an entry in the second block of the slot.
        self.damaged(2, f"18 Damaged {slot}", (slot + 1) * BLOCK + 35, ord("z"))
        self.damaged(2, "21 BadSize", slot * BLOCK + 8, 201)
        root = struct.unpack_from("<I", text, slot * BLOCK + 128 + 67)[0]
        level, count = struct.unpack_from("<II", text, root * BLOCK + 4)
        self.assertEqual((b"NODE", 1), (text[root * BLOCK : root * BLOCK + 4], level))
        self.damaged(2, f"18 Damaged {root}", root * BLOCK + 12, 1)
        self.damaged(2, f"18 Damaged {root}", root * BLOCK + 16 + 14 * count, 1)
        # A child that is no data block, one that is the root, and one that begins with another key than the root tells.
        self.damaged(2, "18 Damaged 33", root * BLOCK + 16 + 10, 33, 0)
        self.damaged(2, f"18 Damaged {root}", root * BLOCK + 16 + 10, root, 0)
        child = text[root * BLOCK + 16 + 10]
        self.damaged(2, f"18 Damaged {child}", child * BLOCK + 3, ord("x"))
        self.damaged(2, f"18 Damaged {child}", child * BLOCK + 16 + 2, 1)

    def test_a_damaged_leaf_or_long_value_is_refused_with_the_block(self):
        text = unpacked(2)
        slot, reached = 18 if text[BLOCK] & 1 else 2, self.reached(text)
        kinds = {text[it * BLOCK :][:4]: it * BLOCK for it in reversed(reached)}
        leaf, linked = kinds[b"LEAF"], kinds[b"LEF2"]
        count, = struct.unpack_from("<I", text, leaf + 8)
        size, = struct.unpack_from("<H", text, leaf + 16 + 10)
        self.damaged(2, f"18 Damaged {leaf // BLOCK}", leaf + 8, 17)
        self.damaged(2, f"18 Damaged {leaf // BLOCK}", leaf + 16 + 12 + size, 1)
        self.damaged(2, f"18 Damaged {leaf // BLOCK}", leaf + 16 + 252 * count, 1)
        sizes = [(at, *struct.unpack_from("<H", text, at + 10)) for at in range(linked + 16, linked + BLOCK - 14, 252)]
        row = next(at for at, size in sizes if size > 240)
        long, = struct.unpack_from("<I", text, row + 12)
        self.damaged(2, f"18 Damaged {linked // BLOCK}", linked + 3, ord("F"))
        self.damaged(2, f"18 Damaged {linked // BLOCK}", row + 16, 1)
        self.damaged(2, "18 Damaged 5", row + 12, 5, 0)
        self.damaged(2, f"18 Damaged {leaf // BLOCK}", row + 12, leaf // BLOCK, 0)
        size, = struct.unpack_from("<I", text, long * BLOCK + 8)
        for at in (4, 8, 12, 16, 18, 26 + size):
            self.damaged(2, f"18 Damaged {long}", long * BLOCK + at, text[long * BLOCK + at] ^ 1)
        # Format 1 knew no long values.
        self.damaged(2, f"18 Damaged {linked // BLOCK}", slot * BLOCK + 4, 1)

    def test_a_damaged_store_without_checksums_is_refused_with_the_block(self):
        text = unpacked(3)
        slot, reached = 18 if text[BLOCK] & 1 else 2, self.reached(text)
        for at, value in ((0, ord("s")), (4, 2), (8, 63), (11, 255), (124, 1), (127, 1)):
            self.damaged(3, f"18 Damaged {slot}", slot * BLOCK + at, value)
        self.damaged(3, "21 BadSize", slot * BLOCK + 8, 201)
        # In the first entry, in one of the second block, and in the place of its sum.
        for at in (128, BLOCK + 35, BLOCK + 124):
            self.damaged(3, f"18 Damaged {slot}", slot * BLOCK + at, 1, by_program=True)
        kinds = {text[it * BLOCK :][:4]: it for it in reversed(reached)}
        # The head of an inner block; that of a leaf, and its first key, which is not the one that stands above.
        for kind, places in ((b"NODE", (3, 8, 12, 15)), (b"LEF3", (3, 8, 12, 15, 18))):
            block = kinds[kind]
            for place in (block * BLOCK + at for at in places):
                self.damaged(3, f"18 Damaged {block}", place, text[place] ^ 1, by_program=True)

    @staticmethod
    def reached(text):
        """The blocks of the trees of top's records, in the order in which they are found."""
        slot, found = 18 if text[BLOCK] & 1 else 2, []

        def visit(block):
            found.append(block)
            level, count = struct.unpack_from("<II", text, block * BLOCK + 4)
            for at in range(count if level else 0):
                visit(*struct.unpack_from("<I", text, block * BLOCK + 16 + 14 * at + 10))

        visit(*struct.unpack_from("<I", text, slot * BLOCK + 128 + 67))
        return found

    def test_files_that_are_no_old_stores_are_refused(self):
        for name in (os.path.join(self.folder, "nothing"), self.folder, "/dev/null"):
            ran = subprocess.run([UPGRADE, name, self.new, ALTCTL], capture_output=True, text=True, timeout=60)
            self.assertEqual((1, "", []), (ran.returncode, ran.stdout, os.listdir(self.folder)), ran.stderr)
        self.write(b"")
        self.refused("19 NotAStore")
        self.write(unpacked(2)[: 63 * BLOCK])
        self.refused("19 NotAStore")
        for form in (2, 3):
            self.write(unpacked(form)[: 199 * BLOCK])
            self.refused("21 BadSize")
        self.write(b"".join(Store(64).disk))
        self.refused("its blocks have their checksums already")

    def test_names_that_are_there_and_a_store_in_use_are_refused(self):
        self.write(unpacked(1))
        for name in ("new", "new.part"):
            file = os.path.join(self.folder, name)
            os.symlink("nowhere", file)
            self.refused(f"{file} is there")
            os.remove(file)
        with open(self.old, "r+b") as it:
            fcntl.flock(it, fcntl.LOCK_EX)
            self.refused(f"{self.old} is in use")
        with open(self.old, "rb") as it:
            fcntl.flock(it, fcntl.LOCK_SH)
            self.assertEqual(0, self.upgrade()[0])

    def test_nothing_is_left_if_the_program_fails(self):
        self.write(unpacked(1))
        self.refused("No such file", os.path.join(self.folder, "nothing"))
        made = '[ "$1" = create ] && exec "$program" "$@"'
        programs = {
            "create": "exit 1",
            "status 3": f"{made}\nexit 3",
            "error 1 NoSuchAlternative": f'{made}\nsed "s/^put north/put nobody/" | "$program" "$@"',
        }
        for said, text in programs.items():
            with self.subTest(said):
                self.refused(said, script(os.path.join(self.folder, "program"), text))
        self.write(unpacked(3))
        self.refused("No such file", os.path.join(self.folder, "nothing"))
        self.refused("status 3", script(os.path.join(self.folder, "program"), "exit 3"))

    def test_a_store_that_differs_is_refused(self):
        self.write(unpacked(2))
        differs = "the new store differs"
        changes = {
            "s/^put top 7 5 5/put top 7 5 6/": differs,
            "s/^put north 9 3 later/put north 9 3 late/": differs,
            "s/^put s-1.b_C .*/free/": differs,
            "s/^remove empty 7 0$/free/": differs,
            "s/^checkpoint north again/checkpoint north other/": "error 3 NoSuchCheckpoint",
        }
        for change, said in changes.items():
            with self.subTest(change):
                text = f'[ "$1" = create ] && exec "$program" "$@"\nsed "{change}" | "$program" "$@"'
                self.refused(said, script(os.path.join(self.folder, "program"), text))

    def test_nothing_is_left_if_it_is_ended(self):
        slow = script(os.path.join(self.folder, "program"), '[ "$1" = create ] && exec "$program" "$@"\nexec sleep 60')
        for number, form in ((signal.SIGTERM, 2), (signal.SIGINT, 2), (signal.SIGTERM, 3)):
            self.write(unpacked(form))
            ran = subprocess.Popen([UPGRADE, self.old, self.new, slow], stdout=subprocess.PIPE, stderr=subprocess.PIPE)
            part, late = f"{self.new}.part", time.monotonic() + 60
            while not (os.path.exists(part) and os.path.getsize(part) == BLOCKS * BLOCK) and time.monotonic() < late:
                time.sleep(0.01)
            ran.send_signal(number)
            self.assertEqual((b"", b""), ran.communicate(timeout=60))
            self.assertEqual((128 + number, ["old", "program"]), (ran.returncode, sorted(os.listdir(self.folder))))


if __name__ == "__main__":
    unittest.main()
