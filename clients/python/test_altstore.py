#!/usr/bin/env python3
"""Tests of the module `altstore`: `test_altstore.py LIBRARY [PROGRAM]`, with the shared library that
`tools/release/altstore.sh` makes and the program altctl, by default the one that `./altctl` at the top starts."""
import os
import subprocess
import sys
import tempfile
import unittest
from pathlib import Path

sys.dont_write_bytecode = True
HERE = Path(__file__).resolve().parent
sys.path.insert(0, str(HERE))
os.environ["ALTSTORE_LIBRARY"] = os.path.abspath(sys.argv.pop(1)) if len(sys.argv) > 1 else ""
PROGRAM = os.path.abspath(sys.argv.pop(1)) if len(sys.argv) > 1 else str(HERE.parent.parent / "altctl")
import altctl
from altstore import Memory, Refused

VALUES = [b"", b"-", b"~", b"%41", b"duct 160", bytes(range(256)), b"x" * 4000]


class Tests(unittest.TestCase):
    def setUp(self):
        self.folder = tempfile.TemporaryDirectory()
        self.addCleanup(self.folder.cleanup)
        self.file = os.path.join(self.folder.name, "map.alt")

    def test_reads_a_snapshot(self):
        subprocess.run([PROGRAM, "create", self.file, "256"], check=True, stdout=subprocess.DEVNULL)
        with altctl.Store(self.file, program=PROGRAM) as writer:
            for number, value in enumerate(VALUES):
                writer.put("top", 7, number, value)
            writer.commit()
            writer.put("top", 7, 0, b"not committed")
            for image in (self.file, Path(self.file).read_bytes()):
                with Memory.load(image) as store:
                    self.assertEqual(VALUES, [store.get("top", 7, it) for it in range(len(VALUES))])
                    self.assertEqual([(7, it, value) for it, value in enumerate(VALUES)], list(store.records("top")))
                    self.assertIsNone(store.get("top", 8, 1))

    def test_scratch_store(self):
        with Memory(64, room=128) as store:
            for number, value in enumerate(VALUES):
                store.put("top", 7, number, value)
            store.commit()
            store.remove("top", 7, 0)
            self.assertIsNone(store.get("top", 7, 0))
            self.assertEqual("ok\nok\nblocks 128\n", store.ask("new north top\ngrow 128\nblocks\n"))
            store.save(self.file)
            self.assertEqual(b"", store.get("top", 7, 0))
        with altctl.Store(self.file, program=PROGRAM) as reader:
            self.assertEqual(VALUES, [reader.get("top", 7, it) for it in range(len(VALUES))])

    def test_refusals(self):
        with self.assertRaises(Refused) as caught:
            Memory(63)
        self.assertEqual(21, caught.exception.code)
        with self.assertRaises(Refused) as caught:
            Memory.load(b"no store")
        self.assertEqual(19, caught.exception.code)
        store = Memory(64)
        with self.assertRaises(Refused) as caught:
            store.get("south", 7, 1)
        self.assertEqual((1, "error 1 NoSuchAlternative"), (caught.exception.code, str(caught.exception)))
        self.assertEqual("error 1 NoSuchAlternative\n", store.ask("get south 7 1\nalts\n", stops=True))
        store.close()
        store.close()
        with self.assertRaises(Refused) as caught:
            store.get("top", 7, 1)
        self.assertEqual(101, caught.exception.code)

    def test_many_records(self):
        with Memory(4096, room=16384) as store:
            lines = "".join(f"put top 7 {it} {it}\n" for it in range(5000))
            self.assertEqual("ok\n" * 5000, store.ask(lines))
            self.assertEqual([(7, it, b"%d" % it) for it in range(5000)], list(store.records("top")))


if __name__ == "__main__":
    unittest.main()
