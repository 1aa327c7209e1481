#!/usr/bin/env python3
"""Tests of `tools/sums.py`, and of the sums in C (`tools/measure/plain.c`): `tools/test_sums.py`. What is expected comes
from Debian's `python3-xxhash`: random blocks are compared with it where it is installed."""
import os
import random
import shutil
import subprocess
import sys
import tempfile
import unittest

sys.dont_write_bytecode = True
HERE = os.path.dirname(os.path.abspath(__file__))
DEBIAN = "/usr/bin/python3"  # The Python that Debian's modules are installed for.
try:
    from xxhash import xxh64_intdigest
except ImportError:
    if os.path.exists(DEBIAN) and sys.executable != DEBIAN:
        os.execv(DEBIAN, [DEBIAN, *sys.argv])
    print("test_sums: no hash is compared with those of xxhash (`apt install python3-xxhash`)")
    xxh64_intdigest = None
import sums
from sums import BLOCK, exchanged, place_of, plain_hash, sum_of

ZEROS = bytes(BLOCK)
PATTERN = bytes((7 * it + it // 256) % 251 for it in range(BLOCK))


class SumTests(unittest.TestCase):
    def test_hashes_are_those_of_xxhash(self):
        self.assertEqual(0xF6E9BE5D70632CF5, plain_hash(bytes(32)))
        self.assertEqual(0xAC869B6F32D8BBDB, plain_hash(ZEROS))
        self.assertEqual(0xE2F2A8672E389EDF, plain_hash(PATTERN))

    @unittest.skipIf(xxh64_intdigest is None, "xxhash is not installed")
    def test_hashes_of_random_blocks_are_those_of_xxhash(self):
        self.assertIs(xxh64_intdigest, sums.hash_of)
        chance = random.Random(1)
        for size in [32, 64, *[BLOCK] * 200]:
            text = bytes(chance.getrandbits(8) for _ in range(size))
            self.assertEqual(xxh64_intdigest(text), plain_hash(text))

    def test_slots_and_data_blocks_have_their_sums_in_their_places(self):
        for number, at, due in [(2, 124, "6b32493b"), (33, 124, "331d9115"), (34, 12, "ca77e892"),
                                (1_048_575, 12, "364dcfc1")]:
            self.assertEqual(ZEROS[:at] + bytes.fromhex(due) + ZEROS[at + 4 :], exchanged(number, ZEROS), number)
        self.assertEqual(PATTERN[:12] + bytes.fromhex("5bfde5b4") + PATTERN[16:], exchanged(34, PATTERN))

    def test_header_and_selector_have_no_sum(self):
        for number in (0, 1):
            self.assertEqual(PATTERN, exchanged(number, PATTERN))

    def test_what_was_exchanged_twice_is_as_before(self):
        for number in (2, 17, 18, 33, 34, 2**26 - 1):
            for text in (ZEROS, PATTERN):
                self.assertEqual(text, exchanged(number, exchanged(number, text)))

    def test_other_bytes_and_another_number_show_no_zero(self):
        for number, other in [(2, 18), (33, 34), (34, 33), (34, 35)]:
            text = exchanged(number, ZEROS)
            self.assertEqual(int.from_bytes(text[place_of(number) :][:4], "little"), sum_of(number, text))
            for bit in (0, 8 * 12, 8 * 124 + 31, 8 * BLOCK - 1):
                turned = bytearray(text)
                turned[bit // 8] ^= 1 << bit % 8
                self.assertTrue(any(exchanged(number, bytes(turned))[place_of(number) :][:4]), (number, bit))
            self.assertTrue(any(exchanged(other, text)[place_of(other) :][:4]), (number, other))

    @unittest.skipUnless(shutil.which("cc"), "there is no C compiler (cc)")
    def test_the_program_in_c_and_the_model_write_the_same_files(self):
        with tempfile.TemporaryDirectory() as folder:
            plain, compare = os.path.join(folder, "plain"), os.path.join(HERE, "faults", "compare.py")
            subprocess.run(["cc", "-O2", "-o", plain, os.path.join(HERE, "measure", "plain.c")], check=True)
            words = [sys.executable, compare, "--plain", "-n", "3", plain]
            ran = subprocess.run(words, capture_output=True, text=True, timeout=300, cwd=folder)
        self.assertEqual((0, ""), (ran.returncode, ran.stderr))


if __name__ == "__main__":
    unittest.main()
