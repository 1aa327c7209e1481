"""Ctrl-C at random moments of an import, an export and a merge: one line says what is there, that is so, and the status
is 130. The variable INTERRUPTIONS tells how many moments of each."""
import os
import random
import re
import shutil
import signal
import subprocess
import sys
import time
from pathlib import Path

from gis_tests.cases import ALTCTL, DESK, DUCTS, AltgisCase, change, write

from altctl import Store

MOMENTS = int(os.environ.get("INTERRUPTIONS", "6"))
COUNT = 4000


# altgis with limits so small that the import is several batches.
IN_BATCHES = f"""
import runpy, sys
sys.path.insert(0, {str(DESK)!r})
import maps
from gis import staging
staging.ONE_BATCH, staging.PORTION = (1000, 10**6), (500, 10**6)
runpy.run_path({str(DESK / "altgis")!r}, run_name="__main__")
"""


class InterruptionTests(AltgisCase):
    def begin(self):
        """A map in `top`, a design of it, and a file in which each feature has changed."""
        features = [(it, {"dn": it % 200, "mat": "PVC"}, "POINT (1 2)") for it in range(1, COUNT + 1)]
        write(self.file("a.gpkg"), "ducts", DUCTS, features)
        self.bring(self.file("a.gpkg"), "ducts")
        self.ask(lambda store: store.new("north", "top"))
        change(self.file("a.gpkg"), "UPDATE ducts SET dn = dn + 1")

    def interruptions(self, *words, before=lambda: None, program=(str(DESK / "altgis"),)):
        """Starts altgis again and again, and interrupts it at a moment. Gives for each what its line says, and None if
        it was at its end before."""
        words, chance = [sys.executable, *program, *map(str, words)], random.Random(3)
        before()
        begun = time.monotonic()
        self.assertEqual(0, self.start(words).returncode)
        longest = (time.monotonic() - begun) * 1.2
        for _ in range(MOMENTS):
            before()
            how = {"stdout": subprocess.PIPE, "stderr": subprocess.PIPE, "text": True}
            running = subprocess.Popen(words, env={**os.environ, "ALTCTL": ALTCTL}, **how)
            self.interrupt(running, chance.random() * longest)
            _, said = running.communicate(timeout=300)
            if running.returncode == 0:
                self.assertEqual("", said)
                yield None
                continue
            self.assertEqual((130, 1), (running.returncode, len(said.splitlines())), said)
            yield re.fullmatch("altgis: interrupted: (.*)\n", said)[1]

    def ask(self, do):
        """Also if the program of the one that was interrupted is still there."""
        with Store(self.store, ALTCTL, wait=True) as store:
            result = do(store)
            store.commit()
            return result

    def due(self, told, nothing):
        """How many features an import has changed that ended with this line, or None."""
        if told is None or told.startswith("the import is in the store: ducts into north, table 7: "):
            return COUNT
        self.assertRegex(told, f"^nothing was changed$|^{nothing}$")
        return 0

    def back(self):
        """The store as it was."""
        self.ask(lambda store: None)
        shutil.copy(self.file("whole"), self.store)

    def interrupt(self, running, seconds):
        """Interrupts a program that long after its own first lines have run: what Python does before that is
        Python's."""
        late = time.monotonic() + 60
        while running.poll() is None and "multiarray" not in Path(f"/proc/{running.pid}/maps").read_text():
            self.assertLess(time.monotonic(), late)
            time.sleep(0.005)
        time.sleep(seconds)
        running.send_signal(signal.SIGINT)

    def test_an_interrupted_import(self):
        self.begin()
        shutil.copy(self.store, self.file("whole"))
        words = ("import", self.store, self.file("a.gpkg"), "--alt", "north", "--table", 7)
        for told in self.interruptions(*words, before=self.back):
            changed = self.ask(lambda store: sum(1 for _ in store.changes("north")))
            self.assertEqual(self.due(told, "nothing was changed"), changed)

    def test_an_interrupted_merge(self):
        """Of each feature the design and its parent have changed another field."""
        self.begin()
        self.bring(self.file("a.gpkg"), "ducts", alt="north")
        change(self.file("a.gpkg"), "UPDATE ducts SET dn = dn - 1, mat = 'HDPE'")
        self.bring(self.file("a.gpkg"), "ducts")
        shutil.copy(self.file("map.alt"), self.file("whole"))
        words = ("merge", self.store, "north")
        for told in self.interruptions(*words, before=self.back):
            tally = self.ask(lambda store: store.tally("north"))
            self.assertIn(told, (None, "nothing was changed", "north is merged"))
            due = (COUNT, COUNT, COUNT) if told == "nothing was changed" else (COUNT, 0, 0)
            self.assertEqual(due, tally[:3], told)

    def test_an_interrupted_export_leaves_no_file(self):
        self.begin()
        out = Path(self.file("out.gpkg"))
        there = sorted(os.listdir(self.folder))
        for told in self.interruptions("export", self.store, "top", out, before=lambda: out.unlink(missing_ok=True)):
            self.assertIn(told, (None, "nothing was changed", f"{out} is there as a whole"))
            due = there if told == "nothing was changed" else sorted([*there, out.name])
            self.assertEqual(due, sorted(os.listdir(self.folder)), told)

    def test_an_interrupted_import_of_several_batches(self):
        """Through a service: the alternative has all of it or nothing, and the import is done again."""
        self.begin()
        service = self.service()
        program, words = ("-c", IN_BATCHES), ("import", service, self.file("a.gpkg"), "--alt", "north", "--table", 7)
        with Store(service) as store:
            store.checkpoint("north", "clean")
            for told in self.interruptions(*words, before=lambda: store.back("north", "clean"), program=program):
                due = self.due(told, "nothing was changed in north; your next import into it drops .import-.*")
                self.assertEqual(due, store.tally("north").changed, told)
            store.back("north", "clean")
            self.assertEqual(0, self.start([sys.executable, *program, *map(str, words)]).returncode)
            self.assertEqual(COUNT, store.tally("north").changed)
            self.assertEqual([], [it.name for it in store.alternatives() if it.name.startswith(".import-")])
