"""Wrong starts of the desk's programs: a second line says which file or line it was about, and what was said of it."""
import fcntl
import os
import subprocess
import sys
import tempfile
import unittest
import unittest.mock
from pathlib import Path

import reasons
from altctl import Ended, Refusal
from service_tests.support import ALTCTL, DESK


NO_FILE = "it is neither a file nor a block device"


def starts(program):
    """Whether what a program needs is installed."""
    return not subprocess.run(
        [str(DESK / program), "--help"], stdout=subprocess.DEVNULL, stderr=subprocess.DEVNULL
    ).returncode


class StartTests(unittest.TestCase):
    def setUp(self):
        folder = tempfile.TemporaryDirectory()
        self.addCleanup(folder.cleanup)
        self.folder = folder.name
        self.store, self.none = f"{self.folder}/map.alt", f"{self.folder}/none"
        subprocess.run([ALTCTL, "create", self.store, "64"], check=True, stdout=subprocess.DEVNULL)
        Path(f"{self.folder}/text").write_text("hello\n")

    def said(self, program, *words, altctl=ALTCTL):
        """The status, and the last two lines on standard error."""
        environment = {**os.environ, "ALTCTL": altctl, "COLUMNS": "200"}
        how = {"stdout": subprocess.DEVNULL, "stderr": subprocess.PIPE, "text": True, "timeout": 100}
        ran = subprocess.run([str(DESK / program), *words], env=environment, cwd=self.folder, **how)
        return ran.returncode, ran.stderr.splitlines()[-2:]

    def test_of_the_service(self):
        missing = "No such file or directory"
        for words, due in {
            (self.none,): (1, f"{self.none}: the service cannot start", f"{self.none}: {missing}"),
            ("--socket", f"{self.none}/a", self.store): (1, f"{self.none}/a: no socket can be made there", missing),
            ("--program", self.none, self.store): (
                3, f"{self.store}: altctl cannot be started", f"{self.none}: {missing}",
            ),
            ("status", self.store): (1, "no service is to be reached", f"{self.store}.sock: {missing}"),
            ("status", f"{self.none}.sock"): (1, "no service is to be reached", f"{self.none}.sock: {missing}"),
            ("status", "/var/lib/altserve/none.alt"): (
                1, "no service is to be reached", f"/run/altserve/none.sock: {missing}",
            ),
            ("log", self.store): (1, "there is no journal to read", f"{self.store}.journal: {missing}"),
            ("restore", self.store, self.none, "new"): (1, "new was not made", f"{self.none}: {missing}"),
            ("archive", "--until", "1", self.store, "a"): (
                1, f"{self.store}: nothing was archived", f"{self.store}.journal: {missing}",
            ),
        }.items():
            self.assertEqual((due[0], [f"altserve: {it}" for it in due[1:]]), self.said("altserve", *words), words)
        status, lines = self.said("altserve", f"{self.folder}/text")
        self.assertEqual((3, "altctl: 19 NotAStore"), (status, lines[0]))
        due = [f"{self.folder}: altctl ended with status 1 at its start", f"{self.folder}: {NO_FILE}"]
        self.assertEqual((3, [f"altserve: {it}" for it in due]), self.said("altserve", self.folder))

    def test_the_program_of_a_clone_is_found(self):
        """Without a word, a variable or an `altctl` in PATH it is the one at the top."""
        text = f"import os, runpy, sys\nos.environ.pop('ALTCTL', None)\nos.environ['PATH'] = {self.folder!r}\n"
        text += f"print(runpy.run_path({str(DESK / 'altserve')!r})['program']())"
        told = subprocess.run([sys.executable, "-c", text], check=True, stdout=subprocess.PIPE, text=True).stdout
        self.assertEqual(str(DESK.parent / "altctl"), told.strip())
        self.assertTrue(os.access(told.strip(), os.X_OK))

    def test_of_altcarry(self):
        missing, no_file = "No such file or directory", f"altctl: cannot open /dev/null: {NO_FILE}"
        for words, altctl, due in (
            (("status", self.none), ALTCTL, (1, f"{self.none} cannot be opened", f"{self.none}: {missing}")),
            (
                ("clone", f"{self.folder}/text", "new"), ALTCTL,
                (1, f"{self.folder}/text cannot be opened", "altctl: 19 NotAStore"),
            ),
            (("clone", self.store, "new"), self.none, (1, f"{self.store} cannot be opened", f"{self.none}: {missing}")),
            (("status", "/dev/null"), ALTCTL, (1, "/dev/null cannot be opened", no_file)),
        ):
            self.assertEqual(
                (due[0], [f"altcarry: {it}" for it in due[1:]]), self.said("altcarry", *words, altctl=altctl), words
            )

    @unittest.skipUnless(starts("altgis"), "python3-gdal is not installed")
    def test_of_altgis(self):
        self.assertEqual(
            (1, [f"altgis: {self.none}: No such file or directory"]), self.said("altgis", "layers", self.none)
        )
        self.assertEqual(
            (1, ["altgis: refused: 6 IsTop", "altgis: the line was: conflicts top"]),
            self.said("altgis", "merge", self.store, "top"),
        )
        status, lines = self.said("altgis", "export", f"{self.folder}/text", "top", "out.gpkg")
        self.assertEqual(
            (1, [f"altgis: {self.folder}/text: altctl ended with status 1", "altgis: altctl: 19 NotAStore"]),
            (status, lines),
        )

    @unittest.skipUnless(starts("altdesk"), "python3-aiohttp or python3-gdal is not installed")
    def test_of_altdesk(self):
        due = (1, ["altdesk: the desk cannot start", f"altdesk: {self.none}: No such file or directory"])
        self.assertEqual(due, self.said("altdesk", self.none))
        status, lines = self.said("altdesk", f"{self.folder}/text")
        self.assertEqual((1, "altdesk: the service could not be started"), (status, lines[-1]))


class ReasonTests(unittest.TestCase):
    """What people are told of a fault of the Python module."""

    def test_what_is_told(self):
        line = "put top 65536 1 a"
        bad = Refusal(22, "BadLine", line=line)
        self.assertEqual(f"the line was: {line}\n65536: TABLE is 0 to 65535", reasons.why(bad))
        self.assertEqual(f"the line was: {line}", reasons.why(Refusal(13, "Full", line=line)))
        self.assertEqual("22 BadLine", reasons.why(Refusal(22, "BadLine")))
        said = "altctl: cannot open a"
        self.assertEqual(f"{said}: Permission denied", reasons.why(Ended(1, f"{said}\n", "Permission denied")))
        self.assertEqual("altctl: 19 NotAStore", reasons.why(Ended(1, "altctl: 19 NotAStore\n")))
        self.assertEqual("altserve: a\naltserve: b", reasons.named("altserve", "a\nb"))

    def test_who_has_a_lock(self):
        unseen = "a process that is not seen from here"
        with tempfile.NamedTemporaryFile() as file:
            self.assertEqual(unseen, reasons.owners(file.name))
            fcntl.flock(file, fcntl.LOCK_EX)
            self.assertRegex(reasons.owners(file.name), rf"^process {os.getpid()} \(\w+\)$")
            # As under the unit of the package, which sees of /proc processes alone.
            with unittest.mock.patch("builtins.open", side_effect=FileNotFoundError(2, "No such file", "/proc/locks")):
                self.assertEqual(unseen, reasons.owners(file.name))
        self.assertEqual(unseen, reasons.owners(file.name))
