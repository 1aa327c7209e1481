"""Tests of the service: files that get their names once they are durable, and who made what, which stands in one."""
import errno
import json
import os
import signal
import tempfile
import unittest
from pathlib import Path
from unittest.mock import patch

from service.durable import NameUnsure, give_name
from service_tests.support import ALTCTL
from service_tests.test_archives import ArchiveCase

# Notes each sync and each change of a name.
NOTING = """import os
def noting(name, call):
    def noted(*words, **how):
        given = call(*words, **how)
        paths = [os.readlink(f"/proc/self/fd/{it}") if isinstance(it, int) else os.path.abspath(it) for it in words]
        with open("CALLS", "a") as file:
            print(name, *paths, file=file)
        return given
    return noted
for it in "fsync", "rename", "replace":
    setattr(os, it, noting(it, getattr(os, it)))
"""


class DurableTests(ArchiveCase):
    def test_a_file_is_durable_before_it_has_its_name_and_its_name_is_before_anything_else_is_done(self):
        calls = Path(self.folder, "calls")
        noting = NOTING.replace("CALLS", str(calls))
        self.start(change=noting)
        with self.planner() as one:
            one.ask("new a top", "put a 1 1 x")
            self.assertEqual(["ok", "ok"], [it.split()[0] for it in one.ask("backup b", "archive one 1")])
        self.stop()
        words = ["restore", "--program", ALTCTL, f"{self.file}.backups/b", self.journal, f"{self.folder}/new"]
        ran = self.altserve(*words, change=noting)
        self.assertEqual(0, ran.returncode, ran.stderr)
        noted, named = [it.split(" ") for it in calls.read_text().splitlines()], set()
        for place, (what, part, *name) in enumerate(noted):
            if what != "fsync":
                self.assertIn(["fsync", part], noted[:place])
                self.assertEqual(["fsync", os.path.dirname(name[0])], noted[place + 1])
                named.add(os.path.relpath(name[0], self.folder))
        due = {"map.alt.owners", "map.alt.backups/b", "map.alt.archives/one", "map.alt.journal", "new"}
        self.assertEqual(due, named)

    def test_what_is_cut_off_the_journal_is_durable_in_a_file_of_its_own(self):
        self.start()
        self.fill(1)
        self.stop()
        with open(self.journal, "ab") as journal:
            journal.write(b"torn")
        calls, cut = Path(self.folder, "calls"), f"{self.journal}.cut"
        self.start(change=NOTING.replace("CALLS", str(calls)))
        self.stop()
        self.assertEqual(b"torn", Path(cut).read_bytes())
        noted = calls.read_text().splitlines()
        self.assertEqual(f"fsync {self.folder}", noted[noted.index(f"fsync {cut}") + 1])

    def test_who_made_what_is_known_of_batches_in_the_first_second(self):
        """Nothing of that, or a file that is none, may be there then."""
        owners = Path(f"{self.file}.owners")
        for text in (None, b"", bytes(40), b'{"batch": 9, "mak'):
            self.start()
            with self.planner() as one:
                one.ask("new a top", "checkpoint a before", "new b top", "drop b")
                self.stop(signal.SIGKILL)
            owners.unlink(missing_ok=True)
            if text is not None:
                owners.write_bytes(text)
            self.start()
            self.stop()
            self.assertEqual(["", "before"], sorted(json.loads(owners.read_text())["makers"]["a"]), text)


class NameTests(unittest.TestCase):
    def setUp(self):
        folder = tempfile.TemporaryDirectory()
        self.addCleanup(folder.cleanup)
        self.part, self.name = Path(folder.name, "part"), Path(folder.name, "name")
        self.part.write_text("new")
        self.name.write_text("earlier")

    def given(self, failing):
        """What the error is if this sync fails, counted from 1; and what the name has then."""
        done = []

        def sync(_):
            done.append(None)
            if len(done) == failing:
                raise OSError(errno.EIO, "a fault")

        with open(self.part, "rb") as file, patch("os.fsync", sync):
            try:
                give_name(str(self.part), str(self.name), file.fileno())
                return None, self.name.read_text()
            except OSError as fault:
                return (type(fault), fault.errno, fault.strerror), self.name.read_text()

    def test_a_file_that_cannot_be_synced_gets_no_name(self):
        self.assertEqual(((OSError, errno.EIO, "a fault"), "earlier"), self.given(1))
        self.assertEqual("new", self.part.read_text())

    def test_a_name_that_cannot_be_synced_is_unsure(self):
        told = f"the folder of {self.name} could not be synced: a fault"
        self.assertEqual(((NameUnsure, errno.EIO, told), "new"), self.given(2))

    def test_both_are_synced(self):
        self.assertEqual((None, "new"), self.given(3))
        self.assertFalse(self.part.exists())
