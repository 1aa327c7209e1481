"""Any moment back, from a backup and the journal."""
import os
import random
import subprocess
import sys
import unittest.mock
from pathlib import Path

from service import restore
from service_tests.support import ALTCTL, ALTSERVE, LONG, ServiceTest, entries


class RestoreTests(ServiceTest):
    def restore(self, backup, new, until=None, journal=None):
        words = [
            sys.executable, ALTSERVE, "restore", "--program", ALTCTL,
            *([] if until is None else ["--until", str(until)]),
        ]
        words += [backup, journal or self.journal, new]
        return subprocess.run(words, stdout=subprocess.PIPE, stderr=subprocess.PIPE, timeout=120, text=True)

    def shown(self, one):
        """All that a store shows, except the service's alternative."""
        rows = one.rows("alts")
        names = [it.split()[1] for it in rows[:-1] if it.split()[1] != ".service"]
        return {
            line: one.rows(line)
            for name in names
            for line in (f"list {name}", f"list {name}@", f"checks {name}")
            if line != "list top@"
        }

    def shown_by(self, file):
        self.file, file = file, self.file
        rows = [it.split()[1] for it in self.altctl("alts")[:-1]]
        found = {}
        for name in rows:
            for line in (f"list {name}", f"list {name}@", f"checks {name}"):
                if line != "list top@" and name != ".service":
                    found[line] = self.altctl(line)
        self.file = file
        return found

    def test_any_batch(self):
        os.unlink(self.file)
        self.create(64)
        chance = random.Random(2)
        self.start("--grow")
        states = {}
        with self.planner() as one:
            one.ask("new a top", "new b a")
            for number in range(3, 60):
                kind = chance.random()
                name = chance.choice(("top", "a", "b"))
                put = f"put {name} 1 {chance.randint(0, 30)} {chance.choice(('a', 'x%25y', LONG, '-', 'c%0D'))}"
                if kind < 0.5:
                    lines = [put]
                elif kind < 0.7:
                    lines = [
                        "begin", put, f"put {name} 2 {number} b\r", "merge a all=mine", "merge b all=theirs", "commit",
                    ]
                elif kind < 0.8:
                    lines = ["begin", "merge a all=mine", "post a", "commit"]
                else:
                    lines = chance.choice(
                        (
                            ["begin", "drop b", "new b a", "commit"],
                            [f"checkpoint a c{number}"],
                            [f"put no 1 1 {number}"],
                            ["reclaim"],
                        )
                    )
                one.ask(*lines)
                last = one.last_batch()
                states[last] = self.shown(one)
                if number == 20:
                    self.assertEqual("ok", one.ask("backup early")[0].split()[0])
                    early = last
        self.stop()
        backup, new = f"{self.file}.backups/early", f"{self.folder}/new"
        numbers = sorted(states)
        for number in [early, *[it for it in numbers if it > early][::9], numbers[-1]]:
            ran = self.restore(backup, new, number)
            self.assertEqual((0, f"restored batch {number}"), (ran.returncode, ran.stdout.split(",")[0]), ran.stderr)
            self.assertEqual(states[number], self.shown_by(new), number)
            os.unlink(new)
        ran = self.restore(backup, new)
        self.assertEqual(states[numbers[-1]], self.shown_by(new), ran.stderr)
        # A service goes on with it and the journal.
        os.replace(new, self.file)
        self.start("--grow")
        with self.planner() as one:
            self.assertEqual(states[numbers[-1]], self.shown(one))
            self.assertEqual(["ok"], one.ask("put top 9 9 z"))
        self.stop()
        # By time: the state after the last batch up to then.
        times = {int(it.split()[1]): it.split()[2] for it in entries(self.journal)}
        moment = times[max(it for it in times if it <= numbers[27])]
        before = max(it for it in times if times[it] <= moment)
        ran = self.restore(backup, new, moment)
        self.assertEqual(
            (0, states[max(it for it in numbers if it <= before)]), (ran.returncode, self.shown_by(new)), ran.stderr
        )

    def test_many_batches_have_a_commit_now_and_then(self):
        self.start()
        with self.planner() as one:
            one.ask("backup early")
            for number in range(10):
                one.ask("begin", f"put top 1 {number} a", f"put top 2 {number} a", "commit")
        self.stop()
        with unittest.mock.patch("service.restore.LINES", 5), unittest.mock.patch(
            "service.restore.commit", wraps=restore.commit
        ) as commit:
            found = restore.restored(
                f"{self.file}.backups/early", self.journal, [], f"{self.folder}/new", "", ALTCTL, print
            )
        self.assertEqual((10, 10), found)
        # Two batches of two lines fit into five.
        self.assertEqual([2, 4, 6, 8, 10], [it.args[2] for it in commit.call_args_list])
        self.assertEqual(
            20, len([it for it in self.shown_by(f"{self.folder}/new")["list top"] if it.startswith("record ")])
        )

    def test_what_cannot_be_restored(self):
        self.start()
        with self.planner() as one:
            one.ask("put top 1 1 a", "backup one")
            one.ask("put top 1 2 a")
            one.ask("backup two")
        self.stop()
        one, two, new = f"{self.file}.backups/one", f"{self.file}.backups/two", f"{self.folder}/new"
        for words, due in {
            (two, new, 1): "the backup is as of batch 2, after batch 1",
            (one, new, 9): "batch 9 is not among those",
            (one, new, "yesterday"): "is no number of a batch, and no time",
            (one, one, 2): "is there already",
            (self.journal, new, 2): "could not be copied",
            (one, new, 2, f"{self.folder}/none"): "No such file",
        }.items():
            ran = self.restore(*words)
            self.assertEqual((1, "", True), (ran.returncode, ran.stdout, due in ran.stderr), ran.stderr)
            self.assertEqual([], [it for it in os.listdir(self.folder) if it.startswith("new")])
        # A journal whose lines do not fit the backup is noticed.
        text = Path(self.journal).read_text()
        Path(self.journal).write_text(text.replace("put top 1 2 a", "remove top 1 2"))
        ran = self.restore(one, new, 2)
        self.assertEqual(
            (1, True), (ran.returncode, "batch 2: remove top 1 2: error 5 NoSuchRecord" in ran.stderr), ran.stderr
        )
        self.assertFalse(os.path.exists(f"{new}.part"))
