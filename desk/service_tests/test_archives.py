"""Old entries of the journal, moved into archives."""
import glob
import itertools
import json
import os
import random
import signal
import subprocess
import sys
import unittest
from pathlib import Path

from service import archives
from service_tests.support import ALTCTL, ALTSERVE, HAS_TOML, NEEDS_TOML, ServiceTest, entries, kept_batches

CALLS = ("rename", "fsync", "fdatasync", "write", "unlink", "ftruncate", "open")
# Parts of a few lines, and a sync after each.
SMALL = "from service import archives\narchives.PART, archives.SYNCED = 300, 300"


def rows_of(batches):
    return [f"{it['batch']} {line}" for it in batches for line in it["lines"]]


class ArchiveCase(ServiceTest):
    def altserve(self, *words, change=""):
        text = f"import sys, runpy\nsys.path[:0] = [{str(Path(ALTSERVE).parent)!r}]\n"
        text += f"{change}\nsys.argv[0] = {ALTSERVE!r}\n"
        text += f"runpy.run_path({ALTSERVE!r}, run_name='__main__')"
        how = {"stdout": subprocess.PIPE, "stderr": subprocess.PIPE, "text": True, "timeout": 120}
        return subprocess.run([sys.executable, "-c", text, *words], **how)

    def archive(self, name, until, **how):
        return self.altserve("archive", "--until", str(until), self.file, name, **how)

    def path(self, name):
        return f"{self.file}.archives/{name}"

    def written(self, *names):
        """The entries of archives and of the journal, by their lines alone."""
        batches = {}
        for it in (*map(self.path, names), self.journal):
            for line in map(json.loads, Path(it).read_text().splitlines()):
                if "batch" in line:
                    batches[line["batch"]] = line
        return rows_of(batches[it] for it in sorted(batches))

    def fill(self, count):
        with self.planner() as one:
            for number in range(count):
                self.assertEqual(["ok"], one.ask(f"put top 1 {number} {number}"))


class ArchiveTests(ArchiveCase):
    def test_by_number_and_time_with_a_service_and_without(self):
        self.start(change=SMALL)
        self.fill(20)
        self.assertEqual("put top 1 19 19", self.log()[-1].split(" ", 1)[1])
        all_lines = self.log()
        ran = self.archive("one", 5)
        self.assertEqual(
            (0, f"archived up to batch 5: {self.path('one')}, "),
            (ran.returncode, ran.stdout.rpartition(", ")[0] + ", "),
            ran.stderr,
        )
        self.assertEqual(all_lines[5:], self.log())
        times = {
            it["batch"]: it["time"]
            for it in map(json.loads, Path(self.journal).read_text().splitlines())
            if "batch" in it
        }
        ran = self.archive("two", times[9])
        last = max(it for it in times if times[it] <= times[9])
        self.assertEqual((0, all_lines[last:]), (ran.returncode, self.log()), ran.stderr)
        with self.planner() as one:
            self.assertEqual(f"end {20 - last}", one.rows("log")[-1])
            self.assertEqual("end 1", one.rows("log record=1:19")[-1])
            self.assertEqual(["ok"], one.ask("put top 1 20 20"))
        self.assertEqual(0, self.stop())
        ran = self.archive("three", 15)
        self.assertEqual((0, [*all_lines[15:], "21 put top 1 20 20"]), (ran.returncode, self.log()), ran.stderr)
        self.assertEqual([*all_lines, "21 put top 1 20 20"], self.written("one", "two", "three"))
        self.assertEqual(all_lines[:5], self.log("--archive", self.path("one")))
        # All of it, and then it goes on with the next number.
        ran = self.archive("four", 99)
        self.assertEqual((0, []), (ran.returncode, self.log()), ran.stderr)
        self.start()
        with self.planner() as one:
            self.assertEqual(["ok"], one.ask("put top 1 21 21"))
        self.assertEqual(["22 put top 1 21 21"], self.log())
        self.assertEqual(
            (0o600, 0o700), tuple(os.stat(it).st_mode & 0o777 for it in (self.path("four"), f"{self.file}.archives"))
        )

    def test_what_is_not_archived(self):
        self.start()
        self.fill(3)
        before = Path(self.journal).read_bytes()
        for words, due in {
            ("one", 0): "error 104 NoArchive ENODATA",
            ("one", "1999-01-01"): "error 104 NoArchive ENODATA",
            (".one", 3): "no name of an archive",
            ("one", "soon"): "no number and no time",
        }.items():
            ran = self.archive(*words)
            self.assertEqual((True, True), (ran.returncode in (1, 2), due in ran.stderr), ran.stderr)
        Path(f"{self.file}.archives").mkdir(exist_ok=True)
        Path(self.path("one")).touch()
        ran = self.archive("one", 3)
        self.assertEqual(
            (1, True),
            (ran.returncode, "error 104 NoArchive EEXIST\naltserve: an archive of that name is there" in ran.stderr),
        )
        self.assertEqual(before, Path(self.journal).read_bytes())
        with self.planner() as one:
            self.assertEqual(["error 22 BadLine"] * 3, one.ask("archive", "archive a", "archive a b"))
            # Digits of which Python makes no number.
            one.socket.sendall(b"archive a \xb2\n")
            one.send("archive a " + "9" * 5000)
            self.assertEqual(["error 22 BadLine"] * 2, one.read(2))
        self.stop()
        ran = self.altserve("archive", "--until", "3", f"{self.folder}/none", "a")
        self.assertEqual(
            (1, True),
            (ran.returncode, ran.stderr.endswith(f"{self.folder}/none: No such file or directory\n")),
            ran.stderr,
        )

    @unittest.skipUnless(HAS_TOML, NEEDS_TOML)
    def test_it_takes_a_right(self):
        self.rules('[change]\n"*" = ["*"]')
        self.start()
        self.fill(2)
        ran = self.archive("one", 1)
        self.assertEqual((1, True), (ran.returncode, "error 90 Denied archive" in ran.stderr), ran.stderr)
        self.rules('archive = ["*"]\n[change]\n"*" = ["*"]')
        self.service.send_signal(signal.SIGHUP)
        self.until(lambda: self.archive("one", 1).returncode == 0)

    def test_others_go_on_meanwhile(self):
        self.start(
            change=SMALL
            + "\nimport time, os\nreal = os.fdatasync\n"
            "def slow(file):\n    time.sleep(0.002)\n    real(file)\nos.fdatasync = slow"
        )
        self.fill(120)
        with self.planner() as one, self.planner() as other:
            other.send("log", "archive a 100", "log")
            number = 120
            while "a" not in os.listdir(f"{self.file}.archives") if os.path.exists(f"{self.file}.archives") else True:
                self.assertEqual(["ok"], one.ask(f"put top 1 {number} {number}"))
                number += 1
                self.assertLess(number, 5000)
            self.assertGreater(number, 125)
            answers = [other.read()[0]]
            while len([it for it in answers if it.startswith("end ")]) < 2:
                answers += other.read()
            place = next(place for place, it in enumerate(answers) if it.startswith("ok 100 "))
            self.assertEqual(["1", "101"], [answers[it].split()[1] for it in (0, place + 1)])
        self.stop()
        due = [f"{it + 1} put top 1 {it} {it}" for it in range(number)]
        self.assertEqual(due[100:], self.log())
        self.assertEqual(due, self.written("a"))

    def test_a_planner_who_leaves(self):
        self.start(change=SMALL)
        self.fill(60)
        with self.planner() as other:
            other.send("archive a 50")
            self.until(other.is_read)
        with self.planner() as one:
            self.assertEqual(["ok"], one.ask("put top 1 99 a"))
            self.until(lambda: not glob.glob(f"{self.file}.archives/.*"))
            rows = one.rows("log")
        self.assertEqual(61, len(rows) - 1 + 50 * os.path.exists(self.path("a")))
        self.assertFalse(os.path.exists(f"{self.journal}.new"))

    def status_if_killed(self, at):
        """The status of a process that archives, and is killed at its call of this number."""
        child = os.fork()
        if child == 0:
            count = itertools.count(1)
            for it in CALLS:
                real = getattr(os, it)
                setattr(
                    os,
                    it,
                    lambda *words, real=real, **how: (
                        next(count) == at and os.kill(os.getpid(), signal.SIGKILL),
                        real(*words, **how),
                    )[1],
                )
            archives.PART, archives.SYNCED = 300, 300
            try:
                archives.archived_alone(self.file, "a", "7", print)
            finally:
                os._exit(0)
        return os.waitstatus_to_exitcode(os.waitpid(child, 0)[1])

    def test_killed_at_any_moment(self):
        """Each entry is in the archive or in the journal, and a service goes on."""
        self.start()
        self.fill(12)
        self.stop()
        journal, due = Path(self.journal).read_bytes(), self.log()
        ends, states = 0, set()
        for at in range(1, 300):
            Path(self.journal).write_bytes(journal)
            for it in os.listdir(f"{self.file}.archives") if os.path.exists(f"{self.file}.archives") else ():
                os.unlink(self.path(it))
            status = self.status_if_killed(at)
            names = ["a"] if os.path.exists(self.path("a")) else []
            self.assertEqual(due, self.written(*names), at)
            states.add((bool(names), len(entries(self.journal))))
            if status == 0:
                ends = at
                break
            self.assertEqual(-signal.SIGKILL, status)
            # What was left is removed at the next start.
            if at % 16 == 0:
                self.start()
                self.stop()
                self.assertEqual(
                    names, os.listdir(f"{self.file}.archives") if os.path.exists(f"{self.file}.archives") else []
                )
                self.assertFalse(os.path.exists(f"{self.journal}.new"))
        self.assertGreater(ends, 10)
        self.assertEqual({(False, 12), (True, 12), (True, 5)}, states)

    def test_no_space(self):
        self.start(change=SMALL)
        self.fill(10)
        before = self.log()
        text = (
            "import errno, os\nreal = os.write\ndef write(file, text):\n"
            "    if os.path.exists({!r}) and '/{}' in os.readlink(f'/proc/self/fd/{{file}}'):\n"
            "        raise OSError(errno.ENOSPC, 'full')\n"
            "    return real(file, text)\nos.write = write"
        )
        self.stop()
        for place in ("map.alt.archives/", "map.alt.journal.new"):
            full = f"{self.folder}/full"
            self.start(
                change=SMALL
                + "\n"
                + text.replace("{!r}", repr(full)).replace("{}", place).replace("{{", "{").replace("}}", "}")
            )
            Path(full).touch()
            ran = self.archive("a", 5)
            self.assertEqual(
                (1, True),
                (ran.returncode, "error 104 NoArchive ENOSPC\naltserve: No space left" in ran.stderr),
                ran.stderr,
            )
            self.assertEqual(([], before), (os.listdir(f"{self.file}.archives"), self.log()))
            os.unlink(full)
            self.assertFalse(os.path.exists(f"{self.journal}.new"))
            self.stop()

    def test_who_made_what_is_known_afterwards(self):
        """The limit on a user's alternatives counts those whose entries are in an archive."""
        self.start()
        with self.planner() as one:
            one.ask("new a top", "new b top", "put top 1 1 a")
        self.stop(signal.SIGKILL)
        owners = Path(f"{self.file}.owners")
        owners.write_text(json.dumps({"batch": 1, "makers": {"a": {"": "root"}}}))
        self.until(lambda: self.archive("one", 3).returncode == 0)
        self.assertEqual({"a", "b"}, set(json.loads(owners.read_text())["makers"]))


class RestoreFromArchivesTests(ArchiveCase):
    def restore(self, backup, new, *options):
        return self.altserve("restore", "--program", ALTCTL, *options, backup, self.journal, new)

    def test_any_moment_from_backup_archives_and_journal(self):
        chance = random.Random(5)
        self.start()
        states, cuts = {0: []}, []
        with self.planner() as one:
            one.ask("backup b0")
            for number in range(1, 41):
                self.assertEqual(["ok"], one.ask(f"put top 1 {chance.randint(0, 9)} v{number}"))
                states[number] = one.rows("list top")
                if number in (10, 23, 31):
                    one.ask(f"backup b{number}")
                if number in (8, 20, 33):
                    # Older ones are put back now and then: numbers between are in no state that led here.
                    self.assertEqual("ok", one.ask(f"archive a{number} {number}")[0].split()[0])
                    cuts.append(number)
        self.stop()
        archives = {it: self.path(f"a{it}") for it in cuts}
        for backup, number, names in (
            (0, 5, (8,)), (0, 8, (8,)), (0, 15, (20, 8)), (0, 40, (8, 33, 20)), (10, 25, (20, 33)), (23, 40, (33,)),
            (31, 40, (33, 8)),
        ):
            new = f"{self.folder}/new"
            options = [it for name in names for it in ("--archive", archives[name])]
            ran = self.restore(f"{self.file}.backups/b{backup}", new, "--until", str(number), *options)
            # Archives that come after the moment are not needed, but those after the last given one are.
            if number > 33 or all(it in names for it in cuts if it > backup):
                self.assertEqual(
                    (0, f"restored batch {number}, {number - backup} batches after the backup\n"),
                    (ran.returncode, ran.stdout),
                    ran.stderr,
                )
                self.file, file = new, self.file
                self.assertEqual(states[number], self.altctl("list top"))
                self.file = file
                os.unlink(new)
            else:
                self.assertEqual(1, ran.returncode, (backup, number, names))
        ran = self.restore(f"{self.file}.backups/b10", f"{self.folder}/new", "--until", "38", "--archive", archives[33])
        told = f"altserve: the backup is as of batch 10, and {archives[33]} begins after batch 20\n"
        told += (
            "altserve: it is possible from a backup as of batch 20 or later, or with --archive and the archive a20\n"
        )
        self.assertEqual((1, True), (ran.returncode, ran.stderr.endswith(told)), ran.stderr)
        self.assertFalse(os.path.exists(f"{self.folder}/new"))

    def test_a_moment_before_the_journal_begins(self):
        self.start()
        with self.planner() as one:
            for it in ("backup b0", "put top 1 1 a", "put top 1 2 b", "archive a 1", "put top 1 3 c"):
                self.assertEqual("ok", one.ask(it)[0][:2])
        self.stop()
        for until in ("1", "2026-01-01T00:00:00", "3"):
            ran = self.restore(f"{self.file}.backups/b0", f"{self.folder}/new", "--until", until)
            self.assertEqual((1, True), (ran.returncode, "the archive a\n" in ran.stderr), ran.stderr)
        ran = self.restore(f"{self.file}.backups/b0", f"{self.folder}/new", "--until", "1", "--archive", self.path("a"))
        self.assertEqual(
            (0, "restored batch 1, 1 batches after the backup\n"), (ran.returncode, ran.stdout), ran.stderr
        )

    def test_a_backup_was_put_back_before_and_after(self):
        self.start()
        with self.planner() as one:
            one.ask("backup b0", "put top 1 1 a", "backup b1", "put top 1 2 b")
        self.stop()
        os.replace(f"{self.file}.backups/b1", self.file)
        self.start()
        with self.planner() as one:
            one.ask("put top 1 3 c", "archive a 3", "put top 1 4 d")
        self.stop()
        self.assertEqual(["1 put top 1 1 a", "3 put top 1 3 c"], self.log("--archive", self.path("a")))
        self.assertEqual(["4 put top 1 4 d"], self.log())
        self.assertEqual(
            [1, 2, 3],
            [it["batch"] for it in map(json.loads, Path(self.path("a")).read_text().splitlines()) if "batch" in it],
        )
        new = f"{self.folder}/new"
        ran = self.restore(f"{self.file}.backups/b0", new, "--archive", self.path("a"))
        self.assertEqual(
            (0, "restored batch 4, 3 batches after the backup\n"), (ran.returncode, ran.stdout), ran.stderr
        )
        self.file, file = new, self.file
        self.assertEqual(["record 1 1 a", "record 1 3 c", "record 1 4 d", "end 3"], self.altctl("list top"))
        self.file = file
        ran = self.restore(
            f"{self.file}.backups/b0", f"{self.folder}/other", "--until", "2", "--archive", self.path("a")
        )
        self.assertEqual((1, True), (ran.returncode, "batch 2 is not among those" in ran.stderr), ran.stderr)
        self.assertEqual([1, 3], [it["batch"] for it in kept_batches(self.path("a"))])
