"""The device fails, or the program ends, at the worst moment."""
import os
import signal
import subprocess
import sys
from pathlib import Path

from service_tests.support import ALTCTL, ALTSERVE, ServiceTest

# A program that does something else at the line that the file NAME.fault names: `WHAT LINE`, where the line `commit`
# stands for `go`, at which all that waits is carried out. Another line of the file counts after that.
FAULTY = """#!{python}
import os, signal, subprocess, sys

name = sys.argv[0] + ".fault"
program = subprocess.Popen([{altctl!r}, *sys.argv[1:]], stdin=subprocess.PIPE, stdout=subprocess.PIPE, close_fds=False)
ROWS = (b"@", b"record", b"alternative", b"checkpoint", b"change", b"conflict")
# How many lines the batches have that were begun or wait, what is answered in place of one, and where the device fails.
held, instead, failing = {{}}, b"", None

def is_answered(text):
    return text.count(b"\\n") > 1 and not text.splitlines()[-1].startswith(ROWS)

def ask(line, is_over=is_answered):
    program.stdin.write(line)
    program.stdin.flush()
    text = b""
    while not is_over(text):
        text += program.stdout.readline()
    return text

def go():
    return ask(b"go\\n", lambda text: text.endswith(b"@0\\nok\\n"))

def fault(line):
    first, _, others = (open(name, "rb").read() if os.path.exists(name) else b"- nothing").partition(b"\\n")
    what, begin = first.split(b" ", 1)
    if not line.startswith(begin):
        return b""
    os.unlink(name)
    if others:
        open(name, "wb").write(others)
    if what == b"dies":
        die()
    return what

def die():
    program.kill()
    os.kill(os.getpid(), signal.SIGKILL)

def say(text):
    sys.stdout.buffer.write(text)
    sys.stdout.buffer.flush()

def end(batches, answer):
    for number, place in batches:
        lines = [b"error 91 NotDone %d" % (place + 1)] * (held[number] + 1)
        lines[place] = answer
        say(b"\\n".join([b"@%d" % number, *lines, b""]))
    program.kill()
    sys.exit(3)

for line in sys.stdin.buffer:
    verb, number, said = (line.rstrip(b"\\n") + b"  ").split(b" ", 2)
    said = said[:-2]
    if verb == b"go":
        what = fault(b"commit")
        if what.startswith(b"after"):
            go()
            what = what[6:]
            if what == b"dies":
                die()
        if what:
            end(held.items(), b"error 101 Unsure")
        if failing:
            end([failing], b"error 15 Device")
        say(go().replace(b"error 6 IsTop", instead))
        held = {{}}
    elif verb.startswith(b"#") or verb == b"later":
        program.stdin.write(line)
    elif verb == b"line" and int(number) in held:
        what = fault(said)
        if what == b"15_Device":
            failing = int(number), held[int(number)]
        elif what:
            instead, line = b"error " + what.replace(b"_", b" "), b"line %s drop top\\n" % number
        held[int(number)] += 1
        program.stdin.write(line)
    else:
        fault(said)
        held.update({{int(number): 0}} if said == b"begin" else {{}})
        say(ask(line))
program.communicate()
"""
# Has a call of the service on its journal fail once the file FAULT is there.
FAILS = """import errno, os
from service import journal
real = os.{call}
def {call}(*words):
    if os.path.exists({fault!r}) and (words[0] == journal.Journal.last.file) == {is_journal}:
        raise OSError(errno.EIO, "the device failed")
    return real(*words)
class Noted(journal.Journal):
    def __init__(self, *words):
        journal.Journal.last = self
        super().__init__(*words)
os.{call} = {call}
from service import batches
batches.Journal = Noted
"""


class DeviceTests(ServiceTest):
    def setUp(self):
        super().setUp()
        self.faulty = Path(self.folder, "faulty")
        self.faulty.write_text(FAULTY.format(python=sys.executable, altctl=ALTCTL))
        self.faulty.chmod(0o755)
        self.start("--program", str(self.faulty))

    def fail(self, what):
        Path(f"{self.faulty}.fault").write_text(what)

    def records(self):
        """The records in the store, once no service is at work."""
        return [it.split()[2] for it in self.altctl("list top")[:-1]]

    def told(self):
        return [it.split()[-2] for it in self.log()]

    def test_a_commit_that_the_device_failed_at_is_never_ok(self):
        # The selector may be in the cache of the system, and not on the device.
        for what, is_made in {"15_Device commit": False, "after-15_Device commit": True}.items():
            if self.service is None:
                self.start("--program", str(self.faulty))
            number = len(self.records_now()) + 1
            with self.planner() as one, self.planner():
                self.fail(what)
                one.send("begin", f"put top 1 {number} a", "commit")
                self.assertEqual(["ok", "error 91 NotDone 2", "error 101 Unsure"], one.read(3), what)
                self.assertEqual([""], one.read())
            self.assertEqual(3, self.service.wait(60))
            self.service = None
            self.assertIn("the device failed at a commit", self.said.read_text())
            self.assertEqual(is_made, str(number) in self.records())
        self.start()
        self.stop()
        self.assertEqual(self.records(), self.told())

    def records_now(self):
        with self.planner() as one:
            return one.rows("list top")[:-1]

    def test_others_who_wait_are_told_that_nothing_was_begun(self):
        with self.planner() as one, self.planner() as other:
            other.ask("whoami")
            self.fail("15_Device commit")
            with self.halted():
                one.send("put top 1 1 a")
                self.until(one.is_read)
                other.send("put top 1 2 a", "get top 1 1", "put top 1 3 a")
            self.assertEqual(["error 101 Unsure"], one.read())
            self.assertEqual(["error 99 Stopped"] * 3, other.read(3))
        self.assertEqual(3, self.service.wait(60))
        self.service = None

    def test_a_commit_that_was_made_before_the_program_died(self):
        with self.planner() as one:
            for what, lines in {
                "after-dies commit": ["put top 1 1 a"],
                "dies commit": ["put top 1 2 a"],
                "dies put .service": ["begin", "new a top", "put top 1 3 a", "commit"],
            }.items():
                self.fail(what)
                self.assertEqual(["ok"] * len(lines), one.ask(*lines), what)
            self.assertEqual(["1", "2", "3"], [it.split()[2] for it in one.rows("list top")[:-1]])
        self.stop()
        # Of the second and third batch, the first attempts are not in the log.
        self.assertEqual(
            ["1", "2", "top", "3"], self.told()[:2] + [it.split()[-1] for it in self.log()[2:3]] + self.told()[3:]
        )

    def test_a_stamp_that_is_refused(self):
        """Then the next one comes later, and all entries stay in the store until then."""
        with self.planner() as one:
            self.assertEqual(["ok"], one.ask("put top 1 1 a"))
            self.fail("16_Memory checkpoint .service")
            self.until(lambda: not os.path.exists(f"{self.faulty}.fault"))
            self.assertEqual(["ok"], one.ask("put top 1 2 a"))
            self.until(lambda: one.rows("checks .service") == ["checkpoint 2", "end 1"])
            self.assertEqual((["end 0"], 2), (one.rows("changes .service"), one.last_batch()))
        self.stop()
        self.assertEqual(["1", "2"], self.told())

    def test_a_record_that_is_refused(self):
        """Then the journal's file tells the batch first."""
        with self.planner() as one, self.planner() as other:
            self.fail("16_Memory put .service")
            self.assertEqual(["ok"] * 3, one.ask("begin", "put top 1 1 a", "commit"))
            self.assertEqual((1, ["end 0"]), (one.last_batch(), one.rows("changes .service")))
            # What its planner has sent behind it was carried out, so it can no more be.
            other.ask("whoami")
            self.fail("16_Memory put .service")
            with self.halted(), self.planner() as third:
                third.send("get top 1 1")
                self.until(third.is_read)
                one.send("put top 1 2 a", "put top 1 2 b")
            self.assertEqual(["error 16 Memory", "ok", "value b"], one.read(2) + one.ask("get top 1 2"))
            # By itself it is refused if the stamp is.
                # By itself it is refused if the stamp is.
            self.fail("16_Memory put .service\n16_Memory checkpoint .service")
            due = ["ok", "error 91 NotDone 2", "error 16 Memory"]
            self.assertEqual(due, one.ask("begin", "put top 1 3 a", "commit"))
            self.assertEqual(["none", "ok"], one.ask("get top 1 3", "put top 1 4 a"))
        self.stop()
        self.assertEqual(["1", "2", "4"], self.told())
        self.assertEqual(["1 put top 1 1 a", "2 put top 1 2 b", "4 put top 1 4 a"], self.log())

    def test_the_device_fails_at_a_line(self):
        with self.planner() as one:
            self.fail("15_Device put top 1 1 a")
            self.assertEqual(
                ["error 15 Device", "none", "ok"], one.ask("put top 1 1 a", "get top 1 1", "put top 1 1 b")
            )
            self.fail("15_Device put .service")
            self.assertEqual(["ok", "value c"], one.ask("put top 1 1 c", "get top 1 1"))

    def test_a_restore_whose_program_fails(self):
        with self.planner() as one:
            self.assertEqual("ok", one.ask("backup early")[0].split()[0])
            one.ask("put top 1 1 a")
        self.stop()
        backup, new = f"{self.file}.backups/early", f"{self.folder}/new"
        for what, due in {
            "dies put top": "the program ended",
            "13_Full checkpoint .service": "it could not be committed: error 13 Full",
        }.items():
            self.fail(what)
            words = [sys.executable, ALTSERVE, "restore", "--program", str(self.faulty), backup, self.journal, new]
            ran = subprocess.run(words, stdout=subprocess.PIPE, stderr=subprocess.PIPE, timeout=120, text=True)
            self.assertEqual((1, "", True), (ran.returncode, ran.stdout, due in ran.stderr), ran.stderr)
            self.assertEqual([], [it for it in os.listdir(self.folder) if it.startswith("new")])

    def test_the_program_dies_at_a_query(self):
        with self.planner() as one:
            self.fail("dies get")
            self.assertEqual(["none"], one.ask("get top 1 1"))
            self.fail("dies list")
            one.send("list top")
            self.assertEqual([], one.rest())
        with self.planner() as one:
            self.assertEqual(["end 0"], one.rows("list top"))

    def test_the_program_dies_at_each_attempt(self):
        self.stop()
        self.faulty.write_text(self.faulty.read_text().replace("os.unlink(name)", "pass"))
        self.start("--program", str(self.faulty))
        with self.planner() as one:
            self.fail("dies put top 1 1")
            self.assertEqual(["error 99 Stopped", "ok"], one.ask("put top 1 1 a", "put top 1 2 a"))
            self.fail("dies get")
            self.assertEqual(["error 99 Stopped", "none"], one.ask("get top 1 1", "get top 1 1")[:1] + self.cured(one))

    def cured(self, one):
        os.unlink(f"{self.faulty}.fault")
        return one.ask("get top 1 1")


class SyncTests(ServiceTest):
    def start_failing(self, call, is_journal):
        self.fault = f"{self.folder}/fault"
        self.start(change=FAILS.format(call=call, fault=self.fault, is_journal=is_journal))

    def ended(self):
        status = self.service.wait(60)
        self.service = None
        os.unlink(self.fault)
        return status

    def test_the_journal_cannot_be_synced(self):
        """The service ends. What its file may lack is in the store."""
        self.start_failing("fdatasync", True)
        with self.planner() as one:
            self.assertEqual(["ok"], one.ask("put top 1 1 a"))
            Path(self.fault).touch()
            self.assertEqual(["ok", ""], one.ask("put top 1 2 a") + one.read())
        self.assertEqual(3, self.ended())
        self.assertIn("the journal could not be synced", self.said.read_text())
        os.truncate(self.journal, Path(self.journal).read_bytes().index(b'{"batch":1') + 40)
        self.start()
        with self.planner() as one:
            self.assertEqual(["record 1 1 a", "record 1 2 a", "end 2"], one.rows("list top"))
            self.assertEqual(["ok"], one.ask("put top 1 3 a"))
        self.assertEqual([f"{it} put top 1 {it} a" for it in (1, 2, 3)], self.log())

    def test_the_journal_cannot_be_synced_before_a_batch(self):
        self.start_failing("fdatasync", True)
        lines = [f"put top 1 {it} {'x' * 4000}" for it in range(20)]
        with self.planner() as one:
            Path(self.fault).touch()
            due = ["ok", *["error 91 NotDone 21"] * 20, "error 97 NotJournaled EIO", ""]
            self.assertEqual(due, one.ask("begin", *lines, "commit") + one.read())
        self.assertEqual(3, self.ended())
        self.start()
        with self.planner() as one:
            self.assertEqual(["end 0"], one.rows("list top"))

    def stop_at_a_new_start(self, call, is_journals):
        """Has a call fail from the moment on at which the program is killed: the service can't start it again, and
        ends."""
        self.start_failing(call, is_journals)
        with self.planner() as one:
            self.assertEqual(["ok"], one.ask("put top 1 1 a"))
            Path(self.fault).touch()
            program = self.program()
            os.kill(program, signal.SIGKILL)
            self.until(lambda: Path(f"/proc/{program}/stat").read_text().rpartition(")")[2].split()[0] == "Z")
            self.assertEqual(["error 99 Stopped"], one.ask("put top 1 2 a"))
        self.assertEqual(3, self.ended())

    def test_the_journal_cannot_tell_that_the_program_was_started_again(self):
        self.stop_at_a_new_start("fdatasync", True)

    def test_the_store_cannot_be_synced_before_a_start_of_the_program(self):
        self.stop_at_a_new_start("fsync", False)
        self.assertIn("could not be synced", self.said.read_text())

    def test_each_start_of_the_program_sees_what_the_device_has(self):
        calls = f"{self.folder}/calls"
        change = f"""import os, subprocess
def noting(name, call):
    def noted(*words, **how):
        with open({calls!r}, "a") as file:
            path = os.readlink(f"/proc/self/fd/{{words[0]}}") if isinstance(words[0], int) else words[0][1]
            print(name, path, file=file)
        return call(*words, **how)
    return noted
os.fsync, os.posix_fadvise = noting("fsync", os.fsync), noting("drop", os.posix_fadvise)
subprocess.Popen = noting("start", subprocess.Popen)"""
        self.start(change=change)
        with self.planner() as one:
            os.kill(self.program(), signal.SIGKILL)
            self.assertEqual(["ok"], one.ask("put top 1 1 a"))
        text = Path(calls).read_text().splitlines()
        of_store = [it.split()[0] for it in text if it.endswith(self.file) or it == "start serve"]
        self.assertEqual(["fsync", "drop", "start"] * 2, of_store)
        self.assertEqual(["fsync", "drop"], [it.split()[0] for it in text if it.endswith(self.journal)])
