"""The journal read by its index: whatever is in a journal, the answer to `log` is that of a plain reading of all of
it."""
import json
import os
import random
import signal
import subprocess
import sys
import unittest
from pathlib import Path

from service import journal_index
from service.journal_log import Log, filter_of
from service_tests.support import ALTSERVE, LONG, ServiceTest, kept_batches

WIDE = ("merge", "post", "back", "new", "drop")
# Shorter parts, so that a small journal has many.
PART = 400


def wanted(path, planner=None, alternative=None, record=None, last=None, after=0):
    """The answer to `log` by a plain reading."""
    found = []
    for batch in kept_batches(path):
        if batch["batch"] <= after or planner not in (None, batch["who"], str(batch["uid"])):
            continue
        is_renewal = (batch["who"], batch["alternatives"]) == (".service", [".places"])
        if is_renewal and alternative in (None, ".places") and record is None:
            found.append(f"entry {batch['batch']} {batch['time']} .service renew .places {batch['records']}")
        for line in batch["lines"] if not is_renewal else ():
            verb, *words = line.split(" ")
            is_about = words[:1] == [alternative] or verb == "post" and alternative in batch["alternatives"]
            if alternative is not None and not (alternative in batch["alternatives"] and is_about):
                continue
            names = verb in ("put", "remove") and f"{int(words[1])}:{int(words[2])}" == record
            if record is None or names or verb in WIDE:
                who = batch["who"].replace("\u00fc", "%C3%BC")
                found.append(f"entry {batch['batch']} {batch['time']} {who} {line}")
    return found if last is None else found[len(found) - min(last, len(found)) :]


class IndexTests(unittest.TestCase):
    def setUp(self):
        self.path = f"{os.environ.get('TMPDIR', '/tmp')}/journal-{os.getpid()}"
        self.addCleanup(self.remove)
        part, journal_index.PART = journal_index.PART, PART
        self.addCleanup(setattr, journal_index, "PART", part)

    def remove(self):
        for it in (self.path, f"{self.path}.index"):
            Path(it).unlink(missing_ok=True)

    def line(self, chance):
        name = chance.choice(("top", "a", "b.1", "-"))
        verb = chance.choice(("put", "put", "remove", "merge", "post", "grow"))
        value = "".join(chance.choice('ab"\\%{}[],:') for _ in range(chance.choice((1, 9, 300))))
        words = {
            "put": f"{chance.choice(('', '00'))}{chance.randint(0, 3)} {chance.randint(0, 9)} {value}",
            "remove": f"0 {chance.randint(0, 9)}",
        }
        return f"grow {chance.randint(64, 99)}" if verb == "grow" else f"{verb} {name} {words.get(verb, '')}".strip()

    def journal(self, chance):
        """A journal at random: with backups that were put back, older and newer ones, and batches that were not
        made."""
        number, last, lines, past = 0, 0, ['{"opened":"","last":0,"next":1}'], [0]
        for _ in range(chance.randint(1, 60)):
            group = []
            for _ in range(chance.randint(1, 3)):
                number += 1
                texts = [self.line(chance) for _ in range(chance.choice((1, 1, 3, 40)))]
                names = sorted({it.split()[1] for it in texts if not it.startswith("grow")})
                who = chance.choice(("anna", "b\u00fcr\"o", "carl", ".service"))
                if who == ".service" and chance.random() < 0.8:
                    names, texts = [".places"], ["new .places top", *(it.replace("top", ".places") for it in texts)]
                batch = {
                    "batch": number, "time": "t", "uid": len(who), "who": who, "alternatives": names,
                    "records": len(texts), "lines": texts,
                }
                group.append(json.dumps(batch, separators=(",", ":")))
            lines += group
            if chance.random() < 0.8:
                lines.append(f'{{"done":{number}}}')
                last = number
                past.append(number)
            if chance.random() < 0.3 or last != number:
                last = chance.choice((last, last, chance.choice(past), number))
                past.append(last)
                lines.append(f'{{"opened":"","last":{last},"next":{number + 1}}}')
        return "\n".join(lines) + "\n"

    def ask(self, log, words):
        rows = b"".join(log.entries(filter_of(words))).decode().splitlines()
        self.assertEqual(f"end {len(rows) - 1}", rows[-1])
        return rows[:-1]

    def test_any_filter_over_any_journal(self):
        chance = random.Random(3)
        for _ in range(60):
            self.remove()
            Path(self.path).write_text(self.journal(chance))
            log = Log(self.path, writes=True)
            for _ in range(chance.choice((0, 3, 999))):
                log.index.add(log.size())
            for _ in range(12):
                values = {"planner": chance.choice((None, "anna", 'b\u00fcr"o', "4", "x", ".service"))}
                values.update(
                    alternative=chance.choice((None, None, "top", "b.1", ".places")),
                    record=chance.choice((None, "0:3", "2:5", "9:9")),
                )
                values.update(last=chance.choice((None, None, 0, 1, 7, 10**9)), after=chance.choice((0, 0, 5, 30)))
                words = [f"{name}={value}" for name, value in values.items() if value is not None]
                self.assertEqual(wanted(self.path, **values), self.ask(log, words), words)
            log.close()

    def test_parts_that_are_indexed_while_a_log_is_read(self):
        """As a service does between two parts of an answer."""
        chance = random.Random(8)
        for _ in range(8):
            Path(self.path).write_text(self.journal(chance))
            for first in (0, 1, 3):
                for values in ({}, {"last": 9}, {"planner": "anna"}, {"last": 2, "record": "2:5"}):
                    Path(f"{self.path}.index").unlink(missing_ok=True)
                    log, rows = Log(self.path, writes=True), b""
                    for _ in range(first):
                        log.index.add(log.size())
                    for part in log.entries(filter_of([f"{name}={value}" for name, value in values.items()])):
                        rows += part
                        log.index.add(log.size())
                    log.close()
                    self.assertEqual(wanted(self.path, **values), rows.decode().splitlines()[:-1], (first, values))

    def test_an_index_of_another_journal_is_made_again(self):
        chance = random.Random(4)
        for _ in range(5):
            Path(self.path).write_text(self.journal(chance))
            log = Log(self.path, writes=True)
            while log.index.add(log.size()):
                pass
            self.assertEqual(wanted(self.path), self.ask(log, []))
            log.close()
        # Nor is one that a crash has cut, or has left other bytes in.
        whole = Path(f"{self.path}.index").read_bytes()
        size = journal_index.RECORD
        lost = whole[:-size] + bytes(size), whole[: 40 - size] + bytes(size - 40)
        for left in (whole[:-7], *lost, b"", bytes(9999)):
            Path(f"{self.path}.index").write_bytes(left)
            log = Log(self.path, writes=True)
            self.assertEqual(wanted(self.path, record="2:5"), self.ask(log, ["record=2:5"]))
            log.close()

    def test_an_index_that_cannot_be_written(self):
        Path(self.path).write_text(self.journal(random.Random(5)) * 9)
        log = Log(self.path, writes=True)
        real, log.index.file = log.index.file, os.open("/dev/null", os.O_RDONLY)
        self.assertFalse(log.index.add(log.size()))
        os.close(log.index.file)
        log.index.file = real
        self.assertTrue(log.index.add(log.size()))
        log.close()

    def test_an_index_of_another_form_is_made_again(self):
        Path(self.path).write_text(self.journal(random.Random(6)))
        Path(f"{self.path}.index").write_bytes(bytes(range(256)) * 999)
        log = Log(self.path, writes=True)
        self.assertEqual(0, log.index.count)
        while log.index.add(log.size()):
            pass
        self.assertEqual(wanted(self.path, record="2:5"), self.ask(log, ["record=2:5"]))
        log.close()

    def test_a_value_that_looks_like_a_line(self):
        texts = [
            'put top 1 1 ","put top 7 1 a',
            'put top 1 2 \\"put top 7 1 b',
            "put top 7 1 c",
            'put top 1 3 ["put top 7 1 "',
        ]
        batch = {
            "batch": 1, "time": "t", "uid": 0, "who": "anna", "alternatives": ["top"], "records": 4, "lines": texts,
        }
        Path(self.path).write_text(json.dumps(batch, separators=(",", ":")) + '\n{"done":1}\n')
        log = Log(self.path)
        self.assertEqual(["entry 1 t anna put top 7 1 c"], self.ask(log, ["record=7:1"]))
        log.close()

    def test_a_part_says_no_if_it_has_nothing(self):
        line = '{"batch":%d,"time":"t","uid":0,"who":"anna","alternatives":["top"],"records":1,'
        line += '"lines":["put top 1 %d a"]}\n'
        Path(self.path).write_text("".join(line % (it, it) for it in range(1, 2000)))
        log = Log(self.path, writes=True)
        while log.index.add(log.size()):
            pass
        count = log.index.count
        for words, most in {"record=1:1500": 5, "record=1:5000": 5, "planner=carl": 2, "alternative=north": 2}.items():
            found = [it for it in log.index.parts(log.size(), wanted=filter_of([words]).keys()) if it]
            self.assertLessEqual(len(found), most, words)
        self.assertGreater(count, 400)
        self.assertEqual(
            log.index.after(1000), max(it.end for it in log.index.parts(log.index.end) if it and it.last <= 1000)
        )
        log.close()


class LogTests(ServiceTest):
    def test_a_log_that_is_not_read_waits(self):
        self.start()
        with self.planner() as one, self.planner() as other:
            one.ask(*(f"put top 1 {n} {LONG}" for n in range(100)))
            one.send("log")
            for _ in range(200):
                rows = other.rows("status")
            unread = next(int(it.split()[2]) for it in rows if it.startswith("status unread_bytes "))
            # No more than a part of the journal is read ahead, of an answer of 1.2 MB.
            self.assertLess(unread, 1 << 20)
            self.assertEqual(["end 100"], one.read(101)[100:])

    def test_no_process_is_started_for_it(self):
        self.start()
        with self.planner() as one:
            one.ask(*(f"put top 1 {n} a" for n in range(500)))
            program = self.program()
            one.send(*["log"] * 50, "get top 1 1")
            self.until(lambda: self.program() == program and one.is_read())
            for _ in range(50):
                self.assertEqual("end 500", one.read(501)[-1])
            self.assertEqual(["value a"], one.read())

    def test_whoever_leaves_before_it_is_read(self):
        self.start()
        with self.planner() as one:
            lines = [f"put top 1 {n % 100} {'a' * 200}" for n in range(2000)]
            self.assertEqual(["ok"] * 2002, one.ask("begin", *lines, "commit"))
            for how in ("log", "log last=1999", "log record=1:1"):
                for _ in range(3):
                    with self.planner() as other:
                        other.send(how, how)
                        other.answers.read(100)
            self.assertEqual("end 2000", one.rows("log")[-1])
            count = len(os.listdir(f"/proc/{self.service.pid}/fd"))
            self.until(lambda: len(os.listdir(f"/proc/{self.service.pid}/fd")) <= count)

    def test_numbers_with_zeros(self):
        self.start()
        with self.planner() as one:
            self.assertEqual(
                ["ok"] * 4, one.ask("put top 007 01 a", "put top 7 1 b", "remove top 07 001", "put top 70 1 c")
            )
        self.assertEqual(["1 put top 007 01 a", "2 put top 7 1 b", "3 remove top 07 001"], self.log("--record", "7:1"))

    def test_a_long_batch(self):
        self.start()
        with self.planner() as one:
            lines = [f"put top 1 {n} {'%41' * 3000}" for n in range(40)]
            self.assertEqual(["ok"] * 42, one.ask("begin", *lines, "commit"))
            self.assertEqual("end 40", one.rows("log")[-1])
            rows = one.rows("log record=1:33")
            self.assertEqual([lines[33]], [it.split(" ", 4)[4] for it in rows[:-1]])
            self.assertEqual("end 3", one.rows("log last=3")[-1])
            self.assertEqual(["end 0"], one.rows("log planner=nobody"))

    def test_no_room_for_the_line_that_tells_a_commit(self):
        change = f"""import errno, os
from service import journal
real = os.write
def write(file, text):
    if os.path.exists({self.folder + "/full"!r}) and bytes(text).startswith((b'{{"batch"', b'{{"done"')):
        raise OSError(errno.ENOSPC, "no space")
    return real(file, text)
os.write = write"""
        self.start(change=change)
        with self.planner() as one:
            self.assertEqual(["ok"], one.ask("put top 1 1 a"))
            Path(self.folder, "full").touch()
            # What was committed is in the store, and nothing more is until the journal tells it.
            self.assertEqual(["ok"], one.ask("put top 1 2 a"))
            self.assertIn("batch 2", self.said.read_text())
            self.assertEqual(["1 put top 1 1 a"], self.log())
            self.assertEqual(["error 97 NotJournaled ENOSPC"], one.ask("put top 1 3 a"))
            self.assertEqual(2, one.last_batch())
            Path(self.folder, "full").unlink()
            self.assertEqual(["ok"], one.ask("put top 1 3 a"))
            self.assertEqual("end 3", one.rows("log")[-1])
            # If it is killed before, the next start has it from the store.
            Path(self.folder, "full").touch()
            self.assertEqual(["ok"], one.ask("put top 1 4 a"))
        self.stop(signal.SIGKILL)
        self.start()
        self.assertEqual([f"{it} put top 1 {it} a" for it in (1, 2, 3, 4)], self.log())

    def test_an_older_and_then_a_newer_backup_are_put_back(self):
        self.start()
        with self.planner() as one:
            for number in (1, 2, 3):
                self.assertEqual(["ok"], one.ask(f"put top 1 {number} a"))
                self.assertEqual("ok", one.ask(f"backup b{number}")[0].split()[0])
        for backup, put in ((1, 4), (3, 5), (1, 6)):
            self.stop()
            os.replace(f"{self.file}.backups/b{backup}", self.file)
            self.start()
            with self.planner() as one:
                one.ask(f"backup b{backup}", f"put top 1 {put} a")
                rows = [it.split()[2] for it in one.rows("list top")[:-1]]
                self.assertEqual(rows, [it.split()[3] for it in (it.split(" ", 1)[1] for it in self.log())])

    def test_what_is_cut_off_is_kept(self):
        self.start()
        with self.planner() as one:
            one.ask("put top 1 1 a")
        self.stop()
        whole = Path(self.journal).read_bytes()
        others = [b'{"note":"by hand"}\n', b"[" * 100_000 + b"\n", b'{"batch":2,"time', b"\0" * 50]
        for it in others:
            Path(self.journal).write_bytes(whole + it)
            self.start()
            self.stop()
            whole = Path(self.journal).read_bytes()
            self.assertEqual(["1 put top 1 1 a"], self.log())
        self.assertEqual(b"".join(others), Path(f"{self.journal}.cut").read_bytes())

    def test_nobody_reads_on(self):
        self.start()
        with self.planner() as one:
            self.assertEqual(["ok"] * 50, one.ask(*(f"put top 7 1 {'x' * 3000}{it}" for it in range(50))))
        how = {"stdout": subprocess.PIPE, "stderr": subprocess.PIPE, "text": True}
        with subprocess.Popen([sys.executable, ALTSERVE, "log", self.file], **how) as log:
            self.assertTrue(log.stdout.readline().startswith("entry 1 "))
            log.stdout.close()
            self.assertEqual(("", 0), (log.stderr.read(), log.wait()))

    def test_a_file_without_a_journal(self):
        ran = subprocess.run(
            [sys.executable, ALTSERVE, "log", self.file], stdout=subprocess.PIPE, stderr=subprocess.PIPE
        )
        self.assertEqual((1, b"", 2), (ran.returncode, ran.stdout, ran.stderr.count(b"\n")), ran.stderr)
