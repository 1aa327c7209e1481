"""The index of places made anew: under whose name that stands in the journal, and how `log` lists it."""
import os
import pwd
import subprocess
import sys
import unittest
import unittest.mock
from pathlib import Path

from service.batch import Batch
from service.journal_log import Filter, Log
from service.renewals import author
from service.rules import Person, person_of
from service_tests.support import ALTCTL, ALTSERVE, HAS_TOML, LONG, NEEDS_TOML, ServiceTest, kept_batches

ME = pwd.getpwuid(os.geteuid()).pw_name
PUTS = ["put .places 65007 0 %01", "put .places 65007 1 a", "put .places 65107 0 b"]
FIRST, LATER = ["new .places top", *PUTS], ["drop .places", "new .places top", *PUTS[:2]]


class RenewalTests(ServiceTest):
    def make(self, one, lines):
        """Carries out a batch."""
        self.assertEqual({"ok"}, set(one.ask("begin", *lines, "commit")))

    def told(self, one, *filters):
        """What the service and `altserve log` tell with these filters: each line without its time."""
        rows = [it.split(" ") for it in one.rows(" ".join(["log", *filters]))]
        self.assertEqual(["end", str(len(rows) - 1)], rows[-1])
        self.assertEqual([" ".join([it[1], *it[4:]]) for it in rows[:-1]], self.log(*(f"--{it}" for it in filters)))
        return [" ".join([it[1], *it[3:]]) for it in rows[:-1]]

    def test_it_is_one_line_under_the_name_of_the_service(self):
        self.start()
        with self.planner() as one:
            self.make(one, ["put top 7 1 duct", "new north top"])
            self.make(one, FIRST)
            one.ask("put north 7 1 pipe")
            self.make(one, LATER)
            mine = [f"1 {ME} put top 7 1 duct", f"1 {ME} new north top", f"3 {ME} put north 7 1 pipe"]
            its = ["2 .service renew .places 3", "4 .service renew .places 2"]
            all_lines = [*mine[:2], its[0], mine[2], its[1]]
            due = {
                (): all_lines,
                ("planner=.service",): its,
                (f"planner={ME}",): mine,
                (f"planner={os.getuid()}",): all_lines,
                ("alternative=.places",): its,
                ("alternative=top",): mine[:1],
                ("alternative=north",): mine[1:],
                ("record=7:1",): mine,
                ("record=65007:0",): mine[1:2],
                ("last=1",): its[1:],
                ("last=2", "after=1"): [mine[2], its[1]],
                ("after=4",): [],
            }
            for filters, lines in due.items():
                self.assertEqual(lines, self.told(one, *filters), filters)
        names = "who", "uid", "alternatives", "records", "lines"
        found = [[it[name] for name in names] for it in kept_batches(self.journal)]
        self.assertEqual([".service", os.getuid(), [".places"], 3, FIRST], found[1])
        self.assertEqual([".service", os.getuid(), [".places"], 2, LATER], found[3])

    def test_whatever_does_anything_else_is_the_planners(self):
        self.start()
        more = [f"put .places {it} 1 a" for it in ("7", "107", "64999", "65200", "065007")]
        more += ["remove .places 65007 0", "checkpoint .places a", "checkpoint top a", "new a top", "put top 7 1 a"]
        batches = [[*LATER, it] for it in more]
        batches += [["drop .places", "new .places north", *PUTS], ["drop .places", "new .places top before", *PUTS]]
        batches += [PUTS, PUTS[:1], [*PUTS, *LATER], ["put top 7 1 b", *LATER], ["drop .places"]]
        with self.planner() as one:
            self.make(one, ["new north top", "checkpoint top before"])
            self.make(one, FIRST)
            for number, lines in enumerate(batches, 3):
                self.make(one, lines)
                due = [f"{number} {ME} {it}" for it in lines]
                self.assertEqual(due, self.told(one, f"after={number - 1}"), lines)
            self.assertEqual(["2 .service renew .places 3"], self.told(one, "planner=.service"))

    def test_nobody_else_has_that_name(self):
        name = pwd.struct_passwd((".service", "x", 4321, 4321, "", "/", ""))
        socket = unittest.mock.Mock()
        socket.getsockopt.return_value = b"".join(it.to_bytes(4, "little") for it in (1, 4321, 4321))
        is_so = unittest.mock.patch("pwd.getpwuid", return_value=name)
        with is_so, unittest.mock.patch("os.getgrouplist", return_value=[]):
            self.assertEqual((4321, "4321"), person_of(socket)[:2])
        self.start()
        with self.planner() as one:
            self.assertEqual(["error 22 BadLine", "ok"], one.ask("for .service", "put top 7 1 a"))
            self.assertEqual([f"1 {ME} put top 7 1 a"], self.told(one))

    def test_what_is_sent_for_another_person_is_that_persons(self):
        desk = Person(7, "desk", frozenset())
        lines = [it.encode() for it in LATER]
        self.assertEqual(".service", author(Batch(desk, lines)))
        self.assertEqual("anna", author(Batch(Person(7, "anna", frozenset(), desk), lines)))
        self.assertEqual("desk", author(Batch(desk, [*lines, b"put top 7 1 a"])))

    @unittest.skipUnless(HAS_TOML, NEEDS_TOML)
    def test_it_needs_the_rights_of_its_lines(self):
        self.rules(f'act = ["{ME}"]\n[change]\n".places" = ["{ME}", "berta"]\n[drop]\n".places" = ["{ME}"]')
        self.start()
        with self.planner() as one, self.planner() as other:
            denied = ["ok", "ok", "error 90 Denied change .places", *["error 91 NotDone 1"] * 4]
            self.assertEqual(denied, other.ask("for anna", "begin", *FIRST, "commit"))
            self.assertEqual([], self.told(one))
            self.make(one, FIRST)
            self.make(one, LATER)
            denied = ["ok", "ok", "error 90 Denied drop .places", *["error 91 NotDone 1"] * 4]
            self.assertEqual(denied, other.ask("for berta", "begin", *LATER, "commit"))
            self.assertEqual(["1 .service renew .places 3", "2 .service renew .places 2"], self.told(one))
            # Who may change nothing but the index changes nothing but the index.
            denied = ["error 91 NotDone 5", "error 90 Denied change ~", "error 91 NotDone 5"]
            self.assertEqual(denied, one.ask("begin", *LATER, "put top 7 1 a", "commit")[4:])

    @unittest.skipUnless(HAS_TOML, NEEDS_TOML)
    def test_it_counts_for_none_of_those_who_make_alternatives(self):
        self.rules('[change]\n"*" = ["*"]\n[drop]\n"*" = ["*"]\n[entries]\n"*" = 2')
        owners = Path(f"{self.file}.owners")
        self.start()
        with self.planner() as one:
            self.make(one, ["new a top", *FIRST, "put top 7 1 a"])
            self.assertEqual(["error 102 TooManyEntries 2"], one.ask("new b top"))
        self.stop()
        before = owners.read_bytes()
        self.start()
        with self.planner() as one:
            self.make(one, LATER)
            self.assertEqual(["ok", "error 102 TooManyEntries 2", "ok"], one.ask("new b top", "new c top", "drop b"))
            self.make(one, LATER)
        self.stop()
        # After a crash the journal has what was made since that was written down.
        owners.write_bytes(before)
        self.start()
        with self.planner() as one:
            self.assertEqual(["ok", "error 102 TooManyEntries 2"], one.ask("new b top", "new c top"))

    def test_a_long_one_beside_others(self):
        """It lies in many parts of the journal, each of 128 KiB."""
        os.unlink(self.file)
        self.create(2048)
        self.start()
        lines = ["new .places top", *(f"put .places 65007 {it} {LONG}" for it in range(200))]
        with self.planner() as one:
            one.ask("put top 7 1 a")
            self.make(one, lines)
            one.ask("put top 7 1 b")
            self.make(one, ["drop .places", *lines])
            mine = [f"1 {ME} put top 7 1 a", f"3 {ME} put top 7 1 b"]
            its = ["2 .service renew .places 200", "4 .service renew .places 200"]
            due = [mine[0], its[0], mine[1], its[1]]
            self.assertGreater(os.path.getsize(self.journal), 32 * 128 << 10)
            for filters, some in {"": due, "last=3": due[1:], "record=7:1": mine, "planner=.service": its}.items():
                self.assertEqual(some, self.told(one, *filters.split()), filters)
        log = Log(self.journal)
        rows = b"".join(log.entries(Filter(is_in_full=True))).decode().splitlines()[:-1]
        log.close()
        whole = ["put top 7 1 a", *lines, "put top 7 1 b", "drop .places", *lines]
        self.assertEqual(whole, [it.split(" ", 4)[4] for it in rows])

    def test_a_restored_store_has_the_index(self):
        self.start()
        with self.planner() as one:
            self.assertEqual(["ok", "ok"], [it.split()[0] for it in one.ask("put top 7 1 a", "backup early")])
            self.make(one, FIRST)
            self.make(one, LATER)
            due = one.rows("list .places")
        self.assertEqual(["record 7 1 a", "record 65007 0 %01", "record 65007 1 a", "end 3"], due)
        words = [sys.executable, ALTSERVE, "restore", "--program", ALTCTL, f"{self.file}.backups/early", self.journal]
        self.stop()
        new = str(Path(self.folder, "new.alt"))
        ran = subprocess.run([*words, new], stdout=subprocess.PIPE, stderr=subprocess.PIPE, timeout=120)
        self.assertEqual((0, b""), (ran.returncode, ran.stderr))
        self.file = new
        self.assertEqual(due, self.altctl("list .places"))
