"""Tests of the service: rules."""
import grp
import os
import pwd
import signal
import time
import unittest

from service.rules import Person, Rules
from service_tests.support import HAS_TOML, NEEDS_TOML, NOBODY, ServiceTest, kept_batches


class RulesTests(ServiceTest):
    @unittest.skipUnless(HAS_TOML, NEEDS_TOML)
    def test_what_rules_allow(self):
        self.rules("""
            grow = ["@operators"]
            [change]
            north = ["anna", "@north"]
            "north-*" = ["*"]
            "n*" = ["carl"]
            top = []
            [post]
            "*" = ["berta"]
        """)
        rules = Rules(f"{self.file}.rules")
        anna, carl = Person(1, "anna", frozenset(["planners"])), Person(3, "carl", frozenset())
        berta = Person(2, "berta", frozenset(["north", "operators"]))
        owner = Person(os.geteuid(), "owner", frozenset())
        due = [
            (anna, "change", b"north", None), (berta, "change", b"north", None),
            (carl, "change", b"north", ("change", "north")),
            (anna, "change", b"north-2", None), (carl, "change", b"n2", None),
            (anna, "change", b"n2", ("change", "n*")),
            (owner, "change", b"top", ("change", "top")), (owner, "change", b"south", ("change", "~")),
            (berta, "post", b"south", None), (anna, "post", b"south", ("post", "*")),
            (berta, "drop", b"south", ("drop", "~")),
            (berta, "grow", None, None), (anna, "grow", None, ("grow",)), (owner, "reclaim", None, ("reclaim",)),
        ]
        for person, right, alternative, denial in due:
            self.assertEqual(denial, rules.denial(person, right, alternative), (person, right, alternative))

    def test_without_rules_the_user_of_the_service_may_change(self):
        rules = Rules(f"{self.file}.rules")
        for right, alternative in [
            ("change", b"top"), ("post", b"a"), ("drop", b"a"), ("grow", None), ("backup", None),
        ]:
            self.assertIsNone(rules.denial(Person(os.geteuid(), "a", frozenset()), right, alternative))
            self.assertEqual((right, "~"), rules.denial(Person(os.geteuid() + 1, "a", frozenset()), right, alternative))

    @unittest.skipUnless(HAS_TOML, NEEDS_TOML)
    def test_rules_are_read_again(self):
        self.rules("")
        self.start()
        with self.planner() as one:
            lines = ["new a top", "put a 1 1 a", "drop a", "post a", "grow 300", "reclaim", "backup a"]
            due = ["change ~", "change ~", "drop ~", "post ~", "grow", "reclaim", "backup"]
            self.assertEqual([f"error 90 Denied {it}" for it in due], one.ask(*lines))
            self.rules('reclaim = ["*"]\n[change]\n"*" = ["*"]')
            self.service.send_signal(signal.SIGHUP)
            self.until(lambda: one.ask("reclaim") == ["ok"])
            due = [
                "ok", "ok", *[f"error 90 Denied {it}" for it in ("drop ~", "post ~", "grow")], "ok",
                "error 90 Denied backup",
            ]
            self.assertEqual(due, one.ask(*lines))
            self.rules("[change")
            self.service.send_signal(signal.SIGHUP)
            self.until(lambda: b"the rules stay as they were" in self.said.read_bytes())
            self.assertEqual(["ok"], one.ask("reclaim"))

    @unittest.skipUnless(HAS_TOML, NEEDS_TOML)
    def test_a_batch_that_was_begun_before_the_rules_changed(self):
        self.rules('[change]\n"*" = ["*"]')
        self.start()
        with self.planner() as one, self.planner() as other:
            self.assertEqual(["ok"], one.ask("begin"))
            one.send("put top 1 1 a", "put top 1 2 a")
            self.until(one.is_read)
            self.rules('[change]\nnorth = ["*"]')
            self.service.send_signal(signal.SIGHUP)
            self.until(lambda: other.ask("put top 1 3 a")[0].startswith("error 90"))
            one.send("commit")
            self.assertEqual(["error 90 Denied change ~", *["error 91 NotDone 1"] * 2], one.read(3))
            self.assertEqual(["end 0"], one.rows("list top"))

    @unittest.skipUnless(HAS_TOML, NEEDS_TOML)
    def test_rights_on_the_parent(self):
        self.rules('[change]\n"mine*" = ["*"]\n[post]\n"mine*" = ["*"]\n[drop]\n"mine*" = ["*"]')
        self.assertEqual(["ok"] * 3, self.altctl("new south top", "new mine-0 south", "commit"))
        self.start()
        with self.planner() as one:
            # A design of one's own, but not below what one may not change.
            due = ["ok", "ok", "error 90 Denied change ~", "error 90 Denied post ~", "error 90 Denied post ~"]
            self.assertEqual(
                due, one.ask("new mine-1 top", "new mine-2 mine-1", "new mine-3 south", "post mine-1", "post mine-0")
            )
            self.assertEqual(["ok", "ok"], one.ask("put mine-2 7 1 a", "post mine-2"))
            # Only when it is carried out it is known whose child it is.
            lines = [
                "begin", "new mine-4 mine-1", "drop mine-4", "new mine-4 top", "put mine-4 7 1 b", "post mine-4",
                "commit",
            ]
            self.assertEqual("error 90 Denied post ~", one.ask(*lines)[5])
            self.assertEqual(["end 0"], one.rows("list top"))
            self.rules('[change]\n"mine*" = ["*"]\n[post]\n"mine*" = ["*"]\ntop = ["*"]\n[new]\nsouth = ["*"]')
            self.service.send_signal(signal.SIGHUP)
            self.until(lambda: one.ask("post mine-1") == ["ok"])
            self.assertEqual(["ok", "error 90 Denied new ~"], one.ask("new mine-3 south", "new mine-5 top"))
            self.assertEqual(["value a"], one.ask("get top 7 1"))

    @unittest.skipUnless(HAS_TOML, NEEDS_TOML)
    def test_an_office_has_its_own_names_and_nothing_else(self):
        self.rules(
            '[office]\nanna = ["*"]\nberta = []\n"ca*" = ["@root", "*"]\n'
            '[change]\n"north*" = ["*"]\n[new]\nnorth = ["*"]'
        )
        made = ["new north top", "new south top", "checkpoint south .office.berta.1", "put top 7 1 a"]
        self.assertEqual(["ok"] * 5, self.altctl(*made, "commit"))
        self.start()
        with self.planner() as one:
            may = [
                "new .office.anna top", "checkpoint .office.anna 0a", "uncheck .office.anna 0a",
                "checkpoint top .office.anna.0a", "checkpoint south .office.anna.0a", "uncheck south .office.anna.0a",
                "checkpoint north monday", "drop .office.anna", "new .office.carl top", "checkpoint top .office.carl.1",
            ]
            self.assertEqual(["ok"] * len(may), one.ask(*may))
            self.assertEqual(
                ["ok"] * 4, one.ask("begin", "uncheck top .office.anna.0a", "checkpoint top .office.anna.0b", "commit")
            )
            may_not = [
                ("checkpoint top monday", "change"), ("checkpoint top .office.anna", "change"),
                ("checkpoint top .office.berta.1", "change"),
                ("uncheck south .office.berta.1", "change"), ("checkpoint top .office.", "change"),
                ("checkpoint top xoffice.anna.1", "change"),
                ("put top 7 1 b", "change"), ("back top .office.anna.0b", "change"), ("drop south", "drop"),
                ("post .office.carl", "post"),
                ("new .office.berta top", "change"), ("new .office.anna south", "change"),
                ("new .office.anna.x top", "change"),
                ("put .office.carl 65535 0 a", "change"), ("back .office.carl 1", "change"),
                ("new below .office.carl", "change"), ("new top2 top", "change"), ("drop .office.berta", "drop"),
            ]
            for line, right in may_not:
                self.assertEqual([f"error 90 Denied {right} "], [it[: len(right) + 17] for it in one.ask(line)], line)
            # Below `top` an office may have its own name, and no other, where a rule says who may begin designs there.
            self.assertEqual(["error 90 Denied new ~", "ok"], one.ask("new north2 top", "new .office.anna top"))
            self.assertEqual(["value a"], one.ask("get top 7 1"))

    @unittest.skipUnless(HAS_TOML, NEEDS_TOML)
    def test_a_rule_for_offices_is_read_again(self):
        self.rules('[office]\nanna = ["*"]')
        self.start()
        with self.planner() as one, self.planner() as other:
            self.assertEqual(["ok", "ok"], one.ask("checkpoint top .office.anna.1", "begin"))
            one.send("checkpoint top .office.anna.2")
            self.until(one.is_read)
            self.rules("[office]\nanna = []")
            self.service.send_signal(signal.SIGHUP)
            self.until(lambda: other.ask("checkpoint top .office.anna.3")[0].startswith("error 90"))
            one.send("commit")
            self.assertEqual(["error 90 Denied change ~", "error 91 NotDone 1"], one.read(2))

    @unittest.skipUnless(HAS_TOML, NEEDS_TOML)
    def test_how_many_entries_one_user_may_have(self):
        self.rules('[change]\n"*" = ["*"]\n[drop]\n"*" = ["*"]\n[entries]\n"*" = 3\n"@nobody" = 500')
        self.assertEqual(["ok", "ok"], self.altctl("new there top", "commit"))
        for stops in (self.stop, lambda: self.stop(signal.SIGKILL)):
            self.start()
            with self.planner() as one:
                self.assertEqual(["ok"] * 3, one.ask("new a top", "checkpoint a one", "checkpoint there two"))
                due = ["error 102 TooManyEntries 3", "error 102 TooManyEntries 3"]
                self.assertEqual(due, one.ask("new b top", "checkpoint a two"))
                self.assertEqual(["ok"] * 4, one.ask("begin", "uncheck a one", "checkpoint a two", "commit"))
                self.assertEqual(["error 102 TooManyEntries 3"], one.ask("checkpoint a three"))
                self.assertEqual(["checkpoint two", "end 1"], one.rows("checks a"))
                time.sleep(1.2)
                self.assertEqual(["ok", "ok"], one.ask("uncheck there two", "new b a"))
            # A service that is started again still knows who made them, also if it was killed.
            stops()
            self.start()
            with self.planner() as one:
                self.assertEqual(["error 102 TooManyEntries 3"], one.ask("new c top"))
                self.assertEqual(
                    ["ok", "ok", "ok", "ok", "ok"],
                    one.ask("drop b", "drop a", "new c top", "checkpoint c one", "drop c"),
                )
            self.stop()
        self.start()
        with self.planner() as one:
            self.assertEqual(["ok", "ok", "ok"], one.ask("new a top", "new b a", "checkpoint b one"))
        self.stop()
        # What is removed while no service runs no longer counts.
        self.assertEqual(["ok"] * 3, self.altctl("uncheck b one", "drop b", "commit"))
        self.start()
        with self.planner() as one:
            self.assertEqual(
                ["ok", "ok", "error 102 TooManyEntries 3"], one.ask("new c a", "checkpoint c one", "checkpoint c two")
            )

    @unittest.skipUnless(HAS_TOML, NEEDS_TOML)
    def test_a_rule_with_other_bytes_is_told_in_one_line(self):
        self.rules('[change]\n"t?p" = []\n"*\\n*" = []\n"to[p\\n \u00fc%]" = []')
        self.start()
        with self.planner() as one:
            self.assertEqual(["error 90 Denied change t?p", "none"], one.ask("put top 1 1 a", "get top 1 1"))
        self.stop()
        self.rules('[change]\n"to[p\\n \u00fc%]" = []')
        self.start()
        with self.planner() as one:
            self.assertEqual(
                ["error 90 Denied change to[p%0A%20%C3%BC%25]", "none"], one.ask("put top 1 1 a", "get top 1 1")
            )

    @unittest.skipUnless(HAS_TOML, NEEDS_TOML)
    def test_rules_that_are_none(self):
        for text in [
            "[change", "[fly]\na = []", "office = []", "[office]\nanna = 1", 'grow = "anna"', "grow = 1", "change = []",
            "[change]\na = [1]", "[grow]\na = []", "entries = 3", "[entries]\na = true", "[entries]\na = -1",
        ]:
            self.rules(text)
            status, said = self.failed()
            self.assertEqual((1, True), (status, said.startswith(f"altserve: {self.file}.rules: ")), said)

    def test_rules_without_a_module_that_reads_them(self):
        self.rules("")
        status, said = self.failed(change="sys.modules['tomllib'] = sys.modules['tomli'] = None")
        self.assertEqual((1, True), (status, "python3-tomli" in said), said)

    @unittest.skipUnless(os.geteuid() == 0, "only root can be another user")
    def test_a_foreign_user(self):
        os.chmod(self.folder, 0o755)

        def ask(uid=NOBODY, gid=grp.getgrnam("nogroup").gr_gid):
            """What another user is answered."""
            reads, writes = os.pipe()
            child = os.fork()
            if not child:
                os.setgroups([])
                os.setgid(gid)
                os.setuid(uid)
                try:
                    with self.planner() as one:
                        one.send(
                            "put top 1 1 a", "begin", "put top 1 1 a", "commit", "get top 1 1", "backup a", "whoami"
                        )
                        os.write(writes, "\n".join(one.rest()).encode())
                except PermissionError:
                    os.write(writes, b"kept out")
                finally:
                    os._exit(0)
            os.close(writes)
            with open(reads) as file:
                answers = file.read().splitlines()
            os.waitpid(child, 0)
            return answers

        self.start()
        self.assertEqual(["kept out"], ask())
        self.stop()
        self.start("--group", "nogroup")
        denied = "error 90 Denied change ~"
        due = [
            denied, "ok", denied, "error 91 NotDone 1", "none", "error 90 Denied backup ~",
            f"planner nobody {NOBODY} nogroup",
        ]
        self.assertEqual(due, ask())
        self.stop()
        # A user and a group without a name are told by their numbers.
        self.start()
        os.chmod(self.socket, 0o666)
        self.assertEqual(["planner 54321 54321 54322"], ask(54321, 54322)[-1:])
        if HAS_TOML:
            self.stop()
            self.rules('[change]\ntop = ["@nogroup"]')
            self.start("--group", "nogroup")
            due = ["ok", "ok", "ok", "ok", "value a", "error 90 Denied backup", f"planner nobody {NOBODY} nogroup"]
            self.assertEqual(due, ask())
            self.assertEqual(
                ["1 nobody", "2 nobody"], [f"{it['batch']} {it['who']}" for it in kept_batches(self.journal)]
            )


class ActingTests(ServiceTest):
    """One connection for others, as that of a desk behind a web server."""

    @unittest.skipUnless(HAS_TOML, NEEDS_TOML)
    def test_rules_are_about_the_person_who_is_acted_for(self):
        me = pwd.getpwuid(os.geteuid()).pw_name
        change = '[change]\nnorth = ["anna"]\n"south*" = ["berta@office.example"]'
        self.rules(f'act = ["{me}"]\nbackup = ["berta"]\n{change}')
        self.start()
        with self.planner() as one, self.planner() as other:
            self.assertEqual(["error 90 Denied change north"], one.ask("new north top"))
            self.assertEqual(["ok", "ok", "ok"], one.ask("for anna", "new north top", "put north 7 1 duct"))
            due = [f"planner anna {os.geteuid()}", "error 90 Denied change south*"]
            self.assertEqual(due, one.ask("whoami", "new south top"))
            # The right to act is that of the user at the other end, so one may go on for the next person.
            due = ["ok", "ok", "error 90 Denied change north", "error 90 Denied backup"]
            lines = "for berta@office.example", "new south top", "put north 7 1 pipe", "backup a"
            self.assertEqual(due, one.ask(*lines))
            self.assertEqual(["ok", "ok"], [it.split()[0] for it in one.ask("for berta", "backup a")])
            self.assertEqual([f"planner {me}"], [" ".join(it.split()[:2]) for it in other.ask("whoami")])
            # What a batch is for is settled when it begins.
            due = ["ok", "ok", "error 91 NotDone 2", "error 93 NotInBatch", "error 91 NotDone 2"]
            self.assertEqual(due, one.ask("for anna", "begin", "put north 7 1 hose", "for berta", "commit"))
            self.assertEqual(["value duct"], one.ask("get north 7 1"))
        found = [(it["who"], it["uid"], it["alternatives"]) for it in kept_batches(self.journal)]
        due = [("anna", os.geteuid(), ["north"])] * 2 + [("berta@office.example", os.geteuid(), ["south"])]
        self.assertEqual(due, found)
        told = [it.split(" ", 1)[1] for it in self.log("--planner", "anna")]
        self.assertEqual(["new north top", "put north 7 1 duct"], told)

    @unittest.skipUnless(HAS_TOML, NEEDS_TOML)
    def test_who_may_not_act_and_what_is_no_person(self):
        self.rules('act = ["desk"]\n[change]\n"*" = ["anna"]')
        self.start()
        with self.planner() as one:
            self.assertEqual(["error 90 Denied act", "error 90 Denied change *"], one.ask("for anna", "new north top"))
        self.stop()
        self.rules('act = ["*"]\n[change]\n"*" = ["@planners", "1000"]')
        self.start()
        with self.planner() as one:
            for name in ("@planners", "1000", ".service", "*", "a/b", "x" * 65, "", "anna berta", "%41"):
                due = ["error 22 BadLine", "error 90 Denied change *"]
                self.assertEqual(due, one.ask(f"for {name}".rstrip(), "new north top"), name)

    def test_without_rules_nobody_else_may_change_anything(self):
        self.start()
        with self.planner() as one:
            due = ["ok", "error 90 Denied change ~", "error 90 Denied backup ~", "none"]
            self.assertEqual(due, one.ask("for anna", "new north top", "backup a", "get top 1 1"))

    @unittest.skipUnless(HAS_TOML, NEEDS_TOML)
    def test_groups_are_those_that_the_system_gives_a_user_of_that_name(self):
        self.rules('act = ["*"]\n[change]\nnorth = ["@nogroup"]')
        self.start()
        with self.planner() as one:
            due = ["ok", f"planner nobody {os.geteuid()} nogroup", "ok"]
            self.assertEqual(due, one.ask("for nobody", "whoami", "new north top"))
            due = ["ok", f"planner nobodyelse {os.geteuid()}", "error 90 Denied change north"]
            self.assertEqual(due, one.ask("for nobodyelse", "whoami", "new north top"))

    @unittest.skipUnless(HAS_TOML, NEEDS_TOML)
    def test_what_each_has_made_counts_for_each(self):
        self.rules('act = ["*"]\n[change]\n"*" = ["*"]\n[entries]\n"*" = 1')
        self.start()
        with self.planner() as one:
            due = ["ok", "ok", "error 102 TooManyEntries 1", "ok", "ok"]
            self.assertEqual(due, one.ask("for anna", "new a top", "new b top", "for berta", "new b top"))
