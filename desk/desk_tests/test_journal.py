"""Tests of the desk: a journal that is slow to read."""
import json
import re
import threading
import time

from desk_tests.support import LONGEST_WAIT, AskingTest, Counter, attributes


class SlowJournal(Counter):
    """Answers no `log` as long as it is slow."""

    is_slow = threading.Event()
    asked = threading.Event()

    def came(self, came):
        if came.startswith(b"log ") or b"\nlog " in came:
            self.asked.set()
            self.is_slow.wait()


class JournalTests(AskingTest):
    def test_nobody_waits_for_a_slow_journal(self):
        SlowJournal.is_slow.clear()
        self.addCleanup(SlowJournal.is_slow.set)
        slow = SlowJournal(f"{self.socket}.slow", self.socket)
        self.addCleanup(slow.stop)
        _, url = self.desk(f"{self.socket}.slow")
        self.port, self.token = re.search(r":(\d+)/#token=(\S+)", url).groups()
        epoch, other = self.epoch(), self.store()
        seen = json.loads(self.ask("/api/design?at=north", self.token)[1])["batch"]
        other.put("north", 7, 5, attributes(dn=50, mat="PVC"))
        self.assertTrue(SlowJournal.asked.wait(LONGEST_WAIT))
        begun = time.monotonic()
        for path in (
            "state",
            "design?at=south",
            "window?at=north&box=2599000,1199000,2602000,1201000",
            "design?at=north",
        ):
            self.assertEqual(200, self.ask(f"/api/{path}", self.token)[0], path)
        now = json.loads(self.ask("/api/feature?at=north&table=7&number=5", self.token)[1])["now"]
        self.assertEqual("50", now["attributes"]["dn"])
        # What the journal has not told yet is not written over either.
        drop = json.dumps({"do": "drop", "at": "north", "seen": seen, "epoch": epoch}).encode()
        self.assertEqual(409, self.ask("/api/batch", self.token, drop)[0])
        self.assertLess(time.monotonic() - begun, LONGEST_WAIT)
        self.assertEqual(attributes(dn=50, mat="PVC"), other.get("north", 7, 5))
