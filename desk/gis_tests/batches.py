"""An import through a service that is more than one batch: nobody sees a part of it, and whoever ends before the last
batch has changed nothing. The limits are small here, so a few thousand features are several batches."""
import contextlib
import io
import os
import signal
import unittest.mock
from pathlib import Path

from gis import staging
from gis.formats import set_up
from gis.words import carry_out, read_words
from gis_tests.cases import ALTCTL, DUCTS, AltgisCase, change, polygon, write

import maps
from altctl import Store

COUNT = 1500


class BatchesTests(AltgisCase):
    def setUp(self):
        super().setUp()
        set_up()
        features = [(it, {"dn": it % 200, "mat": "PVC"}, f"POINT ({it} 2)") for it in range(1, COUNT + 1)]
        write(self.file("a.gpkg"), "ducts", DUCTS, [*features, (9000, {"dn": 1}, polygon(3000))])

    def bring_in(self, *words, alt="top", send=staging.Staging.send):
        """An import in this process, in batches of at most 500 lines. Gives what it tells."""
        words = ["import", self.address, self.file("a.gpkg"), "--alt", alt, "--table", "7", *words]
        small = {"ONE_BATCH": (1000, 10**6), "PORTION": (500, 10**6)}
        told = io.StringIO()
        with unittest.mock.patch.multiple(staging, **small), unittest.mock.patch.object(staging.Staging, "send", send):
            with unittest.mock.patch.dict(os.environ, ALTCTL=ALTCTL), contextlib.redirect_stdout(told):
                carry_out(read_words(words))
        return told.getvalue()

    def planner(self):
        found = Store(self.address)
        self.addCleanup(found.close, quietly=True)
        return found

    def there_is_no_trace(self, store):
        self.assertEqual([], [it.name for it in store.alternatives() if it.name.startswith(".import-")])

    def test_it_is_there_with_the_last_batch(self):
        """The map, then another state of it with a checkpoint, and then the same once more."""
        self.address = self.service()
        store, seen = self.planner(), []

        def send(its):
            its_own = [it.name for it in store.alternatives() if it.name.startswith(".import-")]
            seen.append((len(its_own), len(list(store.list("top", 7)))))
            staging_send(its)

        staging_send = staging.Staging.send
        self.assertIn(f"{COUNT + 1} added", self.bring_in(send=send))
        self.assertEqual([(1, 0)], seen)
        change(self.file("a.gpkg"), "DELETE FROM ducts WHERE fid <= 400")
        change(self.file("a.gpkg"), "UPDATE ducts SET dn = dn + 1 WHERE fid < 9000")
        told = self.bring_in("--sync", send=send)
        self.assertIn(f"0 added, {COUNT - 400} changed, 400 removed, 1 same", told)
        self.assertEqual((1, COUNT + 1), seen[1])
        self.assertIn("checkpoint before-import-1 of top has what was there before", told)
        self.assertEqual(COUNT + 1, len(list(store.list("top@before-import-1", 7))))
        self.altgis("export", self.address, "top", self.file("out.gpkg"))
        self.equal(COUNT - 399, (self.file("a.gpkg"), "ducts"), (self.file("out.gpkg"), "ducts"))
        batch = store.batches()
        self.assertIn(f"{COUNT - 399} same", self.bring_in())
        self.assertEqual(batch, store.batches())
        self.there_is_no_trace(store)
        entries = list(store.log())
        sizes = [sum(it.batch == number for it in entries) for number in {it.batch for it in entries}]
        self.assertLessEqual(max(sizes), 510)
        self.assertEqual(2, sum(it.line.startswith("post .import-") for it in entries))
        self.assertIn("import into top: dn: 100 to 101\n", self.altgis("history", self.address, "7:500"))
        # The index of 1,501 features has 10 pages and one record of their bounds, and of 1,101 features 7 pages.
        lines = [it.line for it in entries if it.planner == ".service"]
        self.assertEqual(["renew .places 0", "renew .places 11", "renew .places 8"], lines)

    def test_others_go_on_meanwhile(self):
        """What they have changed stays, except in records of the import."""
        self.address = self.service()
        self.bring_in()
        store = self.planner()
        fields = maps.Fields(maps.layers(store, "top")[7])
        store.new("north", "top")
        change(self.file("a.gpkg"), "UPDATE ducts SET dn = 0 WHERE fid <= 1000 OR fid = 9000")
        staging_send = staging.Staging.send

        def send(its):
            for number in (1, 1400, 1600):
                store.put("north", 7, number, fields.packed({"dn": 77}))
            staging_send(its)

        self.bring_in(alt="north", send=send)
        found = [fields.named(store.get("north", 7, it)).get("dn") for it in (1, 2, 1400, 1600, 9000)]
        self.assertEqual([0, 0, 77, 77, 0], found)
        # Five of the thousand had a 0 before.
        self.assertEqual((1000 - 5 + 1 + 2, 0, 0), store.tally("north")[:3])
        self.there_is_no_trace(store)

    def test_what_is_refused_leaves_all_as_it_was(self):
        """A store that is full, a right that is missing, and another import that has come in between."""
        self.create(64)
        Path(f"{self.store}.rules").write_text('grow = ["*"]\n[change]\ntop = ["*"]\n')
        self.address = self.service()
        store = self.planner()
        with self.assertRaisesRegex(maps.Fault, "Denied.* needs the rights .* nothing was changed"):
            self.bring_in()
        rules = "".join(f'[{it}]\n".*" = ["*"]\ntop = ["*"]\n' for it in ("change", "post", "drop"))
        Path(f"{self.store}.rules").write_text('grow = ["*"]\n' + rules)
        self.serving.send_signal(signal.SIGHUP)
        with self.assertRaisesRegex(maps.Fault, f"of {COUNT + 1} features had room, .* nothing was changed"):
            self.bring_in()
        self.there_is_no_trace(store)
        self.assertEqual([], list(store.list("top")))

        def send(its):
            store.drop(its.at)
            its._send_portions()

        with self.assertRaisesRegex(maps.Fault, "another import into top has dropped .import-.*; nothing was changed"):
            self.bring_in("--grow", send=send)
        self.assertIn(f"{COUNT + 1} added", self.bring_in("--grow"))
        self.assertEqual(COUNT + 1, len(list(store.list("top", 7))))
        self.there_is_no_trace(store)
