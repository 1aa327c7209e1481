"""An import fills leaves, whatever else the store has. By FORMATS.md a leaf has 4,080 bytes for records, and each takes
12 besides its value. Of the bookends that it needs for that nothing is left, however it ends."""
import signal
import sys

from gis_tests.cases import DESK, DUCTS, AltgisCase, write
from gis_tests.interrupting import IN_BATCHES

from altctl import Store

ROOM, RECORD, BEHIND = 4080, 12, 2**64 - 1
COUNT = 2500  # three portions
WORDS = ("--alt", "top", "--table", "7")
# altgis kills itself when the store has all features, and the bookends are about to be removed.
KILLED = f"""
import os, signal, sys
sys.path[:0] = [{str(DESK)!r}, {str(DESK.parent / "clients" / "python")!r}]
from gis import changes
make = changes.Changes.make

def make_or_be_killed(its, gone, put):
    if any(number == {BEHIND} for _, number in gone):
        its.wait()
        os.kill(os.getpid(), signal.SIGKILL)
    make(its, gone, put)

changes.Changes.make = make_or_be_killed
"""


def most_leaves(records):
    """How many leaves records take at most, if each leaf is left when the next record has no room in it."""
    sizes = [RECORD + len(it.value) for it in records]
    return sum(sizes) // (ROOM - max(sizes)) + 1


class FillingTests(AltgisCase):
    def ducts(self, name, first, count):
        features = [(it, {"dn": it, "mat": f"{it:0>170}"}, f"POINT ({it} 2)") for it in range(first, first + count)]
        write(self.file(f"{name}.gpkg"), name, DUCTS, features)
        return self.file(f"{name}.gpkg")

    def in_use(self):
        """How many blocks of data `top` takes alone."""

        def leave_top(store):
            for it in [it.name for it in store.alternatives() if it.parent]:
                store.drop(it)
            for it in list(store.checkpoints("top")):
                store.uncheck("top", it)

        def count(store):
            store.reclaim()
            return store.blocks() - 34 - store.free()

        self.ask(leave_top)
        return self.ask(count)

    def fills_leaves(self, counts):
        """Each table has so many features, and the store nothing else, in hardly more leaves than they fill."""
        tables = {}
        for it in self.ask(lambda store: list(store.list("top"))):
            tables.setdefault(it.table, []).append(it)
        due = {at: count for table, count in counts.items() for at in (table, table + 100)}
        self.assertEqual({0: len(counts), **due}, {table: len(its) for table, its in tables.items()})
        # Besides these the blocks above them, and leaves that bookends or the next table have cut in two.
        most = sum(map(most_leaves, tables.values())) + 1 + 2 * len(tables)
        self.assertLess(self.in_use(), most)

    def test_layers_in_any_order(self):
        """The second layer lies before the first one, and then the first one gets more features."""
        self.bring(self.ducts("eight", 1, COUNT), "eight", table=8)
        self.bring(self.ducts("seven", 1, COUNT), "seven", table=7)
        self.fills_leaves({7: COUNT, 8: COUNT})
        self.bring(self.ducts("eight_", COUNT + 1, COUNT), "eight_", "--name", "eight", table=8)
        self.fills_leaves({7: COUNT, 8: 2 * COUNT})

    def test_through_a_service(self):
        """As one batch, and then as several, into an alternative of their own."""
        service = self.service()
        self.altgis("import", service, self.ducts("eight", 1, COUNT), "--alt", "top", "--table", 8)
        seven = self.ducts("seven", 1, COUNT)
        ran = self.start([sys.executable, "-c", IN_BATCHES, "import", service, seven, *WORDS])
        self.assertIn(f"{COUNT} added", ran.stdout, ran.stderr)
        self.stop()
        self.fills_leaves({7: COUNT, 8: COUNT})

    def test_a_record_in_the_place_of_a_bookend(self):
        self.bring(self.ducts("seven", 1, 3), "seven", table=7)
        self.ask(lambda store: store.put("top", 107, BEHIND, b"mine"))
        self.bring(self.ducts("seven_", 4, COUNT), "seven_", "--name", "seven", table=7)
        found = self.ask(lambda store: [store.get("top", it, BEHIND) for it in (7, 107)])
        self.assertEqual([None, b"mine"], found)

    # --- nothing is left of them ----------------------------------------------------------------------

    def kill(self, program, store, file, *words):
        """Starts an import that is killed before it removes the bookends."""
        ran = self.start([sys.executable, "-c", KILLED + program, "import", store, file, *WORDS, *words])
        self.assertEqual(-signal.SIGKILL, ran.returncode, ran.stderr)

    def there_are_no_bookends(self, store):
        for it in store.alternatives():
            self.assertEqual([None, None], [store.get(it.name, table, BEHIND) for table in (7, 107)], it.name)

    def test_an_import_of_a_file_is_killed_between_them(self):
        self.bring(self.ducts("seven", 1, 3), "seven", table=7)
        before = self.ask(lambda store: list(store.list("top")))
        more = self.ducts("seven_", 4, COUNT)
        self.kill(IN_BATCHES, self.store, more, "--name", "seven")
        self.assertEqual(before, self.ask(lambda store: list(store.list("top"))))
        self.assertIn(f"{COUNT} added", self.bring(more, "seven_", "--name", "seven", table=7))
        self.ask(self.there_are_no_bookends)

    def test_an_import_of_one_batch_is_killed_between_them(self):
        service, file = self.service(), self.ducts("seven", 1, COUNT)
        as_one_batch = IN_BATCHES.replace("1000, 10**6", "90000, 10**8")
        self.kill(as_one_batch, service, file)
        with Store(service) as store:
            self.assertEqual((0, []), (store.batches(), list(store.list("top"))))
            self.altgis("import", service, file, *WORDS)
            self.there_are_no_bookends(store)

    def test_an_import_of_several_batches_is_killed_between_them(self):
        """They stay in the alternative of the import, which no design shows and the next import drops."""
        service, file = self.service(), self.ducts("seven", 1, COUNT)
        self.kill(IN_BATCHES, service, file)
        with Store(service) as store:
            [left] = [it.name for it in store.alternatives() if it.name.startswith(".import-")]
            self.assertEqual(2, sum(store.get(left, table, BEHIND) is not None for table in (7, 107)))
            self.assertEqual([], list(store.list("top")))
            ran = self.start([sys.executable, "-c", IN_BATCHES, "import", service, file, *WORDS])
            self.assertIn(f"{COUNT} added", ran.stdout, ran.stderr)
            self.assertEqual([], [it.name for it in store.alternatives() if it.name.startswith(".import-")])
            self.there_are_no_bookends(store)

    def test_the_journal_says_what_they_are(self):
        """Each is put and removed in the same batch, and nobody's history has it."""
        service = self.service()
        self.altgis("import", service, self.ducts("seven", 1, COUNT), *WORDS)
        with Store(service) as store:
            its = [it for table in (7, 107) for it in store.log(record=f"{table}:{BEHIND}")]
        self.assertEqual(["put", "remove"] * 2, [it.line.split()[0] for it in its])
        self.assertEqual(1, len({it.batch for it in its}))
        for it in its[::2]:
            self.assertIn(f" {BEHIND} bookend-of-an-import-which-removes-it-again---", it.line)
        self.assertNotIn("bookend", self.altgis("history", service, f"7:{BEHIND}"))
