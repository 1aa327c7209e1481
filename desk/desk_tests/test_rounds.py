"""Two planners in two browsers draw, move, change, delete and undo the same ducts of one design, round after round:
both look, and then both send at the same moment. Nothing is lost, and each refusal is told on the page. The variable
ROUNDS says how many rounds (12); 200 take half an hour."""
import os
import random
import sys
import threading
import time
from concurrent.futures import ThreadPoolExecutor

from selenium.webdriver.common.by import By

from desk_tests.ducts import Ducts, records_of
from desk_tests.support import PlanningTest

ROUNDS = int(os.environ.get("ROUNDS", "12"))
WATCHED = 4  # Every so many rounds one planner watches what the other one does.
LATE = "it has changed meanwhile: look at it again"
BLOCKED = "somebody has changed that since"
TOLD = {"fields": "Changed ducts {}.", "move": "Moved ducts {}.", "delete": "Deleted ducts {}."}
DRAWN = "Drew a new feature of ducts."


class Planner:
    """One of them at a page."""

    def __init__(self, name, test, page, chance):
        self.name, self.test, self.page, self.chance = name, test, page, chance

    # --- what is to be sent -----------------------------------------------------------------------

    def prepare(self, edit):
        """Does all of an edit but the last click, and gives what to click."""
        return getattr(self, f"prepare_{edit['what']}")(edit)

    def prepare_fields(self, edit):
        self.page.edit(edit["number"], **edit["fields"])
        return self.asked()

    def prepare_delete(self, edit):
        self.page.find(edit["number"])
        self.page.click("#delete")
        return self.asked()

    def asked(self):
        self.page.until(lambda: self.page.all("#question-yes")[0].is_displayed())
        return "#question-yes"

    def prepare_move(self, edit):
        self.page.find(edit["number"])
        self.look_from_afar()
        self.page.click("#reshape")
        self.page.until(lambda: self.stands_still(edit["to"]))
        self.test.drag(self.page, f"#bend-0-{edit['end']}", edit["to"])
        return "#keep-course"

    def look_from_afar(self):
        """Has the map so that no chamber is near its edge: the map would move on if a bend is dragged there."""
        self.page.click("#whole")
        whole = self.page.text("#scale")
        self.page.click(".leaflet-control-zoom-out")
        self.page.until(lambda: self.page.text("#scale") != whole)

    def stands_still(self, at):
        """The map moves if what the page says above it gets longer or shorter."""
        before = self.test.pixel(self.page, at)
        time.sleep(0.2)
        return self.test.pixel(self.page, at) == before

    def prepare_draw(self, edit):
        self.look_from_afar()
        self.page.click("#draw")
        for it in edit["course"]:
            self.page.until(lambda: self.stands_still(it))
            self.test.press_at(self.page, it)
        self.page.click("#end-drawing:enabled")
        self.page.one("#view input[name=dn]").send_keys(str(edit["fields"]["dn"]))
        return "#save"

    def send(self, selector):
        """The last click. Gives what the page says then."""
        self.page.run("document.getElementById('said').textContent = ''")
        self.page.click(selector)
        return self.page.until(lambda: self.page.all("#said")[0].text)

    # --- an edit that was too late ------------------------------------------------------------------

    def rows(self):
        cells = [row.find_elements(By.CSS_SELECTOR, "th, td") for row in self.page.all("#late tbody tr")]
        return sorted([it.text for it in row] for row in cells)

    def choose(self, sides):
        """Chooses a side for each row, and sends that."""
        for title, side in sides.items():
            self.page.run(
                "const its = [...document.querySelectorAll('#late input')];"
                "its.find((it) => it.name.trim() === arguments[0] && it.value === arguments[1]).click()", title, side
            )
        return self.send("#late-save")

    def leave(self):
        self.page.click("#late-drop")
        self.page.until(lambda: not self.page.all("#late form"))


class RoundsTests(PlanningTest):
    def setUp(self):
        super().setUp()
        self.serve()
        self.reader, self.chance = self.store(), random.Random(ROUNDS)
        self.anna, self.berta = (self.planner(it) for it in ("anna", "berta"))
        self.both = [self.anna, self.berta]
        self.model = Ducts(records_of(self.reader, "north"), ("anna", "berta"))
        self.given, self.late, self.blocked, self.seconds = set(self.model.numbers()), 0, 0, []

    def planner(self, name):
        page = self.browser()
        page.open(self.desk(self.socket)[1])
        page.choose_design("north")
        return Planner(name, self, page, self.chance)

    def test_nothing_is_lost_and_each_refusal_is_told(self):
        begun = self.reader.batches()
        for at in range(1, ROUNDS + 1):
            edits = [self.an_edit(it, at) for it in self.both]
            self.send_both(edits)
            self.as_in_the_model(at, edits)
            self.turn_back(self.chance.choice(self.both))
            self.as_in_the_model(at)
            if at % WATCHED == 0:
                self.watch(*self.chance.sample(self.both, 2), at)
                self.as_in_the_model(at)
            if at % 20 == 0 or at == ROUNDS:
                print(self.told(at), file=sys.stderr, flush=True)
        for it in self.both:
            self.lists_the_changes(it.page)
            self.assertEqual([], it.page.faults())
        entries = list(self.reader.log(after=begun, alternative="north"))
        self.assertEqual(self.model.edits, len({it.batch for it in entries}), "each edit is a batch, and nothing else")

    def told(self, rounds):
        its = sorted(self.seconds or [0])
        seen = f"from the click until the other one sees it {its[len(its) // 2]:.2f} s, {its[-1]:.2f} s at most"
        return f"{rounds} rounds: {self.model.edits} edits, {self.late} too late, {self.blocked} not undone; {seen}"

    # --- what they do -------------------------------------------------------------------------------------

    def an_edit(self, planner, at):
        """What one of them does in a round. Both often take the same duct."""
        there = self.model.numbers()
        kinds = ["fields", "fields", "move", "move", "draw", "delete"] if len(there) > 3 else ["fields", "move", "draw"]
        what = self.chance.choice(kinds)
        own = 1000 * (1 + self.both.index(planner)) + at
        if what == "draw":
            return {"what": what, "course": self.places(2), "fields": {"dn": own}}
        number = there[at % len(there)] if self.chance.random() < 0.7 else self.chance.choice(there)
        edit = {"what": what, "number": number}
        if what == "fields":
            names = self.chance.choice((["dn"], ["mat"], ["dn", "mat"]))
            edit["fields"] = {name: own if name == "dn" else f"{planner.name} {at}" for name in names}
        if what == "move":
            course, end = self.model.course(edit["number"]), self.chance.choice((0, 1))
            [to] = self.places(1, *course)
            edit.update(end=end, to=to, course=[to if it == end else course[it] for it in (0, 1)])
        return edit

    def places(self, count, *but):
        """Chambers that a course may end in."""
        return self.chance.sample([it for it in map(self.chamber, range(1, 13)) if it not in but], count)

    def send_both(self, edits):
        """Both look, and send at the same moment."""
        with ThreadPoolExecutor(2) as pool:
            last = list(pool.map(Planner.prepare, self.both, edits))
            barrier = threading.Barrier(2)

            def send(planner, selector):
                barrier.wait(60)
                return planner.send(selector)

            said = list(pool.map(send, self.both, last))
        seen = dict(self.model.now)
        is_same = len({it.get("number", number) for number, it in enumerate(edits, -2)}) == 1
        done = [it != LATE for it in said]
        self.assertIn(sum(done), (1,) if is_same else (2,), (edits, said))
        for planner, edit, text, is_done in zip(self.both, edits, said, done):
            if is_done:
                self.assertEqual(TOLD.get(edit["what"], DRAWN).format(edit.get("number")), text)
                self.take(planner, edit)
        for planner, edit, is_done in zip(self.both, edits, done):
            if not is_done:
                self.settle(planner, edit, seen)

    def take(self, planner, edit):
        """The model has what a planner was told to be done."""
        if edit["what"] == "delete":
            self.model.remove(planner.name, edit["number"])
        else:
            number = edit.get("number") or self.new_number(edit)
            self.model.change(planner.name, number, edit.get("fields"), edit.get("course"))

    def new_number(self, edit):
        """The number of a duct that was drawn: the one that no other duct has had."""
        there = records_of(self.reader, "north")
        [number] = [it for (table, it), value in there.items() if table == 7 and it not in self.given
                    and value.get("dn") == edit["fields"].get("dn") and there[107, it] == edit["course"]]
        self.given.add(number)
        return number

    # --- who was too late -------------------------------------------------------------------------------------

    def settle(self, planner, edit, seen):
        """The page shows both, and the planner chooses."""
        self.late += 1
        number = edit["number"]
        planner.page.until(lambda: planner.page.all("#late form"))
        self.assertIn(f"Somebody was faster: ducts {number}", planner.page.text("#late"))
        saw = {"fields": seen[7, number], "course": seen[107, number]}
        mine = {"fields": {**saw["fields"], **edit.get("fields", {})}, "course": edit.get("course", saw["course"])}
        if number not in self.model.numbers():
            self.settle_gone(planner, edit, mine)
        elif edit["what"] == "delete":
            self.assertEqual([it[:3] for it in self.differences(saw, number, saw)], planner.rows())
            self.choose_or_leave(planner, lambda: planner.choose({}), f"Deleted ducts {number}.", edit)
        else:
            self.settle_changed(planner, number, saw, mine)

    def settle_gone(self, planner, edit, mine):
        is_delete = edit["what"] == "delete"
        due = "Somebody has deleted it already." if is_delete else "Somebody has deleted it. Your edit is not made."
        self.assertIn(due, planner.page.text("#late"))
        if is_delete:
            planner.leave()
        else:
            self.choose_or_leave(planner, lambda: planner.choose({}), DRAWN, {"what": "draw", **mine})

    def choose_or_leave(self, planner, choose, due, edit):
        if self.chance.random() < 0.3:
            planner.leave()
        else:
            self.assertEqual(due, choose())
            self.take(planner, edit)

    def settle_changed(self, planner, number, saw, mine):
        rows = self.differences(saw, number, mine)
        self.assertEqual(rows, planner.rows())
        sides = {title: self.chance.choice(("mine", "theirs")) for title, *_ in rows}
        chosen = [title for title, side in sides.items() if side == "mine"]
        fields = {name: mine["fields"].get(name) for name in chosen if name != "course"}
        edit = {"what": "fields", "number": number, "fields": fields}
        if "course" in chosen:
            edit["course"] = mine["course"]
        self.choose_or_leave(planner, lambda: planner.choose(sides), f"Changed ducts {number}.", edit)

    def differences(self, saw, number, mine):
        """The rows that the page has to show: what theirs or mine has otherwise than what was seen."""
        theirs, rows = {"fields": self.model.fields(number), "course": self.model.course(number)}, []
        for name in ("dn", "mat"):
            its = [side["fields"].get(name) for side in (saw, theirs, mine)]
            if len(set(its)) > 1:
                rows.append([name, *("–" if it is None else str(it) for it in its)])
        moved = [side["course"] != saw["course"] for side in (saw, theirs, mine)]
        if any(moved):
            rows.append(["course", *("line, 2 points" + ", moved" * it for it in moved)])
        return sorted(rows)

    # --- undoing, and watching ------------------------------------------------------------------------------------

    def turn_back(self, planner):
        """Undoes and does again, or is told why not."""
        for name, steps, turn, done in (
            ("undo", self.model.done, self.model.undo, "Undone: "),
            ("redo", self.model.undone, self.model.redo, "Done again: "),
        ):
            if not steps[planner.name] or self.chance.random() < 0.5:
                continue
            said = planner.send(f"#{name}-step")
            is_done = turn(planner.name)
            self.blocked += not is_done
            self.assertTrue(said.startswith(done if is_done else BLOCKED), said)

    def watch(self, planner, other, at):
        """One changes a duct that the other one has on the page, and looks how soon that is there."""
        number = self.chance.choice(self.model.numbers())
        other.page.find(number)
        edit = {"what": "fields", "number": number, "fields": {"dn": 5000 + at}}
        last, begun = planner.prepare(edit), time.monotonic()
        self.assertEqual(f"Changed ducts {number}.", planner.send(last))
        shown = "return [...document.querySelectorAll('#view tbody tr')].map((it) => it.lastChild.textContent)"
        other.page.until(lambda: str(5000 + at) in other.page.run(shown))
        self.seconds.append(time.monotonic() - begun)
        self.take(planner, edit)

    # --- what must be so ------------------------------------------------------------------------------------------

    def as_in_the_model(self, *when):
        """The store has what the planners were told, and both pages show how many records that are."""
        self.assertEqual(self.model.now, records_of(self.reader, "north"), when)
        for it in self.both:
            it.page.until(lambda: it.page.text("#tree tr:nth-child(2) td") == str(len(self.model.changed())))

    def lists_the_changes(self, page):
        page.click("#view-changes")
        due = sorted(f"ducts {number}: {state}" for number, state in self.model.states().items())
        page.until(lambda: due == sorted(it.text.split(" (")[0] for it in page.all("#view .rows button")))
