"""Tests of the desk: a field office."""
import http.client
import importlib.util
import json
import os
import re
import subprocess
import sys
import threading
import time
import unittest
import unittest.mock
from pathlib import Path

from selenium.webdriver.common.action_chains import ActionChains
from selenium.webdriver.common.by import By
from selenium.webdriver.common.keys import Keys

from altctl import Store
from desk_tests.support import ALTCTL, DESK, LONGEST_WAIT, AskingTest, attributes


class OfficeTest(AskingTest):
    """HEAD with twelve ducts, its service, and the desk of an office that has taken north along. The link to HEAD is
    held as long as a file is there."""

    def fill(self):
        self.file, self.clone = os.path.join(self.folder, "head.alt"), self.file
        super().fill()
        self.head_service = self.serve()
        self.file, self.head = self.clone, f"unix:{self.file}.sock"
        self.held, self.asked, link = (Path(self.folder, it) for it in ("held", "asked", "link"))
        link.write_text(
            f"#!{sys.executable}\nimport os, socket, threading, time\n"
            f"open('{self.asked}', 'a').close()\n"
            f"while os.path.exists('{self.held}'): time.sleep(0.02)\n"
            f"there = socket.socket(socket.AF_UNIX); there.connect('{self.head[5:]}')\n"
            "def back():\n    while came := there.recv(65536): os.write(1, came)\n    os._exit(0)\n"
            "threading.Thread(target=back, daemon=True).start()\n"
            "while came := os.read(0, 65536): there.sendall(came)\n"
        )
        link.chmod(0o755)
        changed = unittest.mock.patch.dict(os.environ, ALTCARRY_SSH=str(link), ALTCTL=ALTCTL)
        changed.start()
        self.addCleanup(changed.stop)
        self.by_hand("clone", "ssh:head:map.sock", self.file, "north", "--office", "anna")
        self.asked.unlink()

    def by_hand(self, *words):
        words = [sys.executable, str(DESK / "altcarry"), *words]
        subprocess.run(words, check=True, stdout=subprocess.DEVNULL)

    def at_head(self):
        store = Store(self.head)
        self.addCleanup(store.close, quietly=True)
        return store

    def state(self):
        return json.loads(self.ask("/api/state", self.token)[1])

    def office(self):
        return self.state()["office"]

    def designs(self):
        return [[it["name"], it["checkpoints"]] for it in self.state()["tree"]]

    def news(self):
        return [it["text"] for it in self.state()["news"]]

    def follow(self, store):
        """Waits until the desk has seen what was done in its store up to now."""
        late = time.monotonic() + LONGEST_WAIT
        while self.state()["batch"] != store.batches():
            self.assertLess(time.monotonic(), late)
            time.sleep(0.02)

    def desk_at_head(self):
        """Lets the test ask a desk of HEAD from now on. Gives its address."""
        _, url = self.desk(self.head[5:])
        self.port, self.token = re.search(r":(\d+)/#token=(\S+)", url).groups()
        return url

    def until(self, is_so):
        """What the office shows once it is so, and nothing runs."""
        late = time.monotonic() + LONGEST_WAIT
        while True:
            office = self.office()
            if office and not office["running"] and is_so(office):
                return office
            self.assertLess(time.monotonic(), late, office)
            time.sleep(0.05)

    def counts(self, office):
        return {it["design"]: (it["ahead"], it["behind"]) for it in office["designs"]}

    def carry(self, do, *designs):
        status, text = self.ask("/api/office", self.token, json.dumps({"do": do, "designs": designs}).encode())
        self.assertEqual(200, status, text)
        return json.loads(text)


class OfficeTests(OfficeTest):
    def test_each_design_has_what_is_ahead_and_behind(self):
        office = self.until(lambda it: it["designs"])
        self.assertEqual(("anna", "ssh:head:map.sock"), (office["name"], office["head"]))
        self.assertEqual({"top": (0, None), "north": (0, None)}, self.counts(office))
        self.assertEqual(["What came at HEAD is not known yet: look, or pull."], office["said"])
        head, store = self.at_head(), self.store()
        head.put("top", 7, 1, attributes(dn=1))
        head.put("top", 7, 2, attributes(dn=1))
        head.put("north", 7, 3, attributes(dn=1))
        store.put("north", 7, 3, attributes(dn=2))
        store.put("north", 7, 4, attributes(dn=2))
        store.new("yard", "top")
        # What is ahead is counted after each batch; HEAD is asked when somebody wants to know.
        office = self.until(lambda it: len(it["designs"]) == 3 and self.counts(it)["north"][0] == 2)
        self.assertEqual({"top": (0, None), "north": (2, None), "yard": (None, None)}, self.counts(office))
        self.assertFalse(self.asked.exists())
        others = {"yard": (None, None), "south": (None, None)}
        office = self.carry("look")
        self.assertTrue(self.asked.exists())
        self.assertEqual({"top": (0, 2), "north": (2, 1), **others}, self.counts(office))
        self.assertEqual([0, 1, 0, 0], [it["conflicts"] for it in office["designs"]])
        self.assertEqual((["This is what HEAD has now."], False), (office["said"], office["is_fault"]))
        store.remove("north", 7, 4)
        self.until(lambda it: self.counts(it)["north"] == (2, 1))
        store.put("north", 7, 4, attributes(dn=110, mat="PVC"))
        self.until(lambda it: self.counts(it)["north"] == (1, 1))

    def test_pull_and_push(self):
        head, store = self.at_head(), self.store()
        self.until(lambda it: it["designs"])
        head.put("north", 7, 3, b"{}")
        store.put("north", 7, 4, b"{}")
        store.new("yard", "top")
        office = self.carry("pull")
        self.assertEqual((False, {"top": (0, 0), "north": (1, 0), "yard": (None, None), "south": (None, None)}),
                         (office["is_fault"], self.counts(office)))
        self.assertEqual(b"{}", store.get("north", 7, 3))
        self.assertEqual(attributes(dn=110, mat="PVC"), head.get("north", 7, 4))
        self.assertEqual(["edited north", "new yard top", "the office anna pulled or pushed"], self.news())
        office = self.carry("push", "north", "yard")
        self.assertEqual((["north: pushed", "yard: pushed"], False), (office["said"], office["is_fault"]))
        self.assertEqual(b"{}", head.get("north", 7, 4))
        self.assertIn("yard", [it.name for it in head.alternatives()])
        self.assertEqual(["HEAD has nothing new."], self.carry("pull")["said"])
        self.carry("pull", "south")
        self.assertEqual(["top", "north", "yard", "south"], [it["name"] for it in self.state()["tree"]])
        # At HEAD, too, a push is told as one.
        self.desk_at_head()
        self.follow(head)
        head.put("south", 7, 1, b"{}")
        store.put("north", 7, 6, b"{}")
        self.by_hand("push", self.file, "north")
        self.follow(head)
        self.assertEqual(["edited south", "the office anna pulled or pushed"], self.news())

    def test_names_of_offices_are_no_designs(self):
        self.until(lambda it: it["designs"])
        self.store().checkpoint("north", "monday")
        self.follow(self.store())
        self.assertEqual([["top", []], ["north", ["monday"]]], self.designs())
        self.desk_at_head()
        self.assertEqual([["top", []], ["north", []], ["south", []]], self.designs())

    def test_where_there_is_no_clone_nothing_is_shown_or_done(self):
        url, before = self.desk_at_head(), self.at_head().batches()
        self.assertIsNone(self.office())
        for do in ("look", "pull", "push"):
            self.assertIsNone(self.carry(do, "north"))
        self.assertEqual(before, self.at_head().batches())
        # A page that knows all there is waits for news.
        time.sleep(1)
        question, told = f"/api/state?after={self.state()['batch']}&office=0", []
        asking = threading.Thread(target=lambda: told.append(self.ask(question, self.token)))
        asking.start()
        asking.join(2)
        self.assertEqual([], told)
        self.at_head().put("south", 7, 1, b"{}")
        asking.join(LONGEST_WAIT)
        self.assertEqual(200, told[0][0])
        browser = self.browser()
        browser.open(url)
        self.assertFalse(browser.one("#office").is_displayed())

    def test_who_gets_in(self):
        self.until(lambda it: it["designs"])
        self.store().put("north", 7, 4, b"{}")
        head, body = self.at_head(), json.dumps({"do": "push", "designs": ["north"]}).encode()
        before = head.batches()
        for token in (None, "", "x", self.token[:-1]):
            self.assertEqual(403, self.ask("/api/office", token, body)[0], token)
        for headers in ({"Origin": "http://evil.example"}, {"Origin": "null"}, {"Host": "evil.example"}):
            self.assertEqual(403, self.ask("/api/office", self.token, body, **headers)[0], headers)
        self.assertEqual(415, self.ask("/api/office", self.token, body, Content_Type="text/plain")[0])
        self.assertEqual(405, self.ask("/api/office", self.token)[0])
        wrong = b'{"do":"forget"}', b'{"do":"push","designs":[1]}', b'{"do":"push","designs":7}'
        for body in (b"", b"{", b"[]", b"{}", *wrong):
            self.assertEqual(400, self.ask("/api/office", self.token, body)[0], body)
        self.assertEqual(before, head.batches())
        self.assertEqual({"north": (1, 0), "top": (0, 0), "south": (None, None)}, self.counts(self.carry("look")))

    def test_rules_of_the_service_hold(self):
        if not any(map(importlib.util.find_spec, ("tomllib", "tomli"))):
            self.skipTest("neither tomllib nor tomli is there")
        self.until(lambda it: it["designs"])
        self.first.terminate()
        self.first.wait()
        Path(f"{self.file}.rules").write_text('[change]\nnorth = ["*"]')
        _, url = self.desk()
        self.port, self.token = re.search(r":(\d+)/#token=(\S+)", url).groups()
        self.until(lambda it: it["designs"])
        self.at_head().put("north", 7, 3, b"{}")
        office = self.carry("pull")
        self.assertEqual((True, 1), (office["is_fault"], len(office["said"])))
        self.assertIn("you may not do that in the clone", office["said"][0])
        self.assertEqual(attributes(dn=110, mat="PVC"), self.store().get("north", 7, 3))

    def test_a_second_press_does_nothing_and_the_page_goes_on(self):
        head, store = self.at_head(), self.store()
        self.until(lambda it: it["designs"])
        head.put("top", 7, 3, b"{}")
        store.put("north", 7, 4, b"{}")
        before = [it.batch for it in head.log()]
        self.held.touch()
        answers = []
        press = threading.Thread(target=lambda: answers.append(self.carry("pull")))
        press.start()
        late = time.monotonic() + LONGEST_WAIT
        while self.office()["running"] != "pull":
            time.sleep(0.02)
            self.assertLess(time.monotonic(), late)
        for do, designs in (("push", ["north"]), ("pull", []), ("look", [])):
            self.assertEqual("pull", self.carry(do, *designs)["running"])
        # Meanwhile the desk draws and edits.
        begun = time.monotonic()
        self.assertEqual(200, self.ask("/api/window?at=north&box=2600000,1200000,2601000,1201000", self.token)[0])
        self.assertEqual(200, self.ask("/api/design?at=north", self.token)[0])
        self.assertLess(time.monotonic() - begun, 5)
        self.assertEqual([], answers)
        self.held.unlink()
        press.join(LONGEST_WAIT)
        self.assertEqual((["top: 1 changes came"], None), (answers[0]["said"], answers[0]["running"]))
        self.assertEqual(attributes(dn=110, mat="PVC"), head.get("north", 7, 4))
        came = [it.line for it in head.log() if it.batch not in before]
        self.assertEqual(1, sum(it.startswith("checkpoint north ") for it in came), came)

    def test_the_desk_ends_while_a_link_is_silent(self):
        self.until(lambda it: it["designs"])
        self.held.touch()
        there = http.client.HTTPConnection("127.0.0.1", int(self.port))
        self.addCleanup(there.close)
        headers = {"X-Desk-Token": self.token, "Content-Type": "application/json"}
        there.request("POST", "/api/office", b'{"do":"pull"}', headers)
        late = time.monotonic() + LONGEST_WAIT
        while self.office()["running"] != "pull":
            time.sleep(0.02)
            self.assertLess(time.monotonic(), late)
        self.first.terminate()
        self.assertEqual(0, self.first.wait(LONGEST_WAIT))
        self.held.unlink()

    def test_a_link_that_is_not_there(self):
        self.until(lambda it: it["designs"])
        self.store().put("north", 7, 4, b"{}")
        self.head_service.terminate()
        self.head_service.wait()
        for do in ("look", "pull", "push"):
            office = self.carry(do, *(["north"] if do == "push" else []))
            self.assertEqual((True, True), (office["is_fault"], "The link to HEAD broke" in office["said"][-1]), office)
            self.assertEqual((1, None), self.counts(office)["north"])
        self.launch([sys.executable, str(DESK / "altserve"), "--program", ALTCTL, self.head[5:-5]], ": batches to ")
        self.assertEqual((1, 0), self.counts(self.carry("look"))["north"])
        self.assertEqual(["north: pushed"], self.carry("push", "north")["said"])

    def test_refusals_are_told(self):
        head, store = self.at_head(), self.store()
        self.until(lambda it: it["designs"])
        store.new("south", "top")
        office = self.carry("push", "south")
        self.assertEqual((True, ["HEAD has another design south: choose another name for this one"]),
                         (office["is_fault"], office["said"]))
        self.assertEqual(["there is no design east here"], self.carry("push", "east")["said"])
        self.assertEqual(["HEAD has no design east"], self.carry("pull", "east")["said"])
        for alt in ("top", "north"):
            for it in [it for it in head.checkpoints(alt) if it.startswith(".office.")]:
                head.uncheck(alt, it)
        head.drop(".office.anna")
        for do in ("look", "pull", "push"):
            office = self.carry(do, *(["north"] if do == "push" else []))
            self.assertEqual(1, len(office["said"]), office)
            self.assertIn("HEAD knows no office anna", office["said"][0])

    def test_steps_of_others_are_seen(self):
        head = self.at_head()
        self.until(lambda it: it["designs"])
        head.put("north", 7, 3, b"{}")
        self.assertEqual((0, 1), self.counts(self.carry("look"))["north"])
        self.by_hand("pull", self.file)
        office = self.until(lambda it: self.counts(it)["north"] != (0, 1))
        self.assertEqual((0, None), self.counts(office)["north"])

    def test_pages_are_told_what_runs_and_what_came_of_it(self):
        version = self.until(lambda it: it["designs"])["version"]
        batch = self.store().batches()
        begun, told, question = time.monotonic(), [], f"/api/state?after={batch}&office={version}"
        asking = threading.Thread(target=lambda: told.append(self.ask(question, self.token)))
        asking.start()
        time.sleep(0.5)
        self.assertEqual([], told)
        self.carry("look")
        asking.join(LONGEST_WAIT)
        self.assertLess(time.monotonic() - begun, 15)
        self.assertGreater(json.loads(told[0][1])["office"]["version"], version)


class OfficePageTests(OfficeTest):
    def opened(self):
        browser = self.browser()
        browser.open(f"http://127.0.0.1:{self.port}/#token={self.token}")
        browser.until(lambda: browser.one("#office").is_displayed() and len(browser.all("#office-designs tr")) == 2)
        browser.click("#office-look")
        browser.says("This is what HEAD has now.", "#office-said")
        return browser

    def rows(self, browser):
        rows = [it.find_elements(By.CSS_SELECTOR, "th, td") for it in browser.all("#office-designs tr")]
        return [[cell.text for cell in cells[:3]] for cells in rows]

    def test_a_conflict_is_pulled_settled_and_pushed_by_mouse(self):
        head, browser = self.at_head(), self.opened()
        self.assertEqual("Field office anna\nof ssh:head:map.sock", browser.text("#office-title"))
        due = [["top", "0", "0"], ["north", "0", "0"], ["south\nonly at HEAD", "–", "–"]]
        self.assertEqual(due, self.rows(browser))
        browser.choose_design("north")
        browser.edit(5, dn=125)
        browser.confirm()
        browser.until(lambda: self.rows(browser)[1] == ["north", "1", "0"])
        head.put("north", 7, 5, attributes(dn=160, mat="PVC"))
        browser.click("#office-look")
        browser.until(lambda: self.rows(browser)[1] == ["north\n1 in conflict", "1", "1"])
        browser.click("#office-pull")
        browser.says("Your changes are the design north.anna now", "#office-said")
        browser.until(lambda: "Settle north.anna" in [it.text for it in browser.all("#office-settle button")])
        browser.size(1120, 860)
        browser.picture("desk-office")
        browser.size(1120, 680)
        browser.click("[id='office-settle-north.anna']")
        browser.until(lambda: browser.text("#chosen").startswith("north.anna,"))
        browser.says("north.anna and north have both changed these.", "#open")
        browser.click("input[value=mine]")
        browser.click("#do-merge")
        browser.confirm()
        browser.says("Merged north into north.anna.")
        browser.click("#do-post")
        browser.confirm()
        browser.says("Posted north.anna into north.")
        browser.click("#do-drop")
        browser.confirm()
        browser.says("Dropped north.anna.")
        browser.until(lambda: not browser.all("#office-settle button"))
        browser.click("#office-push-north")
        browser.until(lambda: "HEAD then has what north has." in browser.text("#question-text"))
        self.assertEqual(attributes(dn=160, mat="PVC"), head.get("north", 7, 5))
        browser.confirm()
        browser.says("north: pushed", "#office-said")
        self.assertEqual(attributes(dn=125, mat="PVC"), head.get("north", 7, 5))
        browser.until(lambda: self.rows(browser)[1] == ["north", "0", "0"])
        browser.click("#office-pull-south")
        browser.says("south: new here", "#office-said")
        browser.until(lambda: self.rows(browser)[2] == ["south", "0", "0"])
        self.assertEqual([], browser.faults())

    def test_by_keyboard_and_for_screen_readers(self):
        head, browser = self.at_head(), self.opened()
        self.store().put("north", 7, 4, attributes(dn=1))
        head.put("top", 7, 3, attributes(dn=1))
        browser.until(lambda: self.rows(browser)[1] == ["north", "1", "0"])
        due = [("#office", "region", "Field office anna"), ("#office-said", "status", "")]
        due += [("#office-push-north", "button", "Push north"), ("#office-pull-south", "button", "Pull south")]
        for its, role, name in due:
            node = browser.one(its)
            self.assertEqual((role, True), (node.aria_role, name in node.accessible_name), its)
        self.held.touch()
        browser.run("document.getElementById('office-look').focus()")
        self.press(browser, Keys.TAB)
        self.assertEqual("office-pull", self.focused(browser))
        self.press(browser, Keys.ENTER)
        browser.says("Pulling from HEAD…", "#office-said")
        # The button keeps the focus, says that it does nothing, and does nothing.
        self.assertEqual("office-pull", self.focused(browser))
        self.assertEqual("true", browser.one("#office-pull").get_attribute("aria-disabled"))
        self.press(browser, Keys.ENTER, Keys.SPACE)
        browser.run("document.getElementById('office-push-north').click()")
        self.assertFalse(browser.one("#question").is_displayed())
        self.held.unlink()
        browser.says("top: 1 changes came", "#office-said")
        self.assertEqual("office-pull", self.focused(browser))
        for _ in range(9):
            if self.focused(browser) == "office-push-north":
                break
            self.press(browser, Keys.TAB)
        self.press(browser, Keys.SPACE)
        browser.until(lambda: browser.one("#question-yes").is_displayed())
        browser.run("document.getElementById('question-yes').focus()")
        self.press(browser, Keys.ENTER)
        browser.says("north: pushed", "#office-said")
        self.assertEqual(attributes(dn=1), head.get("north", 7, 4))

    def focused(self, browser):
        return browser.run("return document.activeElement.id")

    def press(self, browser, *keys):
        ActionChains(browser.driver).send_keys(*keys).perform()

    def test_a_refusal_is_shown_as_one(self):
        browser = self.opened()
        self.head_service.terminate()
        self.head_service.wait()
        browser.click("#office-pull")
        browser.says("The link to HEAD broke", "#office-said")
        self.assertIn("fault", browser.one("#office-said").get_attribute("class"))
