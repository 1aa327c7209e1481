"""Tests of the desk: the page that tells how the service is."""
import json
import os
import signal
import subprocess
import sys
import unittest.mock
from pathlib import Path

from selenium.webdriver.common.action_chains import ActionChains
from selenium.webdriver.common.keys import Keys

import figures
from altctl import Store
from desk_tests.support import DESK, AskingTest, attributes


class ServicePageTests(AskingTest):
    def status(self):
        """What `altserve status` tells."""
        words = [sys.executable, str(DESK / "altserve"), "status", self.file]
        told = subprocess.run(words, stdout=subprocess.PIPE, text=True, check=True).stdout
        return dict(it.split() for it in told.splitlines())

    def opened(self, *size):
        browser = self.browser(*size)
        browser.open(f"http://127.0.0.1:{self.port}/#token={self.token}")
        browser.click("#service")
        browser.until(lambda: browser.all("#figures tr"))
        return browser

    def value(self, browser, name):
        """The value that is shown, as it came."""
        return float(browser.run("return document.querySelector(arguments[0]).dataset.value", f"#figure-{name} td"))

    def texts(self, browser, name):
        script = "return [...document.querySelectorAll(arguments[0])].map((it) => it.textContent)"
        return browser.run(script, f"#figure-{name} td")

    def line(self, browser, name):
        """What is said of the line of a figure, once there is one."""
        script = "return document.querySelector(arguments[0])?.getAttribute('aria-label')"
        return browser.until(lambda: browser.run(script, f"#figure-{name} svg"))

    def test_what_is_asked_of_the_service(self):
        status, text = self.ask("/api/status", self.token)
        told = json.loads(text)
        self.assertEqual((200, f"{self.file}.sock"), (status, told["file"]))
        found, due = {it["name"]: it["value"] for it in told["figures"]}, self.status()
        self.assertEqual([*due], [*found])
        for name in ("blocks", "alternatives", "last_batch", "commits_total"):
            self.assertEqual(float(due[name]), found[name], name)
        self.assertEqual({"gauge", "counter"}, {it["kind"] for it in told["figures"]})
        self.assertNotIn("", [it["about"] for it in told["figures"]])
        self.assertEqual(403, self.ask("/api/status")[0])

    def test_a_figure_of_a_later_service(self):
        rows = "status blocks 64\nstatus warmth 21.5\n".splitlines()
        with unittest.mock.patch.object(Store, "answer_lines", return_value=rows):
            found = figures.figures(f"{self.file}.sock")["figures"]
        self.assertEqual([("blocks", 64), ("warmth", 21.5)], [(it["name"], it["value"]) for it in found])

    def test_the_page_shows_each_figure_and_follows_it(self):
        browser = self.opened()
        names = browser.run("return [...document.querySelectorAll('#figures tr')].map((it) => it.id.slice(7))")
        self.assertEqual([*self.status()], names)
        self.assertEqual(("The service of map.alt", "1,024"), (browser.text("#file"), self.texts(browser, "blocks")[0]))
        self.assertEqual("Nothing.", browser.text("#look"))
        before = self.value(browser, "last_batch")
        store = self.store()
        for number in range(1, 4):
            store.put("north", 7, number, attributes(dn=50))
        browser.until(lambda: self.value(browser, "last_batch") == before + 3)
        self.line(browser, "batches_total")
        # A counter has what it rises by in a second, any other figure has not.
        self.assertRegex(self.texts(browser, "batches_total")[1], r"^[0-9.]+$")
        self.assertRegex(self.texts(browser, "commit_seconds_total")[1], r"^[0-9.]+ %$")
        self.assertRegex(self.texts(browser, "journal_bytes")[0], r"^[0-9.]+ (bytes|KiB)$")
        self.assertEqual("", self.texts(browser, "blocks")[1])
        self.assertEqual("from 1,024 to 1,024", self.line(browser, "blocks"))
        self.assertEqual([], browser.faults())

    def test_it_stands_still_by_keyboard(self):
        browser = self.opened(420, 800)
        press = lambda *keys: ActionChains(browser.driver).send_keys(*keys).perform()  # noqa: E731
        browser.run("document.activeElement.blur()")
        press(Keys.TAB)
        self.assertEqual("desk", browser.driver.switch_to.active_element.get_attribute("id"))
        for _ in range(3):  # The browser lets what is wider than its window be reached, too.
            if browser.driver.switch_to.active_element.get_attribute("id") != "halt":
                press(Keys.TAB)
        press(Keys.SPACE)
        self.assertEqual("true", browser.one("#halt").get_attribute("aria-pressed"))
        before = self.value(browser, "up_seconds")
        browser.run("return new Promise((done) => setTimeout(done, 5000))")
        self.assertEqual(before, self.value(browser, "up_seconds"))
        press(Keys.SPACE)
        browser.until(lambda: self.value(browser, "up_seconds") > before)
        # Nothing is wider than the window but the table in its section, which scrolls.
        self.assertLessEqual(browser.run("return document.documentElement.scrollWidth"), 420)
        press(Keys.SHIFT, Keys.TAB)
        browser.click("#desk")
        browser.until(lambda: browser.all("#tree button"))

    def test_what_has_to_be_looked_at(self):
        browser = self.opened()

        def give(spare, left, disk_left, slowest):
            """Lets the page have these figures from now on."""
            its = {"blocks": 1000, "spare_blocks": spare, "seconds_left": left, "up_seconds": 1}
            its.update(disk_seconds_left=disk_left, commit_seconds_slowest=slowest)
            told = {"file": "/x/map.alt.sock", "figures": [figures.figure(*it) for it in its.items()]}
            browser.run("window.fetch = async () => new Response(arguments[0])", json.dumps(told))

        give(99, 86399, 86399, 1.5)
        browser.until(lambda: len(browser.all("#look .fault")) == 4)
        self.assertEqual("24 h", self.texts(browser, "seconds_left")[0])
        give(100, 86400, 86400, 1)
        browser.until(lambda: browser.text("#look") == "Nothing.")
        its = "seconds_left", "commit_seconds_slowest", "spare_blocks"
        self.assertEqual(["1 d", "1 s", "100"], [self.texts(browser, it)[0] for it in its])

    def test_the_service_may_go_and_come_again(self):
        browser = self.opened()
        store = self.store()
        store.put("north", 7, 1, attributes(dn=50))
        browser.until(lambda: self.value(browser, "batches_total") == 1)
        [service] = Path(f"/proc/{self.first.pid}/task/{self.first.pid}/children").read_text().split()
        os.kill(int(service), signal.SIGTERM)
        browser.says("The service is not there.")
        self.serve()
        browser.says("The service answers again.")
        browser.until(lambda: self.value(browser, "batches_total") == 0)
        # What it counted before is drawn no more.
        self.assertEqual("from 0 to 0", self.line(browser, "batches_total"))

    def test_without_the_token_nothing_is_shown(self):
        browser = self.browser()
        browser.driver.get(f"http://127.0.0.1:{self.port}/service#token=wrong")
        browser.says("Open the address that altdesk has printed: it has the token.")
        self.assertEqual([], browser.all("#figures tr"))
