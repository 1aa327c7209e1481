"""Tests of the desk: the demonstration."""
import os
import re
import shutil
import subprocess
import sys

from desk_tests.support import ALTCTL, DESK, LONGEST_WAIT, DeskTest


class DemoTests(DeskTest):
    """`demo --open`. Pictures of it are taken, too."""

    def fill(self):
        self.file = os.path.join(self.folder, "demo.alt")

    def test_one_command_starts_it_all(self):
        words = [
            sys.executable, str(DESK / "demo"), self.file, "--open", *([] if shutil.which("gmt") else ["--made-up"]),
        ]
        demo, said = self.launch(words, "#token=", env={**os.environ, "ALTCTL": ALTCTL})
        url = re.search(r"http://\S+", said)[0]
        browser = self.browser(1120, 640)
        browser.open(url)
        browser.choose_design("north")
        browser.until(lambda: browser.all("path.is-conflict"))
        browser.until(lambda: browser.text("#scale"))
        browser.picture("desk-map")
        browser.click("#view-conflicts")
        # One of both has two courses to choose from.
        legends = browser.all("fieldset legend")
        course = next(it for it, legend in zip(browser.all("fieldset"), legends) if "course" in legend.text)
        course.find_element("css selector", "[id^=look-]").click()
        browser.picture("desk-conflict")
        shown = [it.text.split() for it in browser.all("#tree tr")]
        demo.terminate()
        self.assertEqual(0, demo.wait(LONGEST_WAIT))
        tree = subprocess.run([ALTCTL, "tree", self.file], check=True, capture_output=True, text=True).stdout
        counts = re.findall(r"^ *(\d+) +\d+ +(\d+) .* (north|south)$", tree, re.M)
        self.assertEqual(
            [[alt, changed, conflicts] for changed, conflicts, alt in counts], [[it[0], *it[-2:]] for it in shown[1:]]
        )
        self.assertFalse(os.path.exists(f"{self.file}.sock"), "the service that the desk has started ends with it")
