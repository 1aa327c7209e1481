"""A browser of a person, a store with ducts, and desks over it, for the tests."""
import atexit
import contextlib
import http.client
import json
import os
import re
import shutil
import socket
import struct
import subprocess
import sys
import tempfile
import threading
import time
import unittest
from pathlib import Path

import numpy
from osgeo import gdal
from selenium import webdriver
from selenium.webdriver.common.action_chains import ActionChains
from selenium.webdriver.common.by import By
from selenium.webdriver.common.keys import Keys
from selenium.webdriver.chrome.service import Service

import maps
from altctl import Store

DESK = Path(__file__).resolve().parent.parent
ALTCTL = os.path.abspath(os.environ.get("ALTCTL", DESK.parent / "altctl"))
PICTURES = DESK.parent / "docs" / "pictures"
CHROMIUM, DRIVER = shutil.which("chromium"), shutil.which("chromedriver")
WORDS = sys.argv[1:]
LONGEST_WAIT = 90  # A browser on a machine with six times the work takes a minute for its first page.
IDLE = []  # Browsers, one for each test that goes on.
MOST_BYTES = 150_000


@atexit.register
def quit_idle():
    for browser in IDLE:
        browser.quit()


def course(*points):
    """A line as WKB."""
    return struct.pack("<BII", 1, 2, len(points)) + b"".join(struct.pack("<dd", *it) for it in points)


def place(x, y):
    """A point as WKB."""
    return struct.pack("<BIdd", 1, 1, x, y)


def attributes(**values):
    return maps.to_text(values).encode()


def layer(name="ducts", crs="EPSG:2056"):
    fields = [{"name": "dn", "type": "Integer"}, {"name": "mat", "type": "String"}]
    return maps.to_text({"name": name, "crs": crs, "geometry": "Line String", "fields": fields, "id": None}).encode()


def duct(number, dn=110):
    """The records of a duct in a row of ducts."""
    east = 2600000 + 60 * (number % 300)
    north = 1200000 + 40 * (number // 300)
    yield 7, number, attributes(dn=dn, mat="PVC")
    yield 107, number, course((east, north), (east + 25, north + 8), (east + 50, north))


def write_small(picture, path):
    """Writes a picture with its 200 most frequent colours alone, which take a third of the bytes."""
    gdal.FileFromMemBuffer("/vsimem/full.png", picture)
    red, green, blue = gdal.Open("/vsimem/full.png").ReadAsArray()[:3].astype(int)
    packed = red << 16 | green << 8 | blue
    colours, at, counts = numpy.unique(packed, return_inverse=True, return_counts=True)
    parts = numpy.stack([colours >> 16, colours >> 8 & 255, colours & 255], axis=1)
    kept = parts[numpy.argsort(-counts)[:200]]
    nearest = numpy.abs(parts[:, None] - kept[None]).sum(axis=2).argmin(axis=1)
    table = gdal.ColorTable()
    for number, colour in enumerate(kept.tolist()):
        table.SetColorEntry(number, tuple(colour))
    made = gdal.GetDriverByName("MEM").Create("", packed.shape[1], packed.shape[0])
    made.GetRasterBand(1).WriteArray(nearest[at].reshape(packed.shape))
    made.GetRasterBand(1).SetColorTable(table)
    gdal.GetDriverByName("PNG").CreateCopy(path, made, options=["ZLEVEL=9"])
    if os.path.getsize(path) > MOST_BYTES:
        raise AssertionError(f"{path} has more than {MOST_BYTES} bytes")


class Browser:
    """A browser of one person."""

    def __init__(self):
        options = webdriver.ChromeOptions()
        options.binary_location = CHROMIUM
        words = [
            "headless=new", "disable-gpu", "disable-dev-shm-usage", "hide-scrollbars", "force-prefers-reduced-motion",
        ]
        for it in [*words, *(["no-sandbox"] if os.getuid() == 0 else [])]:
            options.add_argument(f"--{it}")
        options.set_capability("goog:loggingPrefs", {"browser": "ALL"})
        self.driver = webdriver.Chrome(service=Service(DRIVER), options=options)
        self.is_open = True

    def size(self, width, height):
        how = {"width": width, "height": height, "deviceScaleFactor": 1, "mobile": width < 500}
        self.driver.execute_cdp_cmd("Emulation.setDeviceMetricsOverride", how)

    def quit(self):
        self.driver.quit()
        self.is_open = False

    def give_back(self):
        """Lets another test have it, with nothing of this one."""
        if self.is_open:
            self.driver.execute_script("sessionStorage.clear()")
            self.driver.get("about:blank")
            self.driver.get_log("browser")
            IDLE.append(self)

    def open(self, url):
        self.driver.get(url)
        self.until(lambda: self.all("#tree button") and self.all("#map path, #map canvas"))

    def until(self, is_so):
        """Looks again and again, ever more seldom: each look takes time of the processors that the page waits for."""
        late, pause = time.monotonic() + LONGEST_WAIT, 0.05
        while True:
            with contextlib.suppress(Exception):  # What it looks at may be shown anew just now.
                found = is_so()
                if found:
                    return found
            if time.monotonic() > late:
                raise AssertionError(
                    f"waited in vain; the page says: {self.driver.find_element(By.TAG_NAME, 'body').text}"
                )
            time.sleep(pause)
            pause = min(1.2 * pause, 0.5)

    def all(self, selector):
        return self.driver.find_elements(By.CSS_SELECTOR, selector)

    def one(self, selector):
        return self.until(lambda: self.all(selector))[0]

    def click(self, selector):
        def clicked():
            self.driver.find_element(By.CSS_SELECTOR, selector).click()
            return True

        self.until(clicked)

    def text(self, selector):
        return self.one(selector).text

    def says(self, text, where="#said"):
        self.until(lambda: text in self.all(where)[0].text)

    def shows(self, texts, where):
        """Waits until what is there has these texts."""
        self.until(lambda: [it.text for it in self.all(where)] == texts)

    def confirm(self, text=None):
        """Answers the question with yes."""
        self.until(lambda: self.all("#question-yes")[0].is_displayed())
        if text is not None:
            self.one("#question-input").send_keys(text)
        self.click("#question-yes")

    def choose_design(self, name):
        self.click(f"#design-{name}")
        self.until(lambda: self.text("#chosen").startswith(f"{name},"))

    def find(self, number):
        box = self.one("#find-number")
        box.clear()
        box.send_keys(str(number))
        self.click("#find button")
        self.until(lambda: f" {number}:" in self.text("#view h3"))

    def edit(self, number, **values):
        self.find(number)
        self.click("#edit")
        for name, value in values.items():
            box = self.one(f"#view input[name={name}]")
            box.clear()
            box.send_keys(str(value))
        self.click("#save")

    def run(self, script, *words):
        return self.driver.execute_script(script, *words)

    def picture(self, name):
        """Takes a picture of the page for a document."""
        if "--pictures" in WORDS:
            time.sleep(0.5)
            write_small(self.driver.get_screenshot_as_png(), str(PICTURES / f"{name}.png"))

    def faults(self):
        """What the console tells, except answers of the server that are no 200, which tests look for themselves."""
        said = [it["message"] for it in self.driver.get_log("browser")]
        return [it for it in said if "Failed to load resource" not in it]


class DeskTest(unittest.TestCase):
    """A store with twelve ducts in a layer, a service over it, and desks."""

    def setUp(self):
        folder = tempfile.TemporaryDirectory()
        self.addCleanup(folder.cleanup)
        self.folder, self.file = folder.name, os.path.join(folder.name, "map.alt")
        self.socket = f"{self.file}.sock"
        self.fill()

    def fill(self, count=12, blocks=1024):
        subprocess.run([ALTCTL, "create", self.file, str(blocks)], check=True, stdout=subprocess.DEVNULL)
        with Store(self.file, ALTCTL) as store:
            store.put("top", 0, 7, layer())
            store.put_many("top", (it for number in range(1, count + 1) for it in duct(number)))
            store.new("north", "top")
            store.new("south", "top")
            store.commit()

    def launch(self, words, until, **how):
        """Starts a program, and gives it and what its standard output says up to a text."""
        program = subprocess.Popen(words, stdout=subprocess.PIPE, stderr=subprocess.STDOUT, text=True, **how)
        self.addCleanup(program.stdout.close)
        self.addCleanup(program.wait)
        self.addCleanup(program.terminate)
        said = ""
        while until not in said:
            line = program.stdout.readline()
            self.assertTrue(line, said)
            said += line
        return program, said

    def serve(self):
        return self.launch([sys.executable, str(DESK / "altserve"), "--program", ALTCTL, self.file], ": batches to ")[0]

    def desk(self, file=None, *options):
        """Starts a desk. Gives its process and its address."""
        words = [sys.executable, str(DESK / "altdesk"), "--program", ALTCTL, *options, file or self.file]
        program, said = self.launch(words, "#token=")
        return program, re.search(r"http://\S+", said)[0]

    def browser(self, width=1120, height=680):
        """A browser that nobody else has just now."""
        browser = IDLE.pop() if IDLE else Browser()
        self.addCleanup(browser.give_back)
        browser.size(width, height)
        return browser

    def store(self):
        store = Store(f"unix:{self.socket}")
        self.addCleanup(store.close, quietly=True)
        return store


class Counter(threading.Thread):
    """A socket that passes lines on to a service and its answers back, and counts both."""

    def __init__(self, path, service):
        super().__init__(daemon=True)
        self.lines, self.service, self.listener = 0, service, socket.socket(socket.AF_UNIX)
        self.listener.bind(path)
        self.listener.listen()
        self.start()

    def run(self):
        with contextlib.suppress(OSError):  # It is closed at the end.
            while True:
                ends = self.listener.accept()[0], socket.socket(socket.AF_UNIX)
                ends[1].connect(self.service)
                for one, other in (ends, ends[::-1]):
                    threading.Thread(target=self.pass_on, args=(one, other), daemon=True).start()

    def pass_on(self, one, other):
        with one, contextlib.suppress(OSError):
            while came := one.recv(1 << 16):
                self.lines += came.count(b"\n")
                self.came(came)
                other.sendall(came)
            other.shutdown(socket.SHUT_RDWR)

    def came(self, came):
        """What some tests do with what came, before it is passed on."""

    def stop(self):
        with contextlib.suppress(OSError):
            self.listener.shutdown(socket.SHUT_RDWR)
        self.listener.close()


class AskingTest(DeskTest):
    """Asks the desk as a page does, without a browser."""

    def setUp(self):
        super().setUp()
        self.first, url = self.desk()
        self.port, self.token = re.fullmatch(r"http://127\.0\.0\.1:(\d+)/#token=(\S{32})", url).groups()

    def epoch(self):
        return json.loads(self.ask("/api/state", self.token)[1])["epoch"]

    def ask(self, path, token=None, body=None, **headers):
        """The status and the text of an answer. The path is sent as it is."""
        there = http.client.HTTPConnection("127.0.0.1", int(self.port), timeout=60)
        with contextlib.closing(there):
            there.putrequest("GET" if body is None else "POST", path, skip_host=True)
            given = {"Host": f"127.0.0.1:{self.port}", **({"X-Desk-Token": token} if token else {})}
            if body is not None:
                given.update({"Content-Type": "application/json", "Content-Length": str(len(body))})
            for name, value in {**given, **{it.replace("_", "-"): value for it, value in headers.items()}}.items():
                there.putheader(name, value)
            there.endheaders(body)
            answer = there.getresponse()
            self.headers = answer.headers
            return answer.status, answer.read().decode()


class PlanningTest(DeskTest):
    """A town of chambers in rows, with ducts between those of a row."""

    FIELDS = {"dn": "Integer", "mat": "String", "laid": "Date"}

    def fill(self):
        subprocess.run([ALTCTL, "create", self.file, "1024"], check=True, stdout=subprocess.DEVNULL)
        fields = [{"name": name, "type": kind} for name, kind in self.FIELDS.items()]
        ducts = {"name": "ducts", "crs": "EPSG:2056", "geometry": "Line String", "fields": fields, "id": None}
        named = [{"name": "name", "type": "String"}]
        chambers = {"name": "chambers", "crs": "EPSG:2056", "geometry": "Point", "fields": named, "id": None}
        with Store(self.file, ALTCTL) as store:
            store.put("top", 0, 7, maps.to_text(ducts).encode())
            store.put("top", 0, 8, maps.to_text(chambers).encode())
            for number in range(1, 13):
                store.put("top", 8, number, attributes(name=f"RB-{4700 + number:06}"))
                store.put("top", 108, number, place(*self.chamber(number)))
            for number in (1, 2, 5, 6):
                store.put("top", 7, number, attributes(dn=110, mat="PVC"))
                store.put("top", 107, number, course(self.chamber(number), self.chamber(number + 1)))
            store.new("north", "top")
            store.new("south", "top")
            store.commit()

    @staticmethod
    def chamber(number):
        return 2600000.25 + 40 * ((number - 1) % 4), 1200000.5 + 30 * ((number - 1) // 4)

    def opened(self, design="north", *size):
        browser = self.browser(*size)
        browser.open(self.desk()[1])
        browser.choose_design(design)
        return browser

    def pixel(self, browser, at):
        """Where a place of the map is on the page, by the scale that the map says and two places that it draws."""
        script = """const is_dot = (it) => /a/.test(it.getAttribute('d')) && it.getAttribute('fill') !== 'none';
            const boxes = [...document.querySelectorAll('#map path')].filter(is_dot)
                .map((it) => it.getBoundingClientRect());
            return boxes.map((box) => [(box.left + box.right) / 2, (box.top + box.bottom) / 2]);"""
        dots = browser.until(lambda: [it for it in [browser.run(script)] if len(it) >= 12])[0]
        west, east = min(it[0] for it in dots), max(it[0] for it in dots)
        north, south = min(it[1] for it in dots), max(it[1] for it in dots)
        (x1, y1), (x2, y2) = self.chamber(1), self.chamber(12)
        return west + (at[0] - x1) / (x2 - x1) * (east - west), south - (at[1] - y1) / (y2 - y1) * (south - north)

    def press_at(self, browser, at, by=(0, 0), twice=False):
        x, y = self.pixel(browser, at)
        actions = ActionChains(browser.driver)
        pointer = actions.w3c_actions.pointer_action
        pointer.move_to_location(round(x + by[0]), round(y + by[1])).click()
        if twice:
            pointer.click()
        actions.perform()

    def drag(self, browser, selector, to, by=(0, 0)):
        """Drags what lies on the map to a place, or some pixels beside it."""
        x, y = self.pixel(browser, to)
        node = browser.one(selector)
        box = node.rect
        away = round(x - box["x"] - box["width"] / 2) + by[0], round(y - box["y"] - box["height"] / 2) + by[1]
        # Leaflet takes the first few pixels for the beginning of a drag, and moves nothing by them.
        actions = ActionChains(browser.driver).click_and_hold(node).move_by_offset(4, 4).pause(0.1)
        actions.move_by_offset(*away).pause(0.1).release().perform()

    def press(self, browser, *keys):
        ActionChains(browser.driver).send_keys(*keys).perform()

    def press_with_control(self, browser, key):
        ActionChains(browser.driver).key_down(Keys.CONTROL).send_keys(key).key_up(Keys.CONTROL).perform()

    def course_of(self, store, alt, number, table=107):
        return store.get(alt, table, number)
