#!/usr/bin/env python3
"""Measures the desk over a made-up network: how long it takes to show the first map, a design, a window of about 300
features, and what is found, each asked for as the page does. `tools/measure/measure_desk.py [--chambers N] [--store
FILE] [--browser | --meanwhile]`: N chambers (30,000), 2 ducts and 3 cables for each, and service points, 7.3 features a
chamber in all. With `--browser` it measures them in Chromium, from the click until the page shows it; with
`--meanwhile` as the page asks, while the desk reads the texts and once it has. It needs what `desk/altdesk` does, and
Chromium what its tests need."""
import argparse
import itertools
import json
import os
import random
import re
import struct
import subprocess
import sys
import tempfile
import time
import urllib.parse
import urllib.request
from pathlib import Path
from typing import Dict, Iterator, List, Tuple

sys.dont_write_bytecode = True
TOP = Path(__file__).resolve().parents[2]
sys.path[:0] = [str(TOP / "desk"), str(TOP / "clients" / "python")]
import maps
import webserver
from altctl import Store

ALTCTL = os.environ.get("ALTCTL", str(TOP / "altctl"))
BLOCKS = 400_000
BETWEEN_SECONDS = 0.25  # from an answer to the next question, so that there is work to go on with
MEANWHILE_SECONDS = 10
LAYERS = {
    1: ("chambers", "Point"),
    2: ("ducts", "Line String"),
    3: ("cables", "Line String"),
    4: ("service points", "Point"),
}
FIELDS = [f"f{n}" for n in range(8)]
Record = Tuple[int, int, bytes]


def layer(table: int) -> dict:
    fields = [{"name": "label", "type": "String"}, {"name": "dn", "type": "Integer"}]
    fields += [{"name": it, "type": "String"} for it in FIELDS]
    name, geometry = LAYERS[table]
    return maps.numbered({"name": name, "crs": "EPSG:2056", "geometry": geometry, "fields": fields, "id": None})


def point(x: float, y: float) -> bytes:
    return struct.pack("<BIdd", 1, 1, x, y)


def line(*points: Tuple[float, float]) -> bytes:
    return struct.pack("<BII", 1, 2, len(points)) + b"".join(struct.pack("<dd", *it) for it in points)


def network(chambers: int) -> Iterator[Record]:
    """The records of a network of streets."""
    chance, across = random.Random(7), int(chambers**0.5)
    fields = maps.Fields(layer(1))

    def feature(table: int, number: int, label: str, geometry: bytes) -> Iterator[Record]:
        its = {
            "label": label,
            "dn": chance.choice((50, 110, 160)),
            **{it: chance.choice(("PVC", "HDPE", "laid 1998")) for it in FIELDS},
        }
        yield table, number, fields.packed(its)
        yield table + maps.GEOMETRY, number, geometry

    place = lambda n: (2600000 + 35 * (n % across), 1200000 + 30 * (n // across))
    for n in range(chambers):
        (x, y), to = place(n), place(n + 1) if (n + 1) % across else place(n + across)
        yield from feature(1, n + 1, f"CH-{n + 1:06}", point(x, y))
        for copy in range(2):
            yield from feature(
                2, 2 * n + copy + 1, f"RB-{2 * n + copy + 1:06}", line((x, y + copy), (to[0], to[1] + copy))
            )
        for copy in range(3 if n % 3 else 2):
            yield from feature(
                3, 3 * n + copy + 1, f"CB-{3 * n + copy + 1:06}", line((x, y - copy), (to[0], to[1] - copy))
            )
        for copy in range(2 if n % 3 else 1):
            yield from feature(4, 2 * n + copy + 1, f"SP-{2 * n + copy + 1:06}", point(x + 7 + 9 * copy, y + 6))


def make(file: str, chambers: int) -> None:
    subprocess.run([ALTCTL, "create", file, str(BLOCKS)], check=True, stdout=subprocess.DEVNULL)
    with Store(file, ALTCTL) as store:
        for table in LAYERS:
            store.put("top", 0, table, maps.to_text(layer(table)).encode())
        store.put_many("top", network(chambers))
        for name in ("north", "south"):
            store.new(name, "top")
        fields = maps.Fields(layer(2))
        store.put_many("north", ((2, n, fields.packed({"label": f"NEW-{n}", "dn": 63})) for n in range(1, 400, 2)))
        store.commit()
    subprocess.run(
        [sys.executable, str(TOP / "desk" / "altgis"), "index", file], check=True, env={**os.environ, "ALTCTL": ALTCTL}
    )


class Asking:
    def __init__(self, url: str):
        self.base, self.token = url.split("/#token=")

    def ask(self, path: str, **words: str) -> Tuple[float, dict]:
        wanted = urllib.request.Request(
            f"{self.base}/api/{path}?{urllib.parse.urlencode(words)}", headers={"X-Desk-Token": self.token}
        )
        begun = time.monotonic()
        with urllib.request.urlopen(wanted) as answer:
            told = json.load(answer)
        return time.monotonic() - begun, told


def measured(asking: Asking) -> None:
    def say(what: str, seconds: List[float], more: str = "") -> None:
        print(f"{what:<40} {sorted(seconds)[len(seconds) // 2]:8.3f} s {more}", flush=True)

    state, _ = asking.ask("state")
    design, told = asking.ask("design", at="top")
    box = ",".join(map(str, told["bounds"]))
    window, shown = asking.ask("window", at="top", box=box)
    say("first map", [state + design + window], f"{len(shown['features'])} features of {shown['found']}")
    seconds, told = asking.ask("find", at="top", text="RB-004711")
    say("first find, with reading the texts", [seconds], f"{len(told['found'])} found")
    one, told = asking.ask("design", at="north")
    two, _ = asking.ask("window", at="north", box=box)
    say("a design, never seen", [one + two], f"{len(told['changes'])} changes")
    say(
        "a design, seen before",
        [asking.ask("design", at="north")[0] + asking.ask("window", at="north", box=box)[0] for _ in range(9)],
    )
    near = [
        asking.ask("window", at="north", box=f"{2600000 + 300 * n},1200500,{2600230 + 300 * n},1200730")
        for n in range(9)
    ]
    say("a window", [it for it, _ in near], f"{len(near[0][1]['features'])} features")
    for text in ("RB-004711", "new-77", "nowhere"):
        found = [asking.ask("find", at="north", text=text) for _ in range(9)]
        say(f"find {text}", [it for it, _ in found], f"{len(found[0][1]['found'])} found")


def meanwhile(asking: Asking) -> None:
    """Measures while the desk reads the texts ahead, and once it has."""
    asking.ask("state")
    _, told = asking.ask("design", at="top")
    box = ",".join(map(str, told["bounds"]))
    for at in ("top", "north"):
        asking.ask("window", at=at, box=box)
    time.sleep(webserver.AHEAD_SECONDS)
    tell_answers("while it reads", asking, box)
    took, _ = asking.ask("find", at="top", text="RB-004711")
    print(f"then found after {took:.3f} s", flush=True)
    tell_answers("once it has read", asking, box)


def tell_answers(when: str, asking: Asking, box: str) -> None:
    """Asks for a while as people do who look at the map, and tells how long the answers took."""
    found: Dict[str, List[float]] = {"the whole map": [], "a design": [], "a window": []}
    begun = time.monotonic()
    for n in itertools.count():
        near = f"{2600000 + 30 * n},1200500,{2600230 + 30 * n},1200730"
        for what, path, words in (
            ("the whole map", "window", {"at": "top", "box": box}),
            ("a design", "design", {"at": "north"}),
            ("a window", "window", {"at": "north", "box": near}),
        ):
            found[what].append(asking.ask(path, **words)[0])
            time.sleep(BETWEEN_SECONDS)
        if time.monotonic() - begun > MEANWHILE_SECONDS:
            break
    for what, seconds in found.items():
        its = sorted(seconds)
        told = ", ".join(f"{it:.3f}" for it in (its[len(its) // 2], its[len(its) * 9 // 10], its[-1]))
        print(f"{when}, {what:<16} {told} s (median, 9 in 10, longest of {len(its)})", flush=True)


def seen(url: str) -> None:
    """Measures in a browser, from the click until it is drawn."""
    sys.argv[1:] = []  # What its tests would take for theirs.
    from desk_tests.support import Browser

    def seconds(begin: str, is_done: str) -> float:
        again = "done((performance.now() - begun) / 1000) : requestAnimationFrame(look)"
        script = f"const done = arguments[0], begun = performance.now(); {begin}; "
        return browser.driver.execute_async_script(f"{script} const look = () => ({is_done}) ? {again}; look();")

    def say(what: str, time_taken: float) -> None:
        print(f"in a browser: {what:<30} {time_taken:8.3f} s {browser.text('#note')}", flush=True)

    def click(name: str, **texts: str) -> str:
        return "; ".join([*(set_text(*it) for it in texts.items()), f"document.querySelector('{name}').click()"])

    def set_text(name: str, text: str) -> str:
        return f"document.getElementById('find-{name}').value = '{text}'"

    def has(node: str, pattern: str) -> str:
        return f"/{pattern}/.test(document.querySelector('{node}')?.textContent)"

    browser = Browser()
    try:
        browser.size(1120, 680)
        browser.driver.set_script_timeout(120)
        begun = time.monotonic()
        browser.open(url)
        say("first map", time.monotonic() - begun)
        is_changed = "document.querySelector('#map path.is-changed')"
        for what in ("a design, never seen", "a design, seen before"):
            say(what, seconds(click("#design-north"), f"{has('#chosen', '^north, ')} && {is_changed}"))
            seconds(click("#design-top"), f"{has('#chosen', '^top, ')} && !{is_changed}")
        found = click("#search button", text="RB-0047"), has("#view", "RB-0047")
        say("found, with reading the texts", seconds(*found))
        seconds(click("#view-changes"), f"!{found[1]}")
        say("found", seconds(*found))
        near = f"{has('#view h3', ' 4711:')} && {has('#layers small', '^all')}"
        say("a feature and its window", seconds(click("#find button", number="4711"), near))
        say("the whole map again", seconds(click("#whole"), has("#note", "features are drawn")))
        texts = browser.run("return [...document.querySelectorAll('#layers small')].map((it) => it.textContent)")
        print(*(f"in a browser: {it}" for it in texts), sep="\n")
    finally:
        browser.quit()


def main() -> None:
    parser = argparse.ArgumentParser(description=__doc__.split(":")[0])
    parser.add_argument("--chambers", type=int, default=30_000)
    parser.add_argument("--store", help="where the store is kept, for another time")
    how = parser.add_mutually_exclusive_group()
    how.add_argument("--browser", action="store_true", help="measure in a browser")
    how.add_argument("--meanwhile", action="store_true", help="measure while the desk reads the texts")
    words = parser.parse_args()
    with tempfile.TemporaryDirectory() as folder:
        file = words.store or f"{folder}/network.alt"
        if not os.path.exists(file):
            make(file, words.chambers)
        desk = subprocess.Popen(
            [sys.executable, str(TOP / "desk" / "altdesk"), "--program", ALTCTL, file],
            stdout=subprocess.PIPE,
            text=True,
        )
        try:
            url = next(it for it in map(lambda it: re.search(r"http://\S+", it), desk.stdout) if it)[0]
            if words.browser:
                seen(url)
            else:
                (meanwhile if words.meanwhile else measured)(Asking(url))
        finally:
            desk.terminate()
            desk.wait()


if __name__ == "__main__":
    main()
