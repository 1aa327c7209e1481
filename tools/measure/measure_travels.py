#!/usr/bin/env python3
"""Measures what designs cost that travel: `tools/measure/measure_travels.py [ALTCTL] [FEATURES]`. A clone of a map, a
pull and a push by `altcarry` through SSH with its compression, beside `git clone` of the same map as GeoJSON and copies
of it as GeoPackage, over a link of 10 Mbit/s and 20 ms (bad_link.py). Bytes are those of all packets, both ways. Needs
root, sshd, git, nc and python3-gdal."""
import argparse
import json
import os
import random
import shutil
import struct
import subprocess
import sys
import tempfile
import time
from pathlib import Path

sys.dont_write_bytecode = True
TOP = Path(__file__).resolve().parents[2]
sys.path[:0] = [str(TOP / "clients" / "python"), str(TOP / "tools" / "faults")]
import bad_link
from altctl import Store

DESK = TOP / "desk"
RATE, DELAY = 10e6, 0.01
TIMES = 5


def feature(number, chance):
    """A duct: attributes as JSON, and a line of some points in metres as WKB."""
    values = {
        "dn": chance.choice([50, 110, 125, 160]),
        "mat": chance.choice(["PVC", "HDPE", "steel"]),
        "year": chance.randrange(1960, 2026),
    }
    values.update(name=f"D-{number}", owner=chance.choice(["city", "water", "telecom"]), state="in use")
    east, north = 2600000 + chance.random() * 20000, 1200000 + chance.random() * 20000
    points = []
    for _ in range(chance.randrange(2, 7)):
        points += [round(east, 3), round(north, 3)]
        east, north = east + chance.uniform(-40, 40), north + chance.uniform(-40, 40)
    return json.dumps(values, sort_keys=True, separators=(",", ":")).encode(), struct.pack(
        f"<BII{len(points)}d", 1, 2, len(points) // 2, *points
    )


def make_map(file, altctl, count):
    chance = random.Random(1)
    fields = [
        {"name": it, "type": "Integer" if it in ("dn", "year") else "String"}
        for it in ("dn", "mat", "name", "owner", "state", "year")
    ]
    layer = {"crs": "EPSG:2056", "fields": fields, "geometry": "Line String", "id": None, "name": "ducts"}
    subprocess.run([altctl, "create", file, "4096"], check=True, stdout=subprocess.DEVNULL)
    with Store(file, altctl, grow=True) as store:
        store.put("top", 0, 7, json.dumps(layer).encode())
        rows = [(number, *feature(number, chance)) for number in range(1, count + 1)]
        store.put_many("top", ((7, number, text) for number, text, _ in rows))
        store.put_many("top", ((107, number, line) for number, _, line in rows))
        store.new("north", "top")
        store.commit()


class Bench:
    def __init__(self, folder, altctl):
        self.folder, self.altctl = folder, altctl
        self.link = bad_link.BadLink(0, f"{folder}/head.alt.sock", DELAY, 0, RATE)
        for it in ("host", "key"):
            subprocess.run(["ssh-keygen", "-q", "-t", "ed25519", "-N", "", "-f", f"{folder}/{it}"], check=True)
        os.makedirs("/run/sshd", exist_ok=True)
        Path(folder, "config").write_text(
            f"ListenAddress {self.link.net}.2\nHostKey {folder}/host\nAuthorizedKeysFile {folder}/key.pub\n"
            "StrictModes no\nUsePAM no\n"
            "PidFile none\nPermitRootLogin prohibit-password\n"
        )
        sshd = shutil.which("sshd", path=f"{os.environ['PATH']}:/usr/sbin")
        words = ["ip", "netns", "exec", self.link.spaces[1], sshd, "-D", "-e", "-f", f"{folder}/config"]
        self.sshd = subprocess.Popen(words, stderr=subprocess.DEVNULL)
        options = f"-i {folder}/key -o UserKnownHostsFile={folder}/known -o StrictHostKeyChecking=no -o LogLevel=ERROR"
        self.ssh = f"ip netns exec {self.link.spaces[0]} ssh {options}"
        self.host = f"root@{self.link.net}.2"
        time.sleep(1)

    def close(self):
        self.sshd.terminate()
        self.sshd.wait()
        self.link.close()

    def take(self, what, *words):
        """Runs a command, and says what it took."""
        count, seconds = self.run(words)
        print(f"{what}: {count:,} bytes, {seconds:.1f} s", flush=True)

    def take_often(self, what, prepare, *words):
        """The medians of some runs, each after a change."""
        found = []
        for it in range(TIMES):
            prepare(it)
            found.append(self.run(words))
        counts, seconds = (sorted(it)[TIMES // 2] for it in zip(*found))
        print(f"{what}: {counts:,} bytes, {seconds:.1f} s, the medians of {TIMES}", flush=True)

    def run(self, words):
        before, begun = self.link.bytes, time.monotonic()
        environment = {**os.environ, "ALTCTL": self.altctl, "ALTCARRY_SSH": self.ssh, "GIT_SSH_COMMAND": self.ssh}
        subprocess.run(words, check=True, env=environment, stdout=subprocess.DEVNULL, stderr=subprocess.DEVNULL)
        return self.link.bytes - before, time.monotonic() - begun


def change(store, alt, count, seed, numbers):
    """Changes features: the attributes of most, the geometry of some."""
    chance = random.Random(seed)
    with store.batch():
        for number in chance.sample(range(1, numbers + 1), count):
            text, line = feature(number, chance)
            table, value = (7, text) if chance.random() < 0.7 else (107, line)
            store.put(alt, table, number, value)


def measure_peers(bench, folder, altctl):
    altgis, environment = str(DESK / "altgis"), {**os.environ, "ALTCTL": altctl}
    for it in ("map.gpkg", "map.geojson"):
        words = [altgis, "export", f"{folder}/head.alt", "top", f"{folder}/{it}"]
        subprocess.run(words, check=True, env=environment, stdout=subprocess.DEVNULL)
        print(f"{it}: {os.path.getsize(f'{folder}/{it}'):,} bytes")
    repository = f"{folder}/repository"
    os.mkdir(repository)
    shutil.move(f"{folder}/map.geojson", repository)
    for words in (["init", "-q"], ["add", "."], ["-c", "user.name=a", "-c", "user.email=a@b", "commit", "-qm", "map"]):
        subprocess.run(["git", "-C", repository, *words], check=True)
    bench.take("git clone of the GeoJSON", "git", "clone", "-q", f"ssh://{bench.host}{repository}", f"{folder}/cloned")
    copy = f"{bench.ssh} {bench.host} cat {folder}/map.gpkg >{folder}/copied.gpkg"
    bench.take("copy of the GeoPackage", "sh", "-c", copy)
    bench.take("copy of the GeoPackage, compressed (ssh -C)", "sh", "-c", copy.replace(" ssh ", " ssh -C "))


def measure(bench, folder, altctl, count):
    head, field, altcarry = f"{folder}/head.alt", f"{folder}/field.alt", str(DESK / "altcarry")
    words = [sys.executable, str(DESK / "altserve"), "--program", altctl, head]
    service = subprocess.Popen(words, stderr=subprocess.DEVNULL)

    def change_top(seed):
        with Store(f"unix:{head}.sock") as store:
            change(store, "top", 500, 2 + seed, count)

    def change_mine(seed):
        chance = random.Random(seed)
        values = (b'{"dn":%d,"name":"D","state":"planned"}' % chance.randrange(50, 200) for _ in range(100))
        with Store(field, altctl) as store:
            if seed == 0:
                store.new("mine", "top")
            store.put_many("mine", ((7, number, next(values)) for number in chance.sample(range(1, count + 1), 100)))
            store.commit()

    try:
        while not os.path.exists(f"{head}.sock"):
            time.sleep(0.05)
        place = f"ssh://{bench.host}{head}.sock"
        bench.take("altcarry clone", altcarry, "clone", place, field, "north", "--office", "anna")
        bench.take_often("altcarry pull after 500 changes", change_top, altcarry, "pull", field)
        bench.take_often("altcarry push of 100 changes", change_mine, altcarry, "push", field, "mine")
    finally:
        service.terminate()
        service.wait()


def main():
    parser = argparse.ArgumentParser(description=__doc__.split(":")[0])
    parser.add_argument("altctl", nargs="?", default=str(TOP / "altctl"))
    parser.add_argument("features", nargs="?", type=int, default=220000)
    parser.add_argument("--alone", action="store_true", help="without what it is compared with")
    words = parser.parse_args()
    missing = bad_link.missing()
    if missing:
        sys.exit(f"measure_travels: {missing} is not there")
    altctl = os.path.abspath(words.altctl)
    with tempfile.TemporaryDirectory() as folder:
        make_map(f"{folder}/head.alt", altctl, words.features)
        bench = Bench(folder, altctl)
        try:
            if not words.alone:
                measure_peers(bench, folder, altctl)
            measure(bench, folder, altctl, words.features)
        finally:
            bench.close()


if __name__ == "__main__":
    main()
