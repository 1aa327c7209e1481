#!/usr/bin/env python3
"""Tests of the plugin for QGIS in a real QGIS, under Xvfb, over a real service and a store of 20,000 features:
`desk/test_altqgis.py [TEST ..]`, with the program's path in the variable ALTCTL, or else with the one that `./altctl`
at the top builds. `--pictures` writes those of docs/pictures anew. Where QGIS is not there, a line says that they are
skipped. What QGIS itself runs is `desk/qgis_tests/within.py`."""
import json
import os
import re
import shutil
import signal
import struct
import subprocess
import sys
import tempfile
import time
from pathlib import Path

sys.dont_write_bytecode = True
HERE = Path(__file__).resolve().parent
sys.path[:0] = [str(HERE), str(HERE.parent / "clients" / "python")]
from altctl import Store

ALTCTL = os.path.abspath(os.environ.get("ALTCTL", HERE.parent / "altctl"))
PICTURES = HERE.parent / "docs" / "pictures"
FEATURES = 20000
WAIT_SECONDS = 300
PACKAGES = "qgis python3-qgis xvfb"


def records(count):
    """Ducts and chambers along a street, half of these features each."""
    names = [
        ("dn", "Integer", {}),
        ("mat", "String", {}),
        ("laid", "Date", {}),
        ("live", "Integer", {"subtype": "Boolean"}),
        ("tags", "StringList", {}),
    ]
    fields = [{"name": name, "number": at, "type": kind, **more} for at, (name, kind, more) in enumerate(names, 1)]
    layer = {"crs": "EPSG:2056", "id": None, "next": 9}
    yield 0, 7, json.dumps({**layer, "name": "ducts", "geometry": "Line String", "fields": fields}).encode()
    named = [{"name": "name", "number": 1, "type": "String"}]
    yield 0, 8, json.dumps({**layer, "name": "chambers", "geometry": "Point", "fields": named}).encode()
    for number in range(1, count // 2 + 1):
        east, north = 2600000 + 7 * (number % 500), 1200000 + 12 * (number // 500)
        duct = {"1": 110, "2": "PVC", "3": f"1998-05-{number % 28:02}", "4": True, "5": ["a"]}
        yield 7, number, json.dumps(duct).encode()
        yield 107, number, struct.pack("<BIIdddd", 1, 2, 2, east, north, east + 7, north)
        yield 8, number, json.dumps({"1": f"RB-{number:06}"}).encode()
        yield 108, number, struct.pack("<BIdd", 1, 1, east, north)


def make(file):
    subprocess.run([ALTCTL, "create", file, "40000"], check=True, stdout=subprocess.DEVNULL)
    with Store(file, ALTCTL) as store:
        store.put_many("top", sorted(records(FEATURES)))
        store.commit()


def profile(folder):
    """A profile of QGIS in which the plugin is switched on, and nothing else is asked."""
    settings = Path(folder, "profiles", "default", "QGIS", "QGIS3.ini")
    settings.parent.mkdir(parents=True)
    settings.write_text(
        "[PythonPlugins]\naltqgis=true\n[qgis]\nfirstRunVersionFlag=32216\n"
        "[locale]\nuserLocale=en_US\noverrideFlag=true\n"
    )


def run_qgis(folder, socket, tests, pictures):
    more = {
        "ALTQGIS_SOCKET": socket,
        "ALTQGIS_FOLDER": folder,
        "ALTQGIS_FEATURES": str(FEATURES),
        "ALTQGIS_TESTS": " ".join(tests),
    }
    more.update(
        {
            "QGIS_PLUGINPATH": str(HERE),
            "HOME": folder,
            "LC_ALL": "C.UTF-8",
            "PYTHONDONTWRITEBYTECODE": "1",
            "ALTQGIS_SECONDS": str(WAIT_SECONDS),
        }
    )
    more["PATH"] = "/usr/bin:/bin"  # QGIS takes the modules of the first Python there.
    more.update({"ALTQGIS_PICTURES": "yes"} if pictures else {})
    words = [
        "xvfb-run",
        "--auto-servernum",
        "--server-args=-screen 0 1280x800x24",
        "qgis",
        "--nologo",
        "--noversioncheck",
    ]
    words += ["--profiles-path", folder, "--code", str(HERE / "qgis_tests" / "within.py")]
    with open(Path(folder, "said"), "w") as said:
        program = subprocess.Popen(
            words, env={**os.environ, **more}, stdout=said, stderr=subprocess.STDOUT, start_new_session=True
        )
        try:
            program.wait(WAIT_SECONDS)
        except subprocess.TimeoutExpired:
            os.killpg(program.pid, signal.SIGKILL)  # QGIS and its screen.
            program.wait()


def main(words):
    if not all(map(shutil.which, ("qgis", "xvfb-run"))):
        print(f"test_altqgis: skipped, QGIS or Xvfb is not there (`apt install {PACKAGES}`)")
        return 0
    pictures, tests = "--pictures" in words, [it for it in words if it != "--pictures"]
    with tempfile.TemporaryDirectory() as folder:
        file = os.path.join(folder, "map.alt")
        make(file)
        profile(folder)
        service = subprocess.Popen(
            [sys.executable, str(HERE / "altserve"), "--program", ALTCTL, file], stderr=subprocess.DEVNULL
        )
        try:
            while not os.path.exists(f"{file}.sock"):
                time.sleep(0.1)
            begun = time.monotonic()
            run_qgis(folder, f"{file}.sock", tests, pictures)
        finally:
            service.terminate()
            service.wait()
        told = Path(folder, "told")
        text = (
            told.read_text()
            if told.exists()
            else f"QGIS said nothing of its tests:\n{Path(folder, 'said').read_text()[-4000:]}"
        )
        print(text, f"{time.monotonic() - begun:.0f} s in QGIS", sep="\n", file=sys.stderr)
        for it in Path(folder).glob("*.png"):
            keep(it)
    return 0 if re.search(r"^all is well$", text, re.M) else 1


def keep(picture):
    """Keeps a picture for the documents, with few colours."""
    words = [
        "gdal_translate",
        "-q",
        "-b",
        "1",
        "-b",
        "2",
        "-b",
        "3",
        "-of",
        "PNG",
        str(picture),
        str(picture) + ".rgb.png",
    ]
    subprocess.run(words, check=True, env={**os.environ, "GDAL_PAM_ENABLED": "NO"})
    words = ["rgb2pct.py", "-n", "128", "-of", "PNG", str(picture) + ".rgb.png", str(PICTURES / picture.name)]
    subprocess.run(words, check=True, stdout=subprocess.DEVNULL, env={**os.environ, "GDAL_PAM_ENABLED": "NO"})


if __name__ == "__main__":
    sys.exit(main(sys.argv[1:]))
