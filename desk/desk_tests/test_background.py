"""Tests of the desk: a background below the features."""
import http.server
import importlib.util
import json
import os
import subprocess
import sys
import threading
import unittest
import urllib.parse
import urllib.request
from pathlib import Path

import numpy
from osgeo import gdal, osr

from desk_tests.support import ALTCTL, DESK, AskingTest, PlanningTest

RED, GREEN, BLUE = (255, 0, 0), (0, 255, 0), (0, 0, 255)


def system(code=2056):
    found = osr.SpatialReference()
    found.ImportFromEPSG(code)
    found.SetAxisMappingStrategy(osr.OAMS_TRADITIONAL_GIS_ORDER)
    return found


def tile(path, west, south, colour, side=500):
    """A picture of one colour, a pixel for each metre."""
    made = gdal.GetDriverByName("GTiff").Create(path, side, side, 3)
    made.SetGeoTransform((west, 1, 0, south + side, 0, -1))
    made.SetProjection(system().ExportToWkt())
    for band, value in enumerate(colour, 1):
        made.GetRasterBand(band).Fill(value)


def tiles(folder):
    """Red in the south-west, blue in the south-east, green in the north-west, and nothing in the north-east."""
    os.makedirs(folder)
    for name, colour, east, north in (("a", RED, 0, 0), ("b", BLUE, 500, 0), ("c", GREEN, 0, 500)):
        tile(os.path.join(folder, f"{name}.tif"), 2600000 + east, 1200000 + north, colour)
    return folder


def colours(value, places):
    """The colours of a picture at places, None where it has none."""
    gdal.FileFromMemBuffer("/vsimem/seen", value)
    seen = gdal.Open("/vsimem/seen").ReadAsArray()
    found = [seen[:, y, x].tolist() for x, y in places]
    return [None if it[3:] == [0] else tuple(255 if part > 200 else 0 for part in it[:3]) for it in found]


class MapServer(http.server.BaseHTTPRequestHandler):
    """A WMS that gives a red picture, and notes what was asked for."""

    def do_GET(self):
        words = dict(urllib.parse.parse_qsl(urllib.parse.urlsplit(self.path).query, keep_blank_values=True))
        self.server.asked.append(words)
        made = gdal.GetDriverByName("MEM").Create("", int(words["WIDTH"]), int(words["HEIGHT"]), 3)
        made.GetRasterBand(1).Fill(255)
        gdal.GetDriverByName("PNG").CreateCopy("/vsimem/made", made)
        file = gdal.VSIFOpenL("/vsimem/made", "rb")
        text = bytes(gdal.VSIFReadL(1, gdal.VSIStatL("/vsimem/made").size, file))
        gdal.VSIFCloseL(file)
        self.send_response(200)
        self.send_header("Content-Type", self.server.kind)
        self.end_headers()
        self.wfile.write(
            text if self.server.kind.startswith("image/") else b"<ServiceException>no such layer</ServiceException>"
        )

    def log_message(self, *_):
        pass


class BackgroundTests(AskingTest):
    def desk(self, file=None, *options):
        tiles(os.path.join(self.folder, "pictures"))
        self.server = http.server.ThreadingHTTPServer(("127.0.0.1", 0), MapServer)
        self.server.asked, self.server.kind, self.server.daemon_threads = [], "image/png", True
        threading.Thread(target=self.server.serve_forever, daemon=True).start()
        self.addCleanup(self.server.server_close)
        self.addCleanup(self.server.shutdown)
        return super().desk(None, "--background", os.path.join(self.folder, "pictures"))

    def other_desk(self, source):
        """Another desk, which has another background."""
        _, url = AskingTest.desk(self, self.socket, "--background", source)
        self.port, self.token = url.split(":")[2].split("/#token=")

    def picture(self, box, places, size=100):
        """What a window shows at places."""
        words = urllib.parse.urlencode({"at": "north", "box": ",".join(map(str, box)), "width": size, "height": size})
        connection = f"http://127.0.0.1:{self.port}/api/background?{words}"
        with urllib.request.urlopen(urllib.request.Request(connection, headers={"X-Desk-Token": self.token})) as answer:
            return colours(answer.read(), places)

    def fault(self, **words):
        its = {"at": "north", "box": "2600000,1200000,2601000,1201000", "width": 100, "height": 100, **words}
        return self.ask(f"/api/background?{urllib.parse.urlencode(its)}", self.token)

    CORNERS = [(10, 90), (90, 90), (10, 10), (90, 10)]

    def test_a_folder_of_pictures(self):
        self.assertEqual("pictures", json.loads(self.ask("/api/state", self.token)[1])["background"])
        self.assertEqual([RED, BLUE, GREEN, None], self.picture((2600000, 1200000, 2601000, 1201000), self.CORNERS))
        self.assertEqual([RED, RED, GREEN, GREEN], self.picture((2600000, 1200450, 2600100, 1200550), self.CORNERS))
        self.assertEqual([None] * 4, self.picture((2700000, 1200000, 2701000, 1201000), self.CORNERS))
        self.assertEqual(403, self.ask("/api/background?at=north&box=0,0,1,1&width=9&height=9")[0])
        for words in (
            {"box": "0,0,0,0"},
            {"box": "0,0,nan,1"},
            {"box": "1,2"},
            {"width": "0"},
            {"width": "100000"},
            {"width": "a"},
        ):
            self.assertEqual(400, self.fault(**words)[0], words)

    def whole(self):
        """The pictures as one."""
        file = f"{self.folder}/all.vrt"
        gdal.BuildVRT(file, sorted(map(str, Path(self.folder, "pictures").iterdir()))).FlushCache()
        return file

    @unittest.skipUnless(importlib.util.find_spec("osgeo_utils"), "gdal2tiles is not installed (python3-gdal)")
    def test_a_folder_of_tiles(self):
        for profile, levels in (("raster", "0-2"), ("mercator", "12-17")):
            folder = f"{self.folder}/{profile}"
            words = ["-q", "-w", "none", f"--profile={profile}", "-z", levels, self.whole(), folder]
            subprocess.run([sys.executable, "-m", "osgeo_utils.gdal2tiles", *words], check=True)
            self.other_desk(folder)
            self.assertEqual(
                [RED, BLUE, GREEN], self.picture((2600000, 1200000, 2601000, 1201000), self.CORNERS)[:3], profile
            )

    def test_a_file_in_another_coordinate_system(self):
        """In degrees, in which the map is not."""
        gdal.Warp(f"{self.folder}/degrees.tif", self.whole(), dstSRS=system(4326), dstAlpha=True).FlushCache()
        self.other_desk(f"{self.folder}/degrees.tif")
        self.assertEqual([RED, BLUE, GREEN], self.picture((2600000, 1200000, 2601000, 1201000), self.CORNERS)[:3])

    def test_a_large_picture_without_overviews_is_shown_near_alone(self):
        path = f"{self.folder}/large.tif"
        made = gdal.GetDriverByName("GTiff").Create(path, 20000, 20000, 3, options=["SPARSE_OK=TRUE"])
        made.SetGeoTransform((2600000, 0.1, 0, 1202000, 0, -0.1))
        made.SetProjection(system().ExportToWkt())
        del made
        self.other_desk(path)
        status, said = self.fault(box="2600000,1200000,2602000,1202000")
        self.assertEqual((409, True), (status, "zoom in" in json.loads(said)["fault"]))
        self.assertEqual([(0, 0, 0)], self.picture((2600000, 1200000, 2600100, 1200100), [(5, 5)]))

    def test_a_map_server(self):
        self.other_desk(f"http://127.0.0.1:{self.server.server_port}/wms?map=town&layers=streets")
        self.assertEqual([RED], self.picture((2600000, 1200000, 2601000.5, 1201000), [(5, 5)]))
        due = {
            "LAYERS": "streets",
            "MAP": "town",
            "SERVICE": "WMS",
            "VERSION": "1.1.1",
            "REQUEST": "GetMap",
            "SRS": "EPSG:2056",
        }
        due.update(
            {"BBOX": "2600000.0,1200000.0,2601000.5,1201000.0", "WIDTH": "100", "HEIGHT": "100", "FORMAT": "image/png"}
        )
        self.assertEqual(
            due, {name: text for name, text in self.server.asked[0].items() if name not in ("STYLES", "TRANSPARENT")}
        )
        self.server.kind = "application/vnd.ogc.se_xml"
        status, said = self.fault()
        self.assertEqual((409, True), (status, "no such layer" in json.loads(said)["fault"]), said)
        self.server.shutdown()
        self.server.server_close()
        self.assertEqual((409, True), (self.fault()[0], "does not answer" in self.fault()[1]))

    def test_what_is_no_background_is_told_at_the_start(self):
        os.makedirs(f"{self.folder}/empty")
        os.makedirs(f"{self.folder}/bad")
        Path(self.folder, "bad", "tilemapresource.xml").write_text("<TileMap/>")
        for source, due in (
            ("empty", "there are no pictures in it"),
            ("bad", "describes no tiles"),
            ("none", "no background can be read"),
            ("map.alt", "no background can be read"),
            ("http://gis.example/wms", "says which layers"),
        ):
            words = [sys.executable, str(DESK / "altdesk"), "--program", ALTCTL, "--background", source, "map.alt"]
            ran = subprocess.run(words, cwd=self.folder, capture_output=True, text=True, timeout=60)
            self.assertEqual((1, True), (ran.returncode, due in ran.stderr), ran.stderr)


def town(folder):
    """Roofs between streets, as from above."""
    os.makedirs(folder)
    tile(os.path.join(folder, "town.tif"), 2599900, 1199900, (225, 225, 215))
    made = gdal.Open(os.path.join(folder, "town.tif"), gdal.GA_Update)
    for x in range(0, 480, 40):
        for y in range(0, 480, 30):
            roof = numpy.full((17, 24), 140 + (x + 2 * y) % 60, "u1")
            for band in (1, 2, 3):
                made.GetRasterBand(band).WriteArray(roof, x + 8, y + 6)
    return folder


class BackgroundPageTests(PlanningTest):
    def test_it_lies_below_the_features_and_can_be_switched_off(self):
        folder = town(os.path.join(self.folder, "aerial"))
        browser = self.browser()
        browser.open(self.desk(None, "--background", folder)[1])
        browser.choose_design("north")
        image = browser.one("#map img.background")
        browser.until(lambda: browser.run("return arguments[0].complete && arguments[0].naturalWidth", image))
        self.assertEqual("Background: aerial", browser.one("#layers li:last-child label").text)
        # It fills the map, and features are above it.
        box, frame = (
            browser.run(
                "const it = arguments[0].getBoundingClientRect();"
                "return [it.left, it.top, it.right, it.bottom].map(Math.round)",
                it,
            )
            for it in (browser.one("#map img.background"), browser.one("#map"))
        )
        self.assertLess(max(abs(one - other) for one, other in zip(box, frame)), 3)
        script = "const it = document.querySelector('#map path').getBoundingClientRect();"
        script += "return document.elementFromPoint(it.left + it.width / 2, it.top + it.height / 2).tagName"
        self.assertEqual("path", browser.run(script))
        browser.picture("desk-background")
        browser.click("#layer-background")
        browser.until(lambda: not browser.all("#map img.background"))
        browser.click("#whole")
        browser.click("#layer-background")
        browser.one("#map img.background")
        self.assertEqual([], browser.faults())
