#!/usr/bin/env python3
"""Tests of the desk in a headless Chromium, over real stores and the service: `desk/test_altdesk.py [CLASS ..]`, with
the program's path in the variable ALTCTL, or else with the one that `./altctl` at the top builds. `--pictures` writes
those of docs/pictures anew. Where a browser or a module is not there, a line says that they are skipped. The tests lie
in `desk/desk_tests`."""
import os
import shutil
import sys
import unittest
from pathlib import Path

sys.dont_write_bytecode = True
HERE = Path(__file__).resolve().parent
DEBIAN = "/usr/bin/python3"
PACKAGES = "python3-selenium chromium chromium-driver python3-aiohttp python3-gdal libjs-leaflet"
sys.path[:0] = [str(HERE), str(HERE.parent / "clients" / "python")]
try:
    import aiohttp
    import numpy
    from osgeo import gdal
    from selenium import webdriver
except ImportError as fault:
    if os.path.exists(DEBIAN) and sys.executable != DEBIAN:
        os.execv(DEBIAN, [DEBIAN, *sys.argv])
    print(f"test_altdesk: skipped, {fault} (`apt install {PACKAGES}`)")
    sys.exit(0)
if not all(map(shutil.which, ("chromium", "chromedriver"))) or not os.path.exists("/usr/share/javascript/leaflet"):
    print(f"test_altdesk: skipped, for a browser or Leaflet is not there (`apt install {PACKAGES}`)")
    sys.exit(0)
from desk_tests.test_background import BackgroundPageTests, BackgroundTests
from desk_tests.test_bad_records import BadRecordTests
from desk_tests.test_behind import BehindTests, NotBehindTests
from desk_tests.test_conflicts import ConflictTests
from desk_tests.test_demo import DemoTests
from desk_tests.test_designs import DesignsTests, IndexedDesignsTests
from desk_tests.test_door import DoorTests
from desk_tests.test_drawing import DrawingTests
from desk_tests.test_journal import JournalTests
from desk_tests.test_late import LateTests
from desk_tests.test_looking import LookingTests
from desk_tests.test_office import OfficePageTests, OfficeTests
from desk_tests.test_page import PageTests
from desk_tests.test_people import TogetherTests, TwoPeopleTests, UnseenTests
from desk_tests.test_pieces import PiecesTests, ReadingTests
from desk_tests.test_renewals import RenewalOfFileTests, RenewalRightsTests, RenewalTests
from desk_tests.test_rounds import RoundsTests
from desk_tests.test_service import ServicePageTests
from desk_tests.test_window import ManyFeaturesTests, WhatIsNotDrawnTests

if __name__ == "__main__":
    unittest.main(argv=[it for it in sys.argv if it != "--pictures"])
