#!/usr/bin/env python3
"""Tests of the service over real stores: `desk/test_altserve.py [CLASS ..]`, with the program's path in the variable
ALTCTL, or else with the one that `./altctl` at the top builds. What needs rights or programs that are missing is
skipped, with a line that says so. The tests lie in `desk/service_tests`."""
import sys
import unittest
from pathlib import Path

sys.dont_write_bytecode = True
HERE = Path(__file__).resolve().parent
sys.path[:0] = [str(HERE), str(HERE.parent / "clients" / "python")]
from service_tests.test_archives import ArchiveTests, RestoreFromArchivesTests
from service_tests.test_backups import BackupTests, PacingTests
from service_tests.test_batches import BatchTests
from service_tests.test_changed import ChangedTests, LastChangesTests
from service_tests.test_crashes import CrashTests, VolumeTests
from service_tests.test_devices import DeviceTests, SyncTests
from service_tests.test_disk_room import DiskRoomTests, OpenedTests, UsesTests
from service_tests.test_durable import DurableTests, NameTests
from service_tests.test_fairness import BoundTests, FairnessTests, LeavingTests
from service_tests.test_hostile import HostileTests
from service_tests.test_journal import JournalTests
from service_tests.test_limits import DocumentTests, UnreadTests, UsersTests
from service_tests.test_lines import LineTests
from service_tests.test_log import IndexTests, LogTests
from service_tests.test_parts import PartsTests
from service_tests.test_recent import RecentTests, RecordTests
from service_tests.test_renewals import RenewalTests
from service_tests.test_restore import RestoreTests
from service_tests.test_rules import ActingTests, RulesTests
from service_tests.test_signals import ShortageTests, SignalTests
from service_tests.test_sockets import SocketTests
from service_tests.test_starts import ReasonTests, StartTests
from service_tests.test_status import RoomTests, StatusTests
from service_tests.test_stores import StoreTests
from service_tests.test_turns import PaceTests, TurnsTests

if __name__ == "__main__":
    result = unittest.main(exit=False).result
    for test, reason in result.skipped:
        print(f"skipped: {test.id().split('.')[-1]}: {reason}", file=sys.stderr)
    sys.exit(not result.wasSuccessful())
