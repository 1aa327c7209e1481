"""Tests of the service: limits."""
import contextlib
import re
import socket
import unittest
import unittest.mock

from service import limits
from service.unread import Unread
from service.users import Users
from service_tests.support import DESK


class DocumentTests(unittest.TestCase):
    def test_the_page_has_the_limits_and_the_refusals(self):
        text = (DESK.parent / "docs" / "PLANNERS.md").read_text()
        told = {int(number): name for number, name in re.findall(r"^\| `(\d+) (\w+)", text, re.M)}
        self.assertEqual(limits.REFUSALS, told)
        for row in (
            f"| a line | {limits.LINE_BYTES:,} bytes |",
            f"| a batch between `begin` and `commit` | {limits.BATCH_LINES:,} lines, {limits.BATCH_BYTES >> 20} MiB |",
            f"| from `begin` to `commit` | {limits.HELD_SECONDS // 60} minutes |",
            "| lines of all planners that wait or are in a batch that was begun | "
            f"{limits.HELD_BYTES >> 20} MiB, of one user {limits.HELD_BYTES >> 22} MiB. "
            f"Each line counts {limits.LINE_COST} bytes more",
            f"| connections | {limits.PLANNERS:,}, of one user {limits.of_one_user(limits.PLANNERS)} |",
            f"| waiting lines | {limits.RECEIVED_BYTES >> 10} KiB of each planner;",
            f"| unread answers of all planners in memory | {limits.UNREAD_BYTES_OF_ALL >> 20} MiB, "
            f"of one user {limits.UNREAD_BYTES_OF_ALL >> 22} MiB |",
            f"| temporary files of all planners | {limits.UNREAD_FILES >> 30} GiB, "
            f"of one user {limits.UNREAD_FILES >> 32} GiB |",
            f"| lines in one commit | {limits.GROUP:,}, each KiB counting as one more; "
            f"{limits.GROUP_OF_ONE} batches of one planner,",
            f"| lines of a batch that shares its commit | {limits.SMALL_LINES}, "
            f"of {limits.SMALL_BYTES >> 10} KiB together |",
            f"| alternatives and checkpoints of one user | {limits.ENTRIES}, unless",
        ):
            self.assertIn(row, text)
        self.assertEqual((1 << 20, 60), (limits.UNREAD_BYTES, limits.UNREAD_SECONDS))


class UsersTests(unittest.TestCase):
    """Each user may take a quarter of what all share, and four of them all of it."""

    def setUp(self):
        self.users = Users()
        for uid in range(5):
            self.assertTrue(self.users.enter(uid))

    def taken(self, most, take):
        """How often each of five users, one after another, may take an eighth of a limit."""
        counts = [0] * 5
        for uid in range(5):
            while take(uid, most // 8):
                counts[uid] += 1
        return counts

    def test_lines_that_are_held(self):
        def hold(uid, size):
            fits = self.users.may_hold(uid, size)
            self.users.hold(uid, size if fits else 0)
            return fits

        self.assertEqual([2, 2, 2, 2, 0], self.taken(limits.HELD_BYTES, hold))

    def test_unread_answers(self):
        self.assertEqual([2, 2, 2, 2, 0], self.taken(limits.UNREAD_BYTES_OF_ALL, self.users.keep))
        self.assertEqual([2, 2, 2, 2, 0], self.taken(limits.UNREAD_FILES, self.users.file))

    def test_connections(self):
        counts = [1] * 5
        for uid in range(5):
            while self.users.enter(uid):
                counts[uid] += 1
        quarter = limits.PLANNERS // 4
        self.assertEqual([quarter, quarter, quarter, quarter - 1, 1], counts)


class UnreadTests(unittest.TestCase):
    def test_what_was_added_is_sent(self):
        one, other = socket.socketpair()
        with one, other:
            one.setblocking(False)
            other.settimeout(0.01)
            users = Users()
            users.enter(1)
            unread, sent, read = Unread(users, 1), b"", b""
            for number in range(200):
                part = bytes([number]) * 50_000
                unread.add(part)
                sent += part
                if number % 3 == 0:
                    unread.send(one)
                if number % 2 == 0:
                    with contextlib.suppress(socket.timeout):
                        read += other.recv(70_000)
            self.assertIsNotNone(unread.file)
            while unread:
                unread.send(one)
                read += other.recv(1 << 20)
            one.close()
            while part := other.recv(1 << 20):
                read += part
            self.assertEqual(sent, read)
            self.assertIsNone(unread.file)

    def test_no_file_can_be_made(self):
        users = Users()
        users.enter(1)
        unread = Unread(users, 1)
        with unittest.mock.patch("tempfile.TemporaryFile", side_effect=OSError), self.assertRaises(OSError):
            unread.add(bytes(limits.UNREAD_BYTES + 1))
        self.assertEqual((False, 0), (bool(unread), users.in_files))
