"""Parts of the service by themselves, in states that a whole one is hardly ever in."""
import socket
import unittest
from types import SimpleNamespace

from service.backups import Copy
from service.planner import Planner
from service.users import Users


class PartsTests(unittest.TestCase):
    def test_a_planner_who_is_closed(self):
        watched, forgotten = [], []
        one, other = socket.socketpair()
        with one, other:
            users = Users()
            users.enter(7)
            server = SimpleNamespace(users=users, touched={}, forget=forgotten.append)
            server.watch = lambda _, events: watched.append(events)
            planner = Planner(server, one, SimpleNamespace(uid=7))
            planner.answer(b"ok\n")
            planner.close()
            planner.close()
            # An event that came at the same moment changes nothing.
            planner.send()
            planner.answer(b"ok\n")
            self.assertEqual(([0], [planner], b""), (watched, forgotten, other.recv(10)))
            self.assertEqual(0, users.in_memory)

    def test_a_copy_whose_program_has_just_ended(self):
        """What it has read cannot be seen, so no second commit is made beside it."""
        copy = Copy.__new__(Copy)
        # No process has this number.
        copy.process = SimpleNamespace(pid=1 << 30, poll=lambda: None)
        copy.store, copy.part = SimpleNamespace(lock=0), "/nowhere/at/all"
        copy.before, copy.is_open, copy.is_last, copy.commits = None, False, False, 1
        self.assertFalse(copy.may_commit())
        copy.commits = 0
        self.assertTrue(copy.may_commit())
