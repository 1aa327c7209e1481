"""Tests of the service: sockets."""
import grp
import os
import signal
import socket
import stat
from pathlib import Path

from service_tests.support import Raw, ServiceTest


class SocketTests(ServiceTest):
    def mode(self, path):
        return stat.S_IMODE(os.stat(path).st_mode)

    def test_who_reaches_the_socket(self):
        self.start()
        self.assertEqual((0o600, 0o600), (self.mode(self.socket), self.mode(self.journal)))
        self.stop()
        self.start("--socket", f"{self.folder}/other.sock", "--group", grp.getgrgid(os.getgid()).gr_name)
        self.assertEqual(0o660, self.mode(f"{self.folder}/other.sock"))
        with Raw(f"{self.folder}/other.sock") as one:
            self.assertEqual(["ok"], one.ask("put top 1 1 a"))

    def test_a_group_that_is_none(self):
        self.assertEqual(
            (1, f"altserve: {self.socket}: there is no group of-nobody\n"), self.failed("--group", "of-nobody")
        )

    def test_what_stands_where_the_socket_is_to_be(self):
        Path(self.socket).write_text("a file")
        self.assertEqual((1, f"altserve: {self.socket} is there, and is no socket\n"), self.failed())
        self.assertEqual("a file", Path(self.socket).read_text())
        os.unlink(self.socket)
        with socket.socket(socket.AF_UNIX) as other:
            other.bind(self.socket)
            other.listen()
            self.assertEqual((1, f"altserve: {self.socket}: another service listens there\n"), self.failed())
        # Now nobody listens there any longer.
        self.start()
        self.stop(signal.SIGKILL)
        self.assertTrue(os.path.exists(self.socket))
        self.start()
        with self.planner() as one:
            self.assertEqual(["ok"], one.ask("put top 1 1 a"))

    def test_a_socket_that_systemd_hands_over(self):
        with socket.socket(socket.AF_UNIX) as listener:
            listener.bind(self.socket)
            listener.listen()
            script = f'exec 3<&{listener.fileno()}; LISTEN_PID=$$ LISTEN_FDS=1 exec "$@"'
            self.start(before=["sh", "-c", script, "sh"], pass_fds=[listener.fileno()])
            with self.planner() as one:
                self.assertEqual(["ok"], one.ask("put top 1 1 a"))
            self.assertEqual(0, self.stop())
        self.assertTrue(os.path.exists(self.socket))
