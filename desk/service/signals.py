"""Signals that end the service, or have it read the rules again. They are caught before anything is opened."""
import signal
import socket


class Signals:
    """TERM and INT end the service after the current round. HUP makes it read the rules again. `woken` becomes
    readable."""

    def __init__(self) -> None:
        self.ends, self.rereads = False, False
        self.woken, self.waker = socket.socketpair()
        for it in (self.woken, self.waker):
            it.setblocking(False)
        signal.set_wakeup_fd(self.waker.fileno(), warn_on_full_buffer=False)
        for it in (signal.SIGTERM, signal.SIGINT):
            signal.signal(it, self._end)
        signal.signal(signal.SIGHUP, self._reread)

    def _end(self, *_: object) -> None:
        self.ends = True

    def _reread(self, *_: object) -> None:
        self.rereads = True

    def take(self) -> None:
        """Reads what woke the service."""
        self.woken.recv(4096)
