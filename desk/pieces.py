"""Long work in a thread of its own, which stands still while somebody asks. Threads of Python take turns, so a question
would wait for such a thread each time that it has waited for anything else."""
import contextlib
import time

PIECE_SECONDS = 0.02  # of work, after which it is looked whether somebody asks
CALM_SECONDS = 0.1  # without a question, before the work goes on: a page asks several in a row
REST_SECONDS = 5  # at most: the service closes a connection that takes nothing of an answer for a minute


class Pieces:
    """Which questions are open. One thread takes them, and the one that works looks whether there are any."""

    def __init__(self):
        self._open, self._wanted, self._last = 0, 0, -CALM_SECONDS

    @contextlib.contextmanager
    def question(self):
        """Somebody asks."""
        self._open += 1
        try:
            yield
        finally:
            self._open -= 1
            self._last = time.monotonic()

    @contextlib.contextmanager
    def wanted(self):
        """Somebody waits for the work itself, which stands still for no longer than it goes on then."""
        self._wanted += 1
        try:
            yield
        finally:
            self._wanted -= 1

    def of(self, rows):
        """Rows to work with, and a rest after each piece of that work if somebody asks."""
        until = time.monotonic() + PIECE_SECONDS
        for row in rows:
            yield row
            if time.monotonic() >= until:
                self._rest()
                until = time.monotonic() + PIECE_SECONDS

    def _rest(self):
        begun = time.monotonic()
        while self._is_asked() and time.monotonic() - begun < (PIECE_SECONDS if self._wanted else REST_SECONDS):
            time.sleep(PIECE_SECONDS / 2)

    def _is_asked(self):
        return self._open > 0 or time.monotonic() - self._last < CALM_SECONDS
