"""Answers that are not sent yet: the first in memory, and if there are many, the rest in a temporary file."""
import errno
import socket
import tempfile

from service import limits
from service.users import Users


class Unread:
    """The unread answers of a connection of a user."""

    def __init__(self, users: Users, uid: int):
        self.users, self.uid = users, uid
        self.memory, self.file, self.begin, self.end = bytearray(), None, 0, 0

    def __bool__(self) -> bool:
        return bool(self.memory) or self.file is not None

    def add(self, text: bytes) -> None:
        """Adds answers. Raises OSError if there is no space for them."""
        size = len(text)
        if self.file is None and len(self.memory) + size <= limits.UNREAD_BYTES and self.users.keep(self.uid, size):
            self.memory += text
            return
        if not self.users.file(self.uid, len(text)):
            raise OSError(errno.ENOSPC, "too many unread answers")
        if self.file is None:
            self.begin = self.end = 0
            try:
                self.file = tempfile.TemporaryFile(buffering=0)
            except OSError:
                self.users.file(self.uid, -len(text))
                raise
        self.file.seek(self.end)
        self.end += len(text)
        if self.file.write(text) < len(text):
            raise OSError(errno.ENOSPC, "no space for unread answers")

    def send(self, connection: socket.socket) -> int:
        """Sends what the other end takes now, and returns how many bytes that was."""
        total = 0
        while self.memory or self.file is not None:
            if not self.memory:
                self._refill()
            try:
                sent = connection.send(self.memory)
            except BlockingIOError:
                break
            del self.memory[:sent]
            self.users.count_kept(self.uid, -sent)
            total += sent
        return total

    def _refill(self) -> None:
        self.file.seek(self.begin)
        self.memory += self.file.read(min(limits.UNREAD_BYTES, self.end - self.begin))
        self.users.count_kept(self.uid, len(self.memory))
        self.begin += len(self.memory)
        if self.begin == self.end:
            self._drop_file()

    def _drop_file(self) -> None:
        if self.file is not None:
            self.users.file(self.uid, -self.end)
            self.file.close()
            self.file = None

    def clear(self) -> None:
        """Forgets all of it."""
        self.users.count_kept(self.uid, -len(self.memory))
        self.memory.clear()
        self._drop_file()
