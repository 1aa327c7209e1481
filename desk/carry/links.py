"""Stores near and far: a file, a service's socket, or one on another machine through SSH."""
import os
import re
import shlex
import shutil
import socket
import stat
from typing import List, Optional

from altctl import Ended, Store, Tunnel
from carry import TOP
from reasons import why

FAR = re.compile(r"ssh://(?P<host>[^/:]+)(?::(?P<port>\d+))?(?P<path>/.+)|ssh:(?P<name>[^/:]+):(?P<file>.+)")
# A link that says nothing for half a minute is broken.
SSH_OPTIONS = ["-C", "-o", "BatchMode=yes", "-o", "ServerAliveInterval=10", "-o", "ServerAliveCountMax=3"]


class Fault(Exception):
    """Why something is not done, in a line or two for the person who asked for it. Nothing has changed then."""


class Unopened(Fault):
    """A store's file that cannot be opened."""


def program_path() -> str:
    return os.environ.get("ALTCTL") or shutil.which("altctl") or str(TOP / "altctl")


def ssh_words(place: str) -> List[str]:
    """The command that leads to a socket on another machine. The variable ALTCARRY_SSH stands in for `ssh`."""
    found = FAR.fullmatch(place)
    host = found and (found["host"] or found["name"])
    if not host or host.startswith("-"):
        raise Fault(f"{place} is neither ssh://HOST/PATH nor ssh:HOST:PATH")
    port = ["-p", found["port"]] if found["port"] else []
    command = f"nc -N -U {shlex.quote(found['path'] or found['file'])}"
    return [*shlex.split(os.environ.get("ALTCARRY_SSH", "ssh")), *SSH_OPTIONS, *port, host, command]


def is_socket(path: str) -> bool:
    try:
        return stat.S_ISSOCK(os.stat(path).st_mode)
    except OSError:
        return False


def serves(path: str) -> bool:
    """Whether a service listens at a socket."""
    with socket.socket(socket.AF_UNIX) as probe:
        try:
            probe.connect(path)
            return True
        except OSError:
            return False


def opened(file: str, program: str) -> Store:
    """A store's file. One that cannot be opened, other than for now, is a fault of whoever named it. What is not there
    at all may be the socket of a service that will be back."""
    try:
        return Store(file, program, grow=True)
    except (FileNotFoundError, IsADirectoryError, PermissionError) as fault:
        if isinstance(fault, FileNotFoundError) and fault.filename == file:
            raise
        raise Unopened(f"{file} cannot be opened\n{why(fault)}") from None
    except Ended as ended:
        if ended.status != 1:
            raise
        raise Unopened(f"{file} cannot be opened\n{why(ended)}") from None


class Link:
    """An open store, its whole address, and whether a service works on it. A file whose service runs is asked through
    its socket."""

    def __init__(self, place: str, program: Optional[str] = None):
        place = place if place.startswith("ssh:") else os.path.abspath(place.removeprefix("unix:"))
        self.place = place
        self.is_service = True
        if place.startswith("ssh:"):
            self.store = Store(Tunnel(ssh_words(place)))
        elif is_socket(place):
            self.store = Store(f"unix:{place}")
        elif serves(f"{place}.sock"):
            self.store = Store(f"unix:{place}.sock")
        else:
            self.is_service = False
            self.store = opened(place, program or program_path())

    def __enter__(self) -> "Link":
        return self

    def __exit__(self, kind, *_) -> None:
        self.store.close(quietly=True)
