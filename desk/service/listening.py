"""The socket that planners connect to: the service makes it, or systemd has made it."""
import contextlib
import os
import shutil
import socket
import stat

from service import limits

# The first descriptor that systemd passes.
HANDED_OVER = 3


class Occupied(Exception):
    """Something else has the path of the socket, or there is no such group."""


@contextlib.contextmanager
def listening(path, group=None):
    """The listening socket. If the service made it, it is removed at the end."""
    if os.environ.get("LISTEN_PID") == str(os.getpid()) and os.environ.get("LISTEN_FDS") == "1":
        with socket.socket(fileno=HANDED_OVER) as listener:
            os.set_inheritable(HANDED_OVER, False)
            yield listener
        return
    make_free(path)
    with socket.socket(socket.AF_UNIX) as listener:
        # It has its mode from the beginning, so others cannot connect at any moment.
        before = os.umask(0o177)
        try:
            listener.bind(path)
        except OSError as fault:
            raise Occupied(f"{path}: no socket can be made there\n{fault.strerror or fault}") from None
        finally:
            os.umask(before)
        if group is not None:
            try:
                shutil.chown(path, group=group)
            except LookupError:
                raise Occupied(f"{path}: there is no group {group}") from None
            os.chmod(path, 0o660)
        listener.listen(limits.PLANNERS)
        made = os.stat(path).st_ino
        try:
            yield listener
        finally:
            with contextlib.suppress(FileNotFoundError):
                if os.stat(path).st_ino == made:
                    os.unlink(path)


def make_free(path):
    """Removes the socket of a service that was killed, and nothing else."""
    try:
        is_socket = stat.S_ISSOCK(os.lstat(path).st_mode)
    except FileNotFoundError:
        return
    if not is_socket:
        raise Occupied(f"{path} is there, and is no socket")
    with socket.socket(socket.AF_UNIX) as other:
        try:
            other.connect(path)
        except ConnectionRefusedError:
            os.unlink(path)
        else:
            raise Occupied(f"{path}: another service listens there")
