"""Names that files get once they are durable. A file that takes another one's place is written under a name of its own
first: whenever the power is lost, the name has the earlier file or the new one, and never a part of it."""
import os
from typing import Optional


class NameUnsure(OSError):
    """A file has its name, and it is unknown whether it still has it after a loss of power."""


def sync_folder(path: str) -> None:
    """Makes the name of a file durable by syncing its folder."""
    folder = os.open(os.path.dirname(os.path.abspath(path)), os.O_RDONLY | os.O_DIRECTORY)
    try:
        os.fsync(folder)
    finally:
        os.close(folder)


def give_name(part: str, name: str, file: Optional[int] = None) -> None:
    """Gives a file that was written under the name PART its own one. FILE, a descriptor of it, is synced before, unless
    who wrote it has done so. If anything but the last sync fails, the file still has the name PART."""
    if file is not None:
        os.fsync(file)
    os.rename(part, name)
    try:
        sync_folder(name)
    except OSError as fault:
        raise NameUnsure(fault.errno, f"the folder of {name} could not be synced: {fault.strerror}") from None
