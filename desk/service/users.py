"""What users take of the limits that all of them share. Each may take a quarter."""
from typing import Dict

from service import limits
from service.limits import of_one_user


class User:
    """A user with connections: how many, the size of the lines that are held and wait, and of unread answers, in memory
    and files."""

    def __init__(self) -> None:
        self.planners, self.held, self.in_memory, self.in_files = 0, 0, 0, 0


class Users:
    def __init__(self) -> None:
        self.by_number: Dict[int, User] = {}
        self.planners, self.held, self.in_files, self.in_memory = 0, 0, 0, 0

    def enter(self, uid: int) -> bool:
        """Counts a connection, unless there are too many."""
        user = self.by_number.get(uid) or User()
        if self.planners >= limits.PLANNERS or user.planners >= of_one_user(limits.PLANNERS):
            return False
        self.by_number[uid] = user
        user.planners += 1
        self.planners += 1
        return True

    def leave(self, uid: int) -> None:
        user = self.by_number[uid]
        user.planners -= 1
        self.planners -= 1
        if not user.planners:
            del self.by_number[uid]

    def hold(self, uid: int, size: int) -> bool:
        """Counts the size of lines that are held, unless it is too much."""
        fits = self.may_hold(uid, size)
        self.count_held(uid, size if fits else 0)
        return fits

    def count_held(self, uid: int, size: int) -> None:
        """Counts the size of lines that are held all the same, or no longer are."""
        self.by_number[uid].held += size
        self.held += size

    def may_hold(self, uid: int, size: int) -> bool:
        """Whether that much more may be held for a user."""
        return is_within(self.by_number[uid].held + size, self.held + size, limits.HELD_BYTES)

    def keep(self, uid: int, size: int) -> bool:
        """Counts the size of unread answers in memory, unless it is too much."""
        of_user = self.by_number[uid].in_memory + size
        fits = is_within(of_user, self.in_memory + size, limits.UNREAD_BYTES_OF_ALL)
        self.count_kept(uid, size if fits else 0)
        return fits

    def count_kept(self, uid: int, size: int) -> None:
        """Counts the size of unread answers that are in memory all the same, or no longer are."""
        self.by_number[uid].in_memory += size
        self.in_memory += size

    def file(self, uid: int, size: int) -> bool:
        """Counts the size of unread answers in files, unless it is too much."""
        user = self.by_number[uid]
        if size > 0 and not is_within(user.in_files + size, self.in_files + size, limits.UNREAD_FILES):
            return False
        user.in_files += size
        self.in_files += size
        return True


def is_within(of_user: int, of_all: int, limit: int) -> bool:
    return of_user <= of_one_user(limit) and of_all <= limit
