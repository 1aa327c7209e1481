"""Who may change what: the rules in FILE.rules, and who a peer of a Unix socket is.

    grow = ["@operators"]
    backup = ["@operators", "berta"]
    act = ["altdesk"]

    [change]
    "north*" = ["anna", "@north"]

    [post]
    "*" = ["berta"]

    [office]
    yard = ["carl"]

    [entries]
    anna = 200

A rule lists users, groups (`@NAME`), or `*` for everybody. Rules for `change`, `new`, `post` and `drop` name
alternatives, those for `office` field offices: an exact name takes precedence over patterns, and otherwise one matching
pattern that lists the person is enough. What no rule allows is denied. Who may `act` says for whom: rules are then
about that person. `entries` has how many alternatives and checkpoints users may have made. Without the file only the
user that the service runs as may change anything."""
import fnmatch
import grp
import os
import pwd
import socket
import struct
from typing import List, NamedTuple, Optional

from service import limits
from service.limits import refusal
from service.lines import OF_THE_STORE, OWN, RIGHTS, alternative_of, names_own, office_of, word

OF_ALTERNATIVES = {"change", "new", "post", "drop"}
OF_NAMES = OF_ALTERNATIVES | {"office"}
TOP = b"top"


class Person(NamedTuple):
    """Who is at the other end of a socket, according to the kernel, or the one for whom that user acts, who is
    `through` then."""

    uid: int
    name: str
    groups: frozenset
    through: Optional["Person"] = None


def person_of(connection):
    credentials = connection.getsockopt(socket.SOL_SOCKET, socket.SO_PEERCRED, struct.calcsize("iII"))
    _, uid, gid = struct.unpack("iII", credentials)
    try:
        name = pwd.getpwuid(uid).pw_name
        gids = {gid, *os.getgrouplist(name, gid)}
    except KeyError:
        name, gids = str(uid), {gid}
    # The service's own name is nobody else's.
    name = str(uid) if name == OWN.decode() else name
    return Person(uid, name, frozenset(map(group_name, gids)))


def acted_for(user: Person, name: str) -> Person:
    """The person of this name, for whom a user acts: with the groups that the system gives a user of that name, if
    there is one."""
    try:
        gids = os.getgrouplist(name, pwd.getpwnam(name).pw_gid)
    except KeyError:
        gids = []
    return Person(user.uid, name, frozenset(map(group_name, gids)), user)


def group_name(gid):
    try:
        return grp.getgrgid(gid).gr_name
    except KeyError:
        return str(gid)


class Unreadable(Exception):
    """The file of rules exists and cannot be used."""


def toml_of(path):
    try:
        import tomllib
    except ImportError:
        try:
            import tomli as tomllib
        except ImportError:
            raise Unreadable(f"{path}: rules need Python 3.11, or the module tomli (python3-tomli)") from None
    try:
        with open(path, "rb") as file:
            return tomllib.load(file)
    except (OSError, ValueError) as fault:
        raise Unreadable(f"{path}: {fault}") from None


def checked(path, table):
    """The rules, if they are well formed."""
    for right, rule in table.items():
        if right == "entries" and isinstance(rule, dict):
            if not all(isinstance(it, int) and not isinstance(it, bool) and it >= 0 for it in rule.values()):
                raise Unreadable(f"{path}: {right} has a number for each user, @group or *")
            continue
        if right in OF_NAMES and isinstance(rule, dict):
            lists = rule.values()
        elif right in OF_THE_STORE:
            lists = [rule]
        else:
            raise Unreadable(f"{path}: {right} is no right")
        for who in lists:
            if not isinstance(who, list) or not all(isinstance(it, str) for it in who):
                raise Unreadable(f"{path}: {right} has a list of users and @groups")
    return table


class Rules:
    def __init__(self, path):
        self.path, self.owner = path, os.geteuid()
        self.table = checked(path, toml_of(path)) if os.path.lexists(path) else None

    def denial(self, person, right, alternative=None):
        """None if the person has the right; else the right, and the rule that denies it."""
        if self.table is None:
            return None if person.uid == self.owner and person.through is None else (right, "~")
        if right == "new" and right not in self.table:
            # Anybody may begin a design; below another one only who may change that.
            return None if alternative == TOP else self.denial(person, "change", alternative)
        rule = self.table.get(right, {} if right in OF_NAMES else [])
        if right in OF_THE_STORE:
            return None if has(person, rule) else (right,)
        name = alternative.decode()
        if name in rule:
            return None if has(person, rule[name]) else (right, name)
        matching = [it for it in rule if fnmatch.fnmatchcase(name, it)]
        if any(has(person, rule[it]) for it in matching):
            return None
        return right, word(matching[0]) if matching else "~"

    def refusal_of(self, person, words, parents) -> Optional[bytes]:
        """Why a person may not make a change, or None. `parents` are those of the alternatives that are known."""
        right, alternative = RIGHTS[words[0]], alternative_of(words)
        if names_own(words):
            return refusal(90, right, OWN.decode())
        denial = None if person.through is None else self.denial(person.through, "act")
        if denial is not None:
            return refusal(90, *denial)
        office = office_of(words)
        if office is not None and self.table is not None and self.denial(person, "office", office) is None:
            return None
        denial = self.denial(person, right, alternative)
        if denial is None and words[0] == b"new" and len(words) > 2:
            denial = self.denial(person, "new", words[2])
        if denial is None and words[0] == b"post":
            return self.refusal_of_post(person, alternative, parents.get(alternative))
        return None if denial is None else refusal(90, *denial)

    def refusal_of_post(self, person, alternative, parent) -> Optional[bytes]:
        """Why a person may not post into the parent of an alternative. Who may change the parent may also post into
        it."""
        if parent is None or self.denial(person, "change", parent) is None:
            return None
        denial = self.denial(person, "post", parent)
        return None if denial is None else refusal(90, *denial)

    def most_entries(self, person) -> Optional[int]:
        """How many alternatives and checkpoints a person may have made; None for any number."""
        if self.table is None:
            return None
        rule = self.table.get("entries", {})
        most: List[int] = [count for who, count in rule.items() if has(person, [who])]
        return max(most, default=limits.ENTRIES)


def has(person, who):
    return "*" in who or person.name in who or any(it[:1] == "@" and it[1:] in person.groups for it in who)
