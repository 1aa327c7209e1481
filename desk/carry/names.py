"""The names by which two stores know what the other one has.

| Name | In | Says |
|---|---|---|
| `.office.NAME`, an alternative under `top` | both | there is an office; its checkpoint is the last step's *token* |
| `.office.NAME.TOKEN`, a checkpoint of a design | both | the *mark*: the design as both know it, since that step |
| `.base.HASH`, a checkpoint of a design's parent | the clone | the base of the design as both sides know it |

A step (a pull, a push) makes a token at random, and names it in one batch on each side, together with all that it
changes there. So after an interruption the names tell what is done. If no token is on both sides, they are not a
store and its clone, or one of them was put back from a backup.

The clone's `.office.NAME` also has a record, 65535:0: HEAD's address, the tables that the clone has, and a push under
way."""
import contextlib
import hashlib
import json
import re
import secrets
from typing import Dict, List, NamedTuple, Optional

from altctl import Refusal, Store
from carry.batch import Batch
from carry.links import Fault

PREFIX = ".office."
NAME = re.compile("[A-Za-z0-9_-]{1,15}")
SETTINGS = 65535, 0
LONGEST = 32
MINE = ".carry.mine"  # A design of the clone as it was looked at, until the batch that rests on it.


def checked(name: str) -> str:
    if not NAME.fullmatch(name):
        raise Fault(f"an office's name has 1 to 15 letters, digits, _ and -: {name}")
    return name


def office_of(name: str) -> str:
    return PREFIX + name


def new_token() -> str:
    return secrets.token_hex(4)


def mark(name: str, token: str) -> str:
    return f"{PREFIX}{name}.{token}"


def base_mark(design: str) -> str:
    return ".base." + hashlib.sha256(design.encode()).hexdigest()[:12]


def passing(design: str, token: str) -> str:
    """The name of an alternative that a batch makes and drops again. It begins as its design does, as rules may go by
    that."""
    return f"{design[: LONGEST - 9]}.{token}"


def beside(design: str, name: str, taken) -> str:
    """A free name for an office's own version of a design."""
    for number in range(1, 1000):
        end = f".{name}" + (str(number) if number > 1 else "")
        found = design[: LONGEST - len(end)] + end
        if found not in taken:
            return found
    raise Fault(f"there are too many designs named {design}.{name}: drop some")


class Names(NamedTuple):
    """The names of an office in a store: the parent of each alternative, the office's tokens, the tokens of its marks
    by design, and all checkpoints by alternative."""

    parents: Dict[str, Optional[str]]
    tokens: List[str]
    marks: Dict[str, List[str]]
    checks: Dict[str, List[str]]

    def extra(self, name: str, kept: Dict[str, str], token: str):
        """The marks that are not among those kept."""
        return [(alt, mark(name, it)) for alt, tokens in self.marks.items() for it in tokens if kept.get(alt) != it]


def read_names(store: Store, name: str) -> Names:
    [rows] = store.answers_of([("alts",)])
    parents = {alt: None if parent == "~" else parent for alt, parent in rows}
    own = [it for it in parents if not it.startswith(".")] + ([office_of(name)] if office_of(name) in parents else [])
    answers = store.answers_of([("checks", it) for it in own])
    checks = {alt: [it[0] for it in rows] for alt, rows in zip(own, answers) if not isinstance(rows, Refusal)}
    tokens = checks.pop(office_of(name), [])
    begin = mark(name, "")
    found = {alt: [it[len(begin) :] for it in names if it.startswith(begin)] for alt, names in checks.items()}
    return Names(parents, tokens, {alt: marks for alt, marks in found.items() if marks}, checks)


def renew(batch: Batch, name: str, old: Optional[str], tokens: List[str], settings: Optional[dict] = None) -> None:
    """Names the tokens of an office anew. The batch is refused, by 3 NoSuchCheckpoint, if `old` is none of them now.
    The alternative is made again, so it keeps no old version of `top` in use."""
    office = office_of(name)
    if old is not None:
        batch.add("uncheck", office, old)
        batch.add("drop", office)
    batch.add("new", office, "top")
    if settings is not None:
        batch.add("put", office, *SETTINGS, text_of(settings))
    for it in tokens:
        batch.add("checkpoint", office, it)


def text_of(settings: dict) -> bytes:
    return json.dumps(settings, sort_keys=True).encode()


def settings_of(store: Store):
    """The name of the office whose clone a store is, and its settings. It may have offices of its own, which have
    none."""
    [rows] = store.answers_of([("alts",)])
    for office in [alt for alt, _ in rows if alt.startswith(PREFIX)]:
        value = store.get(office, *SETTINGS)
        with contextlib.suppress(ValueError, TypeError):
            settings = json.loads(value)
            if isinstance(settings, dict) and settings.get("office") == office[len(PREFIX) :]:
                return settings["office"], settings
    raise Fault("this store is no clone: altcarry clone makes one")
