"""Alternatives and checkpoints: the parent of each alternative, and which planner made each of them."""
import json
from collections import Counter
from typing import Dict, List, NamedTuple, Optional, Set, Tuple

from service.batch import Batch
from service.durable import give_name
from service.journal_log import Filter, Log
from service.last_changes import changed_by
from service.limits import refusal
from service.lines import word
from service.renewals import author

# The makers by the names of alternatives and checkpoints.
Makers = Dict[str, Dict[str, str]]
# The name under which an alternative itself stands among its checkpoints.
ITSELF = ""


# Verbs of lines that change one record, and of those that make or remove alternatives and checkpoints.
OF_A_RECORD = {b"put", b"remove"}
MAKERS = {b"new", b"drop", b"checkpoint", b"uncheck"}


class Effect(NamedTuple):
    """What a batch changes if it is carried out: which alternatives, how many records beside those of its merges, how
    many merges it has, and whether it makes or removes alternatives or checkpoints; or the place and the refusal of a
    line that needs a right."""

    refused: Optional[Tuple[int, bytes]]
    touched: Set[str]
    records: int
    merges: int
    makes: bool


class Entries:
    """The alternatives of a store. Of those that were there before the service, nobody is the maker."""

    def __init__(self, parents: Optional[Dict[bytes, bytes]] = None, makers: Optional[Makers] = None):
        self.parents = parents or {}
        self.makers = makers or {}
        self.counts = Counter(it for names in self.makers.values() for it in names.values())
        # How often a maker was noted or forgotten.
        self.changes = 0
        # Whether another one has the same tables.
        self.is_shared = False

    def copy(self) -> "Entries":
        """A copy, of which nothing is copied until it is changed. This one must not be changed before that."""
        copied = Entries.__new__(Entries)
        copied.__dict__.update(self.__dict__, is_shared=True)
        return copied

    def _own(self) -> None:
        """Has tables of its own from now on."""
        self.is_shared = False
        self.parents, self.counts = dict(self.parents), Counter(self.counts)
        self.makers = {name: dict(names) for name, names in self.makers.items()}

    # --- what a batch changes ---------------------------------------------------------------------

    def take(self, batch: Batch, rules) -> Effect:
        """Takes in what a batch changes. By the parents that its alternatives have, a line may still need a right that
        its planner lacks. If it is refused, the caller drops what was taken in."""
        touched: Set[str] = set()
        records, merges, makes, who = 0, 0, False, ""
        for place, line in enumerate(batch.lines):
            verb, *words = line.split(b" ", 3)
            if verb in OF_A_RECORD:
                touched.add(words[0].decode())
                records += 1
                continue
            touched |= changed_by(verb, words, self.parents)
            makes = makes or verb in MAKERS
            if verb == b"merge":
                merges += 1
            elif verb == b"post" or verb in MAKERS:
                who = who or word(author(batch))
                refused = self._take(verb, words, batch.person, who, rules)
                if refused is not None:
                    return Effect((place, refused), touched, records, merges, makes)
        return Effect(None, touched, records, merges, makes)

    def _take(self, verb: bytes, words: List[bytes], person, who: str, rules) -> Optional[bytes]:
        if verb == b"post":
            return rules.refusal_of_post(person, words[0], self.parents.get(words[0]))
        self.note(verb, words, who)
        most = rules.most_entries(person) if verb in (b"new", b"checkpoint") else None
        return None if most is None or self.counts[who] <= most else refusal(102, most)

    def note(self, verb: bytes, words: List[bytes], who: str) -> None:
        """Notes what somebody's line has made or removed."""
        if verb not in MAKERS or len(words) < 2 and verb != b"drop":
            return  # The program refuses it.
        if self.is_shared:
            self._own()
        name = words[0].decode()
        if verb == b"new":
            self.parents[words[0]] = words[1]
            self._make(name, ITSELF, who)
        elif verb == b"checkpoint":
            self._make(name, words[1].decode("latin-1"), who)
        elif verb == b"uncheck":
            self._remove(self.makers.get(name, {}), words[1].decode("latin-1"))
        else:
            self.parents.pop(words[0], None)
            names = self.makers.pop(name, {})
            for it in list(names):
                self._remove(names, it)

    def _make(self, name: str, checkpoint: str, who: str) -> None:
        self.makers.setdefault(name, {})[checkpoint] = who
        self.counts[who] += 1
        self.changes += 1

    def _remove(self, names: Dict[str, str], checkpoint: str) -> None:
        who = names.pop(checkpoint, None)
        if who is not None:
            self.counts[who] -= 1
            self.changes += 1

    # --- who made them ----------------------------------------------------------------------------

    def forget_missing(self, checkpoints: Dict[bytes, Set[bytes]]) -> None:
        """Forgets the makers of what is not in the store, where these are the checkpoints of its alternatives."""
        for name in list(self.makers):
            there = {it.decode() for it in checkpoints.get(name.encode(), ())} | {ITSELF}
            for it in list(self.makers[name]):
                if name.encode() not in checkpoints or it not in there:
                    self._remove(self.makers[name], it)

    def save(self, path: str, batch: int) -> None:
        """Writes who made what as of a batch. After a crash the journal has the rest."""
        with open(f"{path}.new", "w") as file:
            json.dump({"batch": batch, "makers": self.makers}, file)
            file.flush()
            give_name(f"{path}.new", path, file.fileno())


def remembered(path: str, log: Log, kept: int) -> Entries:
    """Who made what, as of a batch: from the file that was written last, and the journal since; from the whole journal
    if there is no such file yet."""
    number, makers = saved(path)
    entries = Entries({}, makers)
    for text in log.entries(Filter(after=number, is_in_full=True), kept):
        for line in text.splitlines():
            if line.startswith(b"entry "):
                _, _, _, who, verb, *words = line.split(b" ", 7)
                entries.note(verb, words, who.decode())
    return entries


def saved(path: str) -> Tuple[int, Makers]:
    """The batch and the makers in such a file, or none if there is no such file."""
    try:
        with open(path) as file:
            text = json.load(file)
        return text["batch"], text["makers"]
    except (FileNotFoundError, ValueError, KeyError, TypeError):
        return 0, {}
