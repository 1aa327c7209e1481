"""Lines that take effect together, on a store's file as by its service."""
from itertools import groupby
from typing import Dict, Optional, Tuple

from altctl import Ended, Refusal, encode
from carry.links import Link

Key = Tuple[int, int]
# The checkpoint that a batch makes and removes again: no other one sees it.
ASIDE = ".carry"


class Batch:
    """Lines in their order. `carry_out` has all of them done, or none."""

    def __init__(self) -> None:
        self.lines = []

    def add(self, verb: str, *words) -> None:
        self.lines.append((verb, words))

    def set(self, alt: str, values: Dict[Key, Optional[bytes]]) -> None:
        """Gives records values, None for none. Those without are there before."""
        for key, value in sorted(values.items()):
            self.add("remove", alt, *key) if value is None else self.add("put", alt, *key, value)

    def guard(self, alt: str, check: str, name: str) -> None:
        """Has the batch refused, by 8 NotMerged, if the records of `alt` are not those of its checkpoint."""
        self.add("new", name, alt, check)
        self.add("post", name)
        self.add("drop", name)

    def aside(self, alt: str, check: str) -> None:
        """Puts an alternative back to a checkpoint, until `restore`."""
        self.add("checkpoint", alt, ASIDE)
        self.add("back", alt, check)

    def restore(self, alt: str) -> None:
        self.add("back", alt, ASIDE)
        self.add("uncheck", alt, ASIDE)

    def text(self) -> str:
        """The lines as they are written."""
        return "".join(" ".join([verb, *map(word_of, words)]) + "\n" for verb, words in self.lines)

    def carry_out(self, link: Link) -> None:
        store = link.store
        if link.is_service:
            with store.batch():
                self._give(store)
            return
        try:
            self._give(store)
            store.commit()
        except Refusal:
            store.rollback()
            raise

    def _give(self, store) -> None:
        for (verb, alt), lines in groupby(self.lines, lambda it: (it[0], it[1][0])):
            if verb in ("put", "remove"):
                getattr(store, f"{verb}_many")(alt, [words[1:] for _, words in lines])
            else:
                for _, words in lines:
                    getattr(store, verb)(*words)


def word_of(word) -> str:
    return encode(word) if isinstance(word, bytes) else str(word)


def is_gone(fault: Exception) -> bool:
    """Whether the link or the program at its end is gone: what was asked last may be done or not."""
    return isinstance(fault, (Ended, OSError))
