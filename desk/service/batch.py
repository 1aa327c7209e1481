"""A batch: lines of one planner that take effect together or not at all."""
import time
from typing import Dict, List, Optional, Tuple

from service import limits
from service.limits import refusal


class Batch:
    """Lines of one planner. In the end it has the answers to all of them, or the position and the answer of the one
    that was refused; the position after the last line stands for `commit`."""

    answers: Optional[List[bytes]] = None
    refused: Optional[Tuple[int, bytes]] = None
    # Whether it was refused and has a line `merge`.
    may_merge = False
    # What its lines count for among all that is held.
    held = 0
    # It comes first in its group if one of the last batches of its planner had others carried out again.
    is_doubtful, has_disturbed = False, False
    # It is carried out by itself, perhaps with its line in the journal's file before, and how often the program ended
    # at it then. How many lines of the service were carried out with it.
    is_alone, is_told_first, tries, own = False, False, 0, 0
    # How it is refused if no earlier line is: how many lines it may have until then, and the place and the answer.
    due: Optional[Tuple[int, int, bytes]] = None

    def __init__(
        self, person, lines=(), is_explicit=False, rules=None, source=None, seen: Optional[Dict[str, int]] = None
    ):
        self.person, self.lines, self.is_explicit = person, list(lines), is_explicit
        # Alternatives that must not have changed since the batch that its planner saw.
        self.seen = seen or {}
        # Batches of one source are carried out in their order.
        self.source = self if source is None else source
        self.count, self.begun = len(self.lines), time.monotonic()
        self.bytes = sum(map(len, self.lines))
        # The rules that have allowed its lines. They are looked at again if others are in force when it is carried out.
        self.rules = rules

    def hold(self, line: bytes) -> None:
        """Adds a line. If an earlier one was refused, the line is only counted."""
        self.count += 1
        if self.refused is None:
            self.lines.append(line)
            self.bytes += len(line)

    def hold_all(self, lines: List[bytes], size: int) -> None:
        """Adds lines of this size to a batch of which none was refused."""
        self.count += len(lines)
        self.lines += lines
        self.bytes += size

    def refuse(self, place: int, answer: bytes) -> None:
        """Notes the refused line, and forgets all lines."""
        if self.refused is None:
            self.refused = place, answer
            self.may_merge = any(it.startswith(b"merge ") for it in self.lines)
            self.lines, self.bytes, self.seen, self.answers = [], 0, {}, None

    def refuse_if_open(self, answer: bytes) -> None:
        """Refuses it as a whole, unless it is settled."""
        if not self.is_settled():
            self.refuse(self.count, answer)

    def is_settled(self) -> bool:
        return self.answers is not None or self.refused is not None

    def is_small(self) -> bool:
        """Whether it may share its commit with others."""
        return len(self.lines) <= limits.SMALL_LINES and (
            self.bytes <= limits.SMALL_BYTES or self.count == 1 and self.bytes <= limits.LINE_BYTES
        )

    def text(self) -> bytes:
        """The answer to the planner."""
        if self.refused is None:
            return b"\n".join([*(self.answers or []), *[b"ok"] * self.is_explicit, b""])
        place, answer = self.refused
        if not self.is_explicit:
            return answer + b"\n"
        others = refusal(91, place + 1) + b"\n"
        return others * place + answer + b"\n" + others * (self.count - place)


def refused_place(answers: List[bytes]) -> Optional[int]:
    """The position of the line for which a batch was refused: the others are answered that they were not done."""
    for place, it in enumerate(answers):
        if it.startswith(b"error ") and not it.startswith(b"error 91 "):
            return place
    return None
