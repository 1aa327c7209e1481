"""A group of batches in the stream of the program: each waits under a number of its own, and `go` has all of them
carried out and committed together. What is refused is undone, and changes nothing for the others."""
from typing import Dict, Iterator, List, NamedTuple, Optional, Sequence

from service.disk_room import ROOM
from service.program import ASKS, SLOTS, Ended, Program, said

# The answers to each line of a batch and to its commit, or None if they did not come.
Verdict = Optional[List[bytes]]


class Outcome(NamedTuple):
    """What came of batches: the verdict on each, the answers to the lines ROOM, which lack if the program ended before
    all was answered, and whether it may have committed then what has no verdict."""

    verdicts: List[Verdict]
    room: List[bytes]
    is_sent: bool = True


def answered(program: Program, batches: Sequence[List[bytes]]) -> Outcome:
    """Has the lines of batches carried out."""
    due = sum([len(it) + 4 for it in batches]) + 2 + 2 * len(ROOM)
    try:
        text = program.exchange(parts_of(batches), due)
        return Outcome(verdicts_of(text, batches), text.split(b"\n")[-2 * len(ROOM) :: 2])
    except Ended as ended:
        # What follows the last line feed is half a line.
        text = ended.text[: ended.text.rfind(b"\n") + 1]
        return Outcome(verdicts_of(text, batches), [], ended.is_sent)


def parts_of(batches: Sequence[List[bytes]]) -> Iterator[bytes]:
    """What is written for batches."""
    for slot, lines in zip(SLOTS, batches):
        yield b"line %d begin\n" % slot
        yield from said(slot, lines)
        yield b"later %d commit\n" % slot
    yield b"go\n"
    yield from said(ASKS, ROOM)


def verdicts_of(text: bytes, batches: Sequence[List[bytes]]) -> List[Verdict]:
    """The verdicts in what was answered. The answer to `begin` is none."""
    found: Dict[bytes, bytes] = {}
    for part in (b"\n" + text[:-1]).split(b"\n@"):
        number, _, body = part.partition(b"\n")
        found[number] = body
    verdicts: List[Verdict] = []
    for slot, lines in zip(SLOTS, batches):
        answers = found.get(b"%d" % slot, b"").split(b"\n")
        verdicts.append(answers if len(answers) == len(lines) + 1 else None)
    return verdicts
