"""The last entries of the journal, as records of the alternative `.service` in the store.

Each batch is committed together with such a record, its line in the journal, so store and journal agree whatever comes
in between. The file of the journal gets the line after the commit, and once it is durable there, a stamp makes the
alternative anew, without records: the name of its only checkpoint is the last batch that the file surely has.

The parts of a line are values of one number, in tables from 65535 down, and numbers rise with the batches. A value
begins with random digits, so nobody can have put it into `top` before, where it would not show as a change. The
number of a batch is not known before its commit. So its record has the least that it can have, and the number is that,
or one more than that of the batch before it."""
import os
import re
from typing import Dict, Iterable, List, Sequence, Tuple

from service.journal import HEAD, TAIL
from service.lines import OWN

# The table of the first part, how many parts there are at most, and how long each is beside the digits.
FIRST, PARTS, DIGITS = 65535, 16, 8
PART = 4000 - DIGITS
LONGEST = PARTS * PART
ESCAPED = re.compile(rb"%([0-9A-Fa-f]{2})")


def stamp_of(number: int) -> List[bytes]:
    """The lines that make the alternative anew, as of a batch. They take no block."""
    return [b"drop " + OWN, b"new %s top" % OWN, b"checkpoint %s %d" % (OWN, number)]


def puts_of(key: int, line: bytes) -> List[bytes]:
    """The lines that put a line of the journal, at most LONGEST bytes, into the store."""
    digits, puts = os.urandom(DIGITS // 2).hex().encode("ascii"), []
    for place, at in enumerate(range(0, len(line), PART)):
        value = line[at : at + PART].replace(b"%", b"%25").replace(b" ", b"%20")
        puts.append(b"put %s %d %d %s%s" % (OWN, FIRST - place, key, digits, value))
    return puts


def entries_of(changes: Iterable[Sequence[bytes]], last: int) -> Dict[int, Tuple[int, bytes]]:
    """The batches that the rows of `changes .service` tell, after a stamp as of a batch: their numbers, and their lines
    in the journal, by the numbers of the records. Raises ValueError if a row is no record of a service."""
    parts: Dict[int, List[Tuple[int, bytes]]] = {}
    for _, table, key, _, value in changes:
        text = ESCAPED.sub(lambda it: bytes([int(it[1], 16)]), value)
        parts.setdefault(int(key), []).append((-int(table), text[DIGITS:]))
    found = {}
    for key in sorted(parts):
        line = b"".join([text for _, text in sorted(parts[key])])
        head = HEAD.match(line)
        if head is None or not line.endswith(TAIL[:-1].encode("ascii")):
            raise ValueError(f"record {key}")
        last = max(last + 1, int(head["number"]))
        found[key] = last, b'{"batch":%d' % last + line[head.end("number") :]
    return found


def last_batch(checks: Iterable[str], changes: Iterable[str]) -> int:
    """The last batch in a store, by the rows that `checks .service` and `changes .service` are answered."""
    [last] = [int(it.split()[1]) for it in checks if it.startswith("checkpoint ")]
    rows = [it.encode("ascii").split(b" ") for it in changes if it.startswith("change ")]
    return max([number for number, _ in entries_of(rows, last).values()], default=last)
