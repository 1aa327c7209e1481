"""Renewals of the index of places: batches that make the alternative `.places` anew, and do nothing else.

No design shows this alternative, so a renewal is no planner's work, whoever sends it: the journal names the service as
the one who did it, and `log` lists it as one line. All its lines are in the journal, and so is the uid of the user who
sent it. desk/places.py makes the index."""
import re
from typing import List

from service.batch import Batch
from service.lines import OWN

# Who has done it. No person has this name.
SERVICE = OWN.decode("ascii")
INDEX = ".places"
DROP, NEW = b"drop .places", b"new .places top"
# The tables of the index. What else somebody puts there might be a feature.
PUT = re.compile(rb"put \.places 65[01][0-9]{2} ")


def is_renewal(lines: List[bytes]) -> bool:
    """Whether these lines make the index anew, and do nothing else."""
    if not lines or lines[0] not in (DROP, NEW):
        return False
    at = 1 if lines[0] == DROP else 0
    return lines[at : at + 1] == [NEW] and all(map(PUT.match, lines[at + 1 :]))


def author(batch: Batch) -> str:
    """The name under which a batch stands in the journal. The uid beside it tells who has sent a renewal. It would not
    tell for whom, so what is sent for another person stands under that person's name."""
    return SERVICE if batch.person.through is None and is_renewal(batch.lines) else batch.person.name


def is_told_in_one_line(who: bytes, alternatives: List[bytes]) -> bool:
    """Whether a batch of the journal is listed as a renewal."""
    return who == OWN and alternatives == [INDEX.encode("ascii")]


def summary(records: int) -> bytes:
    """The line that stands for those of a renewal."""
    return b"renew %s %d" % (INDEX.encode("ascii"), records)
