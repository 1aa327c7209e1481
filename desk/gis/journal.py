"""`altgis history`: who changed which field of a feature, and when."""
import re

from altctl import Entry

from maps import TABLES, Fault
from maps.history import history
from service.journal_log import Filter, Log

FEATURE = re.compile(r"(\d{1,2}):(\d{1,20})")


def feature_of(word):
    found = FEATURE.fullmatch(word)
    if not found or int(found[1]) not in TABLES or int(found[2]) >= 2**64:
        raise Fault(f"a feature is TABLE:NUMBER, and not {word}")
    return int(found[1]), int(found[2])


def entries_of(file):
    """What gives the lines of the journal beside a store's file."""
    try:
        log = Log(f"{file}.journal")
    except FileNotFoundError:
        raise Fault(f"{file} has no journal: a service writes it, from its first start on") from None

    def entries(key):
        for text in log.entries(Filter(record=key)):
            for line in text.decode("ascii").splitlines():
                word, *words = line.split(" ", 4)
                if word == "entry":
                    yield Entry(int(words[0]), *words[1:])

    return entries


def tell(store, words):
    """A line for each batch, the latest first."""
    found = history(store, feature_of(words.feature), None if words.is_service else entries_of(words.store))
    for it in found:
        time = it.time.partition(".")[0].replace("T", " ")
        print(f"{it.batch} {time} UTC {it.planner}, {it.text}: {'; '.join(it.changes)}")
    if not found:
        print(f"nobody has changed {words.feature} since the journal began")
