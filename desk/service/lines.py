"""What a line is: a query of the store, a change and the right it requires, or a word of the service."""
import re
from typing import Dict, List, NamedTuple, Optional

# The alternative whose only checkpoint names the last batch that is in the store.
OWN = b".service"


class Line(NamedTuple):
    """The words after the verb, whether it is a query with one line of answer, one with rows, or a change, and the
    right that a change requires."""

    words: str
    kind: str
    right: Optional[str] = None


# Each line of the store that the service passes on. docs/FORMATS.md says what they do.
LINES = {
    b"get": Line("AT TABLE NUMBER", "query"),
    b"free": Line("", "query"),
    b"blocks": Line("", "query"),
    b"tally": Line("ALT", "query"),
    b"list": Line("AT [TABLE [FIRST LAST]]", "rows"),
    b"next": Line("AT TABLE NUMBER COUNT", "rows"),
    b"alts": Line("", "rows"),
    b"checks": Line("ALT", "rows"),
    b"changes": Line("ALT", "rows"),
    b"conflicts": Line("ALT", "rows"),
    b"diff": Line("AT AT [TABLE [FIRST LAST]]", "rows"),
    b"put": Line("ALT TABLE NUMBER VALUE", "change", "change"),
    b"remove": Line("ALT TABLE NUMBER", "change", "change"),
    b"checkpoint": Line("ALT NAME", "change", "change"),
    b"uncheck": Line("ALT NAME", "change", "change"),
    b"back": Line("ALT NAME", "change", "change"),
    b"merge": Line("ALT [SETTLEMENT ..]", "change", "change"),
    b"new": Line("NAME PARENT [CHECKPOINT]", "change", "change"),
    b"post": Line("ALT", "change", "post"),
    b"drop": Line("ALT", "change", "drop"),
    b"reclaim": Line("", "change", "reclaim"),
    b"grow": Line("BLOCKS", "change", "grow"),
}

SINGLE = {verb for verb, line in LINES.items() if line.kind == "query"}
ROWS = {verb for verb, line in LINES.items() if line.kind == "rows"}
RIGHTS = {verb: line.right for verb, line in LINES.items() if line.kind == "change"}
OF_THE_STORE = {"reclaim", "grow", "backup", "archive", "act"}
# Changes whose verb and alternative tell who may make them. What others need depends on more words, or on parents.
BY_ALTERNATIVE = {b"put", b"remove", b"back", b"merge", b"drop"}

# Lines that the service itself answers.
OWN_WORDS = {b"begin", b"commit", b"abort", b"rollback"}
OWN_WORDS |= {b"for", b"whoami", b"batches", b"backup", b"archive", b"log", b"status"}

NAME = re.compile(rb"[A-Za-z0-9_.-]{1,32}")
# The alternative of a field office, and its marks: checkpoints of any alternative. docs/FIELD-OFFICES.md has what they
# are for.
OFFICE = re.compile(rb"\.office\.([A-Za-z0-9_-]{1,15})")
MARK = re.compile(OFFICE.pattern + rb"\.[A-Za-z0-9_.-]+")
# A person for whom another one acts. Digits alone would be the number of a user, a group has `@` before its name, and
# under the name of its alternative the service itself stands in the journal.
PERSON = re.compile(rb"(?![0-9]+$|%s$)[A-Za-z0-9_.-][A-Za-z0-9_.@+-]{0,63}" % re.escape(OWN))
SEEN = re.compile(rb"([A-Za-z0-9_.-]{1,32})=([0-9]{1,19})")
UNPRINTABLE = re.compile(rb"[^ -~]")


def words_of(line: bytes) -> List[bytes]:
    """The words of a line, as the program reads it: one CR at its end does not count, and only spaces separate words.
    None if the line has no answer."""
    words = line.removesuffix(b"\r").split(b" ")
    if b"" in words:
        words = [it for it in words if it]
    return [] if words and words[0].startswith(b"#") else words


def line_of(words: List[bytes]) -> bytes:
    """The line that the program reads as these words. A CR that belongs to the last word has another one after it."""
    line = b" ".join(words)
    return line + b"\r" if line.endswith(b"\r") else line


def seen_of(words: List[bytes]) -> Optional[Dict[str, int]]:
    """The words behind `begin`, `ALT=BATCH` each; None if one is of another form, or names an alternative again."""
    found = [SEEN.fullmatch(it) for it in words]
    seen = {it[1].decode(): int(it[2]) for it in found if it}
    return seen if len(seen) == len(words) else None


def alternative_of(words: List[bytes]) -> Optional[bytes]:
    """The alternative that a change requires its right for: None if the right is one of the store as a whole, b"" if
    the line does not name one, or `new` no parent."""
    if RIGHTS[words[0]] in OF_THE_STORE:
        return None
    names = words[1:3] if words[0] == b"new" else words[1:2]
    return words[1] if names and all(map(NAME.fullmatch, names)) else b""


def why_bad(words: List[bytes]) -> bytes:
    """Why a change is bad that does not name its alternatives, as the program says it: their number is wrong, or else
    the first one that is no name."""
    form = LINES[words[0]].words
    least, kinds = len(form.split("[")[0].split()), re.findall(r"[A-Z]+|\.\.", form)
    if len(words) - 1 < least or len(words) - 1 > len(kinds) and ".." not in kinds:
        return b"word 1 takes %s" % form.encode()
    place = next(it for it in (1, 2) if not NAME.fullmatch(words[it]))
    return b"word %d: %s is 1 to 32 of A-Za-z0-9_.-" % (place + 1, kinds[place - 1].encode())


def names_own(words: List[bytes]) -> bool:
    """Whether a change names the service's own alternative."""
    return OWN in words[1 : 3 if words[0] == b"new" else 2]


def office_of(words: List[bytes]) -> Optional[bytes]:
    """The field office whose name a change makes or removes: its alternative under `top`, a checkpoint of that, or its
    mark on another one. The records of its alternative are none of these: in a clone they say where HEAD is."""
    verb, *names = words
    if verb == b"drop" or verb == b"new" and names[1:] == [b"top"]:
        found = OFFICE.fullmatch(names[0])
    elif verb in (b"checkpoint", b"uncheck") and len(names) == 2:
        found = OFFICE.fullmatch(names[0]) or MARK.fullmatch(names[1])
    else:
        return None
    return found and found[1]


def printable(line: bytes) -> str:
    """A line for the program as text. Bytes that are not printable, which only a value can have, are written with
    `%`."""
    line = line.removesuffix(b"\r")
    if not (line.isascii() and line.decode("ascii").isprintable()):
        line = UNPRINTABLE.sub(lambda it: b"%%%02X" % it[0][0], line)
    return line.decode("ascii")


def word(text: str) -> str:
    """A name or a rule as one word: other bytes are written as in a value."""
    written = text.encode("utf-8", "surrogateescape")
    return re.sub(rb"[^!-~]|%", lambda it: b"%%%02X" % it[0][0], written).decode("ascii")
