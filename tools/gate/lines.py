"""The lines that the program answers, as data: the table `clients/lines.json`, and what docs/FORMATS.md says of them.
`words.py` uses it."""
from __future__ import annotations

import json
import re
from collections.abc import Iterator
from dataclasses import dataclass
from pathlib import Path

TOP = Path(__file__).resolve().parents[2]
KINDS = ("command", "query", "list")


@dataclass(frozen=True)
class Line:
    """A line with its arguments (`new NAME PARENT`), and what stands for it in the clients."""

    form: str
    kind: str
    example: str
    python: str
    c: str

    @property
    def word(self) -> str:
        return self.form.split()[0]


@dataclass(frozen=True)
class Row:
    """What FORMATS says of a line. The answer is empty if it is that of the row before."""

    form: str
    does: str
    answer: str
    kind: str


def find(pattern: str, text: str, flags: int = re.M) -> re.Match[str]:
    """The first match of a pattern that has to be there."""
    found = re.search(pattern, text, flags)
    if found is None:
        raise LookupError(f"nothing is like {pattern}")
    return found


def read_table(path: Path = TOP / "clients/lines.json") -> tuple[list[Line], list[str]]:
    """The lines of the table, and those of its setup."""
    table = json.loads(path.read_text())
    lines = [Line(it["line"], it["kind"], it["example"], it["python"], it["c"]) for it in table["lines"]]
    wrong = [it.form for it in lines if it.kind not in KINDS]
    if wrong:
        raise ValueError(f"{path}: no kind of {', '.join(wrong)}")
    return lines, table["setup"]


def formats_rows(text: str) -> Iterator[Row]:
    """The rows of the table of lines in docs/FORMATS.md, those with two forms as two."""
    table = find(r"^\| Line \| Does \| Answer \|\n\|[-|]+\|\n((?:\|.*\n)+)", text)[1]
    kind = ""
    for line in table.splitlines():
        forms, does, answer = (it.strip() for it in line.strip("|").split(" | "))
        if answer == "the same":
            answer = ""
        else:
            is_command = answer.startswith("`ok")
            kind = "command" if is_command else "list" if answer.endswith("then `end N`") else "query"
        for form in re.findall(r"`([^`]+)`", forms):
            yield Row(form, does, answer, kind)
