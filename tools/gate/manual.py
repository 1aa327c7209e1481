#!/usr/bin/env python3
"""Writes the manual pages of the desk's programs, docs/altserve.1 and the others, from what their `--help` says:
`tools/gate/manual.py`. With `--check` it writes nothing, and names each page that differs. A program that does not
start, as what it needs is not installed, is left out, with a line that says so. That of altctl is written by hand."""
import os
import re
import subprocess
import sys
from pathlib import Path
from typing import Dict, Iterator, List, NamedTuple, Optional, Tuple

TOP = Path(__file__).resolve().parents[2]
DOCUMENTS = "/usr/share/doc/zonegrater"
FAILED = "It failed, or was refused. Standard error says why."


class Page(NamedTuple):
    """What `--help` does not say: a line on the program, its statuses, its files, and where to read on."""

    about: str
    statuses: Dict[int, str]
    files: Dict[str, str]
    reading: str


PAGES = {
    "altserve": Page(
        "a service over one map store, for many planners at once",
        {0: "A signal ended the service, or the word was done.", 1: "It could not start, or the word failed.",
         2: "The arguments are wrong.", 3: "The store or its journal failed, or was moved, removed or replaced."},
        {"FILE.sock": "the socket, unless \\-\\-socket or systemd gives another one", "FILE.rules": "who may do what",
         "FILE.journal": "who changed what, and when",
         "FILE.journal.index": "an index of it, made again if it is missing",
         "FILE.owners": "who made which alternative", "FILE.backups/": "what backup NAME has copied",
         "FILE.archives/": "older entries of the journal",
         "/var/lib/altserve/NAME.alt, /run/altserve/NAME.sock": "the store and the socket of the unit altserve@NAME",
         "/etc/default/altserve": 'options of these units, as OPTIONS="\\-\\-grow"'},
        "PLANNERS.md",
    ),
    "altdesk": Page(
        "designs of a map store in a browser",
        {0: "It was ended by Ctrl-C or TERM.", 1: FAILED, 2: "The arguments are wrong."},
        {},
        "../desk/README.md",
    ),
    "altcarry": Page(
        "designs that travel to an office with a poor network, and back",
        {0: "It was done.", 1: FAILED, 2: "The arguments are wrong.",
         3: "The link, or a store's program, is gone. Do it again: nothing is done twice."},
        {},
        "FIELD-OFFICES.md",
    ),
    "altgis": Page(
        "brings layers of maps into a map store and out of it",
        {0: "It was done.", 1: FAILED, 2: "The arguments are wrong.", 3: "Bad features were left out, and are named."},
        {},
        "MAPS.md",
    ),
}


def help_of(program: str, word: str) -> Optional[str]:
    """What a program says of itself, or of one of its words; None if it does not start."""
    words = [str(TOP / "desk" / program), *([word] if word else []), "--help"]
    settings = {**os.environ, "COLUMNS": "2000", "LC_ALL": "C.UTF-8"}
    ran = subprocess.run(words, stdout=subprocess.PIPE, stderr=subprocess.DEVNULL, env=settings, text=True)
    return ran.stdout if ran.returncode == 0 else None


def words_of(program: str, text: str) -> List[str]:
    """The other words of a program, in the order in which `--help` lists them."""
    found = re.findall(rf"^    (\w+)  +\S|\b{program} (\w+) --help", text, re.M)
    return [listed or named for listed, named in found]


def roff(text: str) -> str:
    text = text.replace("\\", "\\e").replace("-", "\\-")
    return f"\\&{text}" if text[:1] in (".", "'") else text


def paragraph(text: str) -> str:
    text = text.strip()
    return text[:1].upper() + text[1:] + ("" if text.endswith((".", ":")) else ".")


def entries(text: str) -> Iterator[Tuple[str, str]]:
    """The arguments and options of a help text, with what it says of each."""
    name: Optional[str] = None
    for line in text.splitlines():
        found = re.fullmatch(r"  (\S(?:\S| (?! ))*)(?:  +(.*))?", line)
        if found and name is not None:
            yield name, ""
        if found and found[2] is None:
            name = found[1]
        elif found:
            name = None
            yield found[1], found[2]
        elif name is not None and line.startswith("   "):
            yield name, line.strip()
            name = None
    if name is not None:
        yield name, ""


def described(text: str) -> Tuple[str, str, List[Tuple[str, str]]]:
    """The usage, the description, and the entries of a help text, without `--help` and the list of words."""
    usage, _, rest = text.partition("\n\n")
    usage = " ".join(usage.replace("usage: ", "", 1).replace("[-h] ", "").split())
    about = "" if re.match(r"(positional|options|optional)", rest) else rest.split("\n\n", 1)[0]
    found = [(name, told) for name, told in entries(rest) if not name.startswith("-h,") and told]
    return usage, about.strip(), [it for it in found if not it[0].startswith(("COMMAND", "import |"))]


def section(text: str) -> List[str]:
    """The lines of a word's section, or of the program's own."""
    usage, about, found = described(text)
    lines = [f".B {roff(usage)}", *([".PP", roff(paragraph(about))] if about else [])]
    for name, told in found:
        lines += [".TP", f".B {roff(name)}", roff(paragraph(told))]
    return lines


def listed(title: str, rows: Dict[object, str]) -> List[str]:
    lines = [f".SH {title}"] if rows else []
    for name, told in rows.items():
        lines += [".TP", f".B {roff(str(name))}", paragraph(told)]
    return lines


def page_of(program: str, page: Page) -> Optional[str]:
    own = help_of(program, "")
    texts = {} if own is None else {it: help_of(program, it) for it in words_of(program, own)}
    if own is None or None in texts.values():
        return None
    lines = [f".\\\" Written by tools/gate/manual.py.\n.TH {program.upper()} 1 \"\" Zonegrater \"User Commands\""]
    lines += [".SH NAME", f"{program} \\- {roff(page.about)}", ".SH DESCRIPTION", *section(own)]
    for word, text in texts.items():
        lines += [f".SS {program} {word}", *section(text or "")]
    lines += [*listed("EXIT STATUS", page.statuses), *listed("FILES", page.files)]
    others = [f".BR {it} (1)" for it in ("altctl", *PAGES) if it != program]
    where = os.path.normpath(f"{DOCUMENTS}/docs/{page.reading}")
    lines += [".SH SEE ALSO", ",\n".join(others), ".PP", f"{roff(where)} has more, with examples."]
    return "\n".join(lines) + "\n"


def main() -> int:
    checks, status = sys.argv[1:] == ["--check"], 0
    if sys.argv[1:] and not checks:
        print("usage: tools/gate/manual.py [--check]", file=sys.stderr)
        return 2
    for program, page in PAGES.items():
        text, file = page_of(program, page), TOP / "docs" / f"{program}.1"
        if text is None:
            print(f"manual: {program} is left out: what it needs is not installed")
        elif not checks:
            file.write_text(text)
        elif not file.exists() or file.read_text() != text:
            print(f"manual: {file.relative_to(TOP)} is not what `{program} --help` says: run tools/gate/manual.py")
            status = 1
    return status


if __name__ == "__main__":
    sys.exit(main())
