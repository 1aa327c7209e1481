#!/usr/bin/env python3
"""Looks whether docs/TRUST.md lists each file of definitions that the clause `files` of `run_words` reaches:
`tools/gate/trusted.py`. It prints a line for each one that is missing, with the definitions that are reached in it, and
ends with status 1 where there is one.

It goes from a definition to those that its text names, in its own file or by the imports of that. What a real file
is known to do stands in the implementation of a trait, which is not followed: TRUST lists those files besides.
"""
import re
import sys

from uncited import ROOT, WORD, items

# A line of imports of definitions: the crate, the modules, and the names.
IMPORT = re.compile(r"\s*(?:ghost |pub )*use Rattle\.(\w+)\.specs\.([\w.]+)\.\{(.*)\}")
PROGRAM = ROOT / "crates" / "vm_cli" / "src" / "program.rt"
CLAUSE = re.compile(r"^pub fn run_words\b.*?^    ensures files \{(.*?)^(?:    ensures|\{)", re.M | re.S)
# A row for one file, and a row that has the files of a crate by their names.
LISTED = re.compile(r"^\| `(crates/\w+/specs/[\w/]+\.antt)`", re.M)
BY_NAME = re.compile(r"`(\w+)`: ((?:`\w+`(?:, )?)+)")


def file_of(crate, modules):
    """The file of these modules of a crate's definitions, which may lie in a folder. What the code declares has none."""
    place, found = ROOT / "crates" / crate / "specs", None
    for name in modules.split("."):
        if (place / f"{name}.antt").exists():
            found = place / f"{name}.antt"
        place = place / name
    return found


def files_named(crate, names):
    """The files of a crate's definitions with these names, in whichever folder they lie."""
    specs = ROOT / "crates" / crate / "specs"
    for name in names:
        found = [it for it in specs.rglob("*.antt") if it.stem == name]
        if len(found) != 1:
            sys.exit(f"docs/TRUST.md: {len(found)} files {name} in {specs.relative_to(ROOT)}")
        yield str(found[0].relative_to(ROOT))


def imports_of(lines):
    """Where the names come from that lines import: a file, and the name there."""
    found = {}
    for line in lines:
        it = IMPORT.match(line)
        place = file_of(it[1], it[2]) if it else None
        if place:
            for name in it[3].split(","):
                there, _, here = name.strip().partition(" as ")
                found[here or there] = (place, there)
    return found


class Definitions:
    """The definitions of a file, and what it imports."""

    def __init__(self, path):
        text = path.read_text()
        lines = text.split("\n")
        self.imports = imports_of(lines)
        self.words = {}
        for name, first, last in items(text):
            told = " ".join(it for it in lines[first:last] if not it.lstrip().startswith("--"))
            self.words.setdefault(name, set()).update(WORD.findall(told))


def reached_from(text, imports):
    """The definitions that a text names, directly and indirectly: for each file its names."""
    known, reached = {}, {}
    waiting = [imports[it] for it in set(WORD.findall(text)) if it in imports]
    while waiting:
        path, name = waiting.pop()
        if name in reached.setdefault(path, set()):
            continue
        reached[path].add(name)
        if path not in known:
            known[path] = Definitions(path)
        here = known[path]
        for word in here.words.get(name, ()):
            if word in here.words:
                waiting.append((path, word))
            elif word in here.imports:
                waiting.append(here.imports[word])
    return reached


def main():
    text = PROGRAM.read_text()
    reached = reached_from(CLAUSE.search(text)[1], imports_of(text.split("\n")))
    trust = (ROOT / "docs" / "TRUST.md").read_text()
    listed = set(LISTED.findall(trust))
    for crate, names in BY_NAME.findall(trust):
        listed.update(files_named(crate, re.findall(r"\w+", names)))
    for it in sorted(it for it in listed if not (ROOT / it).exists()):
        sys.exit(f"docs/TRUST.md: no file {it}")
    missing = {str(it.relative_to(ROOT)): names for it, names in reached.items() if names}
    missing = {it: names for it, names in sorted(missing.items()) if it not in listed}
    for it, names in missing.items():
        print(f"docs/TRUST.md: no row for {it}: {', '.join(sorted(names))}")
    if missing:
        sys.exit(1)
    print(f"trusted: TRUST lists all {len(reached)} files that are reached")


if __name__ == "__main__":
    main()
