#!/usr/bin/env python3
"""Writes the lists of promises in docs/PROMISES.md and in the README of each crate: `tools/gate/promises.py
[--check]`. With `--check` it writes nothing, names the pages whose lists differ, and ends with status 1 if there is
one. `--missing` names the fields and clauses of these lists that have no sentence yet.

The sentence of a promise stands where it is proved: in the comment above a field of a record (crates/NAME/specs) or
above a clause of a contract (crates/NAME/src). It speaks for all fields or clauses below it, up to the next comment or
an empty line; for those that have none, the first sentence above the whole record or function does, or above the
function of the trait that it implements. A list has an item for each record or function, or one for several that follow
one another and promise the same; after each sentence stand the fields or clauses that carry it. It stands between two
lines. The first one names the crate, and the records and functions whose promises are listed, all of them or those that
are named:

    <!-- promises vm_store: Performs Store::run open.opened,none -->
    <!-- end of promises -->
"""
import re
import sys
import textwrap
from itertools import groupby
from pathlib import Path

TOP = Path(__file__).resolve().parents[2]
PAGES = [TOP / "docs" / "PROMISES.md", *sorted(TOP.glob("crates/*/README.md"))]
LIST = re.compile(r"^(<!-- promises (\w+): ([\w:., ]+) -->\n)(.*?)^(<!-- end of promises -->)$", re.M | re.S)
RECORD = re.compile(r"^( *)pub record (\w+)")
FIELD = re.compile(r"^ *pub (\w+) *:")
OWNER = re.compile(r"^(?:pub )?(?:trait|impl(?:<.*?>)?(?: (\w+) for)?) (\w+)")
FUNCTION = re.compile(r"^( *)(?:pub(?:\(crate\))? )?(?:const )?fn (\w+)")
CLAUSE = re.compile(r"^ *ensures (\w*)")


def comment_above(lines, at, mark):
    """The comment right above a line, as one text."""
    first = at
    while first and lines[first - 1].lstrip().startswith((mark, "#[")):
        first -= 1
    told = [it.strip()[len(mark) :].strip() for it in lines[first:at] if it.lstrip().startswith(mark)]
    return " ".join(it for it in told if it)


def groups(lines, pattern, mark):
    """The names that a pattern finds in lines: each group with the comment above it, or with none."""
    found, goes_on = [["", []]], False
    for line in lines:
        bare = line.strip()
        if bare.startswith(mark):
            if not goes_on:
                found.append(["", []])
            found[-1][0] = f"{found[-1][0]} {bare[len(mark) :].strip()}".strip()
        elif not bare:
            found.append(["", []])
        elif name := pattern.match(line):
            found[-1][1].append(name[1])
        goes_on = bare.startswith(mark)
    return [(told, names) for told, names in found if names]


def records_of(crate):
    """The records of a crate: the name, the comment above it, and the groups of its fields."""
    for path in sorted((TOP / "crates" / crate / "specs").rglob("*.antt")):
        lines = path.read_text().split("\n")
        for at, line in enumerate(lines):
            if it := RECORD.match(line):
                last = at + 1
                while lines[last].startswith(f"{it[1]}  "):
                    last += 1
                yield it[2], comment_above(lines, at, "--"), groups(lines[at + 1 : last], FIELD, "--")


def functions_of(crate):
    """The functions of a crate: the name, the comment above it, and the groups of its clauses. Those of traits come
    first, as their comments also speak for the implementations."""
    of_traits, paths = {}, sorted((TOP / "crates" / crate / "src").rglob("*.rt"))
    for path in sorted(paths, key=lambda it: "\npub trait " not in it.read_text()):
        lines, owner, trait = path.read_text().split("\n"), "", ""
        for at, line in enumerate(lines):
            if it := OWNER.match(line):
                owner, trait = f"{it[2]}::", f"{it[1] or it[2]}::"
            elif line == "}":
                owner = ""
            elif it := FUNCTION.match(line):
                last = at + 1
                while last < len(lines) and lines[last] not in (f"{it[1]}{{", "}") and not FUNCTION.match(lines[last]):
                    last += 1
                told = comment_above(lines, at, "///") or of_traits.get(trait + it[2], "")
                of_traits[owner + it[2]] = told
                yield owner * bool(it[1]) + it[2], told, groups(lines[at:last], CLAUSE, "//")


def sentence(text, fields):
    """A comment as a sentence, with the fields or clauses that carry it."""
    text = re.sub(r"\[(`[^`]+`)\]", r"\1", text).rstrip(".:")
    carried = ", ".join(f"`{it}`" for it in fields if it)
    return f"{text[:1].upper()}{text[1:]}{carried and f' ({carried})'}."


def promises(crate, names, missing):
    """Each of these records and functions, with what it promises."""
    known = {}
    for name, told, found in [*records_of(crate), *functions_of(crate)]:
        known.setdefault(name, (told, found))
    for word in names:
        name, _, listed = word.partition(".")
        wanted = listed.split(",") if listed else []
        told, found = known.get(name, ("", []))
        if wanted:
            found = [(text, [it for it in fields if it in wanted]) for text, fields in found]
            found = [it for it in found if it[1]]
        if sum(len(it[1]) for it in found) < max(len(wanted), 1):
            sys.exit(f"promises: {crate} has no record and no function {word}")
        bare = [it for text, fields in found if not text for it in fields]
        missing += [f"{crate}: {name}: {it or 'its clause'}" for it in bare]
        own = [(told.split(". ")[0] or ", ".join(bare).replace("_", " "), bare)] if bare else []
        yield name, [sentence(text, fields) for text, fields in own + [it for it in found if it[0]]]


def items(crate, names, missing):
    """The lines of a list. What promises more than three sentences has an item for each below it."""
    for told, those in groupby(promises(crate, names, missing), lambda it: it[1]):
        head = f"- {', '.join(f'`{name}`' for name, _ in those)}:"
        for it in [f"{head} {' '.join(told)}"] if len(told) <= 3 else [head, *(f"  - {it}" for it in told)]:
            below = " " * (it.index("-") + 2)
            yield textwrap.fill(it, 120, subsequent_indent=below, break_long_words=False, break_on_hyphens=False) + "\n"


def main():
    words, wrong, missing = sys.argv[1:], [], []
    for page in PAGES:
        text = page.read_text()
        due = LIST.sub(lambda it: it[1] + "".join(items(it[2], it[3].split(), missing)) + it[5], text)
        if due.count("<!-- promises ") != len(LIST.findall(due)):
            wrong.append(f"{page.relative_to(TOP)}: a list of promises has no last line")
        elif due != text and words:
            wrong.append(f"{page.relative_to(TOP)}: a list of promises differs from what stands at the clauses")
        elif due != text:
            page.write_text(due)
    if words == ["--missing"]:
        print("\n".join(missing))
        return 0
    print("\n".join(wrong) or f"promises: the lists of {len(PAGES)} pages are what stands at the clauses")
    return 1 if wrong else 0


if __name__ == "__main__":
    sys.exit(main())
