#!/usr/bin/env python3
"""Lists the lemmas and definitions of the crates that nothing cites: `tools/gate/uncited.py`.

It reads specs/ and proofs/ of each crate. An item counts as cited where its name stands outside its own
text and outside a line of imports: in another item, in a contract, or in an answer. What goals name
(Answers.antt, Invariants.antt, Proof.antt) is cited by the check itself, and is left out, as are the sessions
that are computed (Rows.antt). It prints a line for each item that is left, and ends with status 1 where there
is one.
"""
import os
import pathlib
import re
import sys
from collections import Counter

ROOT = pathlib.Path(__file__).resolve().parents[2]
# Answers to goals, and the sessions of the model that are computed by its definitions.
LEFT_OUT = {"Answers.antt", "Invariants.antt", "Proof.antt", "Lib.antt", "Rows.antt"}
ITEM = re.compile(
    r"^(?P<indent> *)(?:(?:abbrev|unfoldable) )?(?:pub )?(?:(?:record|data) )?"
    r"(?P<name>[^\s:(){}.,λ]+) *(?:\([^:=]*:.*?\) *)*:(?: |$)"
)
WORD = re.compile(r"[^\s(){}\[\],;:.\"→×⊎¬↔≡≢≤<∙∷+*/=|]+")
NOT_ITEMS = {"let", "use", "mod", "open", "where", "in", "--", "pub", "module", "unfolding"}


def items(text):
    """The items of a file: name, first and last line."""
    lines = text.split("\n")
    for number, line in enumerate(lines):
        found = ITEM.match(line)
        if not found or found["name"] in NOT_ITEMS or line.lstrip().startswith("--"):
            continue
        indent = len(found["indent"])
        if indent and not in_module(lines, number, indent):
            continue
        yield found["name"], number, end_of(lines, number, indent, found["name"])


def end_of(lines, number, indent, name):
    """Where the item ends: before the next line that stands as far left and is none of its cases."""
    for at in range(number + 1, len(lines)):
        line = lines[at]
        if not line.strip() or len(line) - len(line.lstrip()) > indent:
            continue
        if line.split()[0] not in (name, "unfolding", "open"):
            return at
    return len(lines)


def in_module(lines, number, indent):
    """Whether the line stands in a `module`, and not in a record or a `where` of another item."""
    for line in reversed(lines[:number]):
        depth = len(line) - len(line.lstrip())
        if line.strip() and depth < indent and not line.lstrip().startswith("--"):
            if not line.lstrip().startswith(("module", "abbrev mutual", "mutual")):
                return False
            indent = depth
            if not indent:
                return True
    return False


def words_of(lines):
    """How often each word stands in lines that are no imports and no comments."""
    found = Counter()
    for line in lines:
        if not line.lstrip().startswith(("use ", "ghost use ", "pub use ", "--", "//")):
            found.update(WORD.findall(line))
    return found


def sources():
    """The files of code and proofs of the crates, without what is built: out/ may be large, and is not walked."""
    for folder, below, names in os.walk(ROOT / "crates"):
        below[:] = sorted(name for name in below if name != "out")
        for name in sorted(names):
            if name.endswith((".rt", ".antt")):
                yield pathlib.Path(folder, name)


def main():
    files = list(sources())
    texts = {path: path.read_text() for path in files}
    words = {path: words_of(text.split("\n")) for path, text in texts.items()}
    # The crates that a file names, in an import or in a path.
    crates = {path: set(re.findall(r"Rattle\.(\w+)\.", text)) for path, text in texts.items()}
    left = 0
    for path in files:
        crate = path.relative_to(ROOT).parts[1]
        if path.suffix != ".antt" or path.name in LEFT_OUT:
            continue
        lines = texts[path].split("\n")
        for name, first, last in items(texts[path]):
            cited = words[path][name] > words_of(lines[first:last])[name] or any(
                name in words[other] and crate in crates[other] for other in files if other != path
            )
            if not cited:
                print(f"{path.relative_to(ROOT)}:{first + 1}: {name}")
                left += 1
    sys.exit(1 if left else 0)


if __name__ == "__main__":
    main()
