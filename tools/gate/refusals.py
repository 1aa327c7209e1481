"""The refusals of the program and of the service, and whether each place that lists them has them all, for
`documents.py`."""
from __future__ import annotations

import re
from collections.abc import Iterator

from lines import TOP, find

Refusals = dict[int, str]

# Refusals that the help of `run` need not list: only the library answers them.
UNLISTED = {17, 20}
# The first number of those of the service. Sessions with batches answer some of them, and some of their own.
OF_BATCHES = 90


def of_lines() -> Refusals:
    text = (TOP / "crates/vm_cli/src/answers/reply.rt").read_text()
    return {int(number): name for number, name in re.findall(r'b"error (\d+) (\w+)(?: |\\n)"', text)}


def of_batches() -> Refusals:
    return {number: name for number, name in of_lines().items() if number >= OF_BATCHES}


def of_program() -> Refusals:
    """Those of the store, and those of lines."""
    text = (TOP / "crates/vm_types/src/refusal.rt").read_text()
    of_store = {int(number): name for name, number in re.findall(r"Refusal::(\w+)(?:\(_\))? => (\d+),", text)}
    return {**of_store, **{number: name for number, name in of_lines().items() if number < OF_BATCHES}}


def of_service() -> Refusals:
    text = find(r"^REFUSALS = \{\n(.*?)^\}", (TOP / "desk/service/limits.py").read_text(), re.M | re.S)[1]
    pairs = [(int(number), name) for number, name in re.findall(r'(\d+): "(\w+)"', text)]
    if len(dict(pairs)) < len(pairs):
        raise ValueError("desk/service/limits.py: two refusals have one number")
    return dict(pairs)


def faults(program: Refusals, service: Refusals) -> Iterator[str]:
    """What a place lacks. Pages have rows that begin with numbers and names, the C client a constant for each; the help
    and a test have both. What a session with batches answers is a refusal of the service, and FORMATS says when."""
    formats = (TOP / "docs/FORMATS.md").read_text()
    for number, name in sorted(of_batches().items()):
        if service.get(number) != name:
            yield f"desk/service/limits.py: {number} is not {name}, as a session with batches has it"
        if f"{number} {name}" not in formats:
            yield f"docs/FORMATS.md: no `{number} {name}`"
    for page, refusals in ("docs/OPERATING.md", program), ("docs/PLANNERS.md", service):
        rows = [it.split(" | ")[0] for it in (TOP / page).read_text().splitlines() if it.startswith("| `")]
        told = {(int(number), name) for row in rows for number, name in re.findall(r"`(\d+) (\w+)", row)}
        yield from (f"{page}: no row for `{number} {name}`" for number, name in sorted(refusals.items() - told))
    header, source = ((TOP / "clients/c" / it).read_text() for it in ("altctl.h", "altctl.c"))
    for number, name in sorted({**program, **service}.items()):
        constant = "ALT_" + re.sub(r"(?<!^)(?=[A-Z])", "_", name).upper()
        if not re.search(rf"^    {constant} = {number},", header, re.M):
            yield f"clients/c/altctl.h: no {constant} = {number}"
    for array, refusals in ("refusals", {0: "ok", **program}), ("service_refusals", service):
        names = re.findall(r'"(\w+)"', find(rf"\b{array}\[\] = \{{(.*?)\}};", source, re.S)[1])
        due = [name for _, name in sorted(refusals.items())]
        if names != due:
            yield f"clients/c/altctl.c: {array} are {', '.join(names)}, and not {', '.join(due)}"
    for place, others in ("vm_cli/src/program/help.rt", UNLISTED), ("base_tests/src/tests/words.rt", of_lines().keys()):
        text = (TOP / "crates" / place).read_text()
        lacking = (f"{it} {program[it]}" for it in sorted(program.keys() - others))
        yield from (f"crates/{place}: no `{it}`" for it in lacking if not re.search(rf"\b{it}\b", text))
