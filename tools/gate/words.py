#!/usr/bin/env python3
"""Compares the lines of `clients/lines.json`, and the words and options in the program's help, with each place that
lists them: `tools/gate/words.py [--check] [ALTCTL]`. If a place lacks one, or has one too many, it says so and ends
with status 1.

The lines are compared with docs/FORMATS.md, the program's answers and help, the manual page, completion, both clients,
the tests and the service; words and options with docs/FORMATS.md, the manual page and completion; the fields of a
journal that the service writes with docs/FORMATS.md. The lines in the manual page are written out of docs/FORMATS.md,
or with `--check` only compared.
"""
from __future__ import annotations

import ast
import json
import os
import re
import socket
import subprocess
import sys
import tempfile
import time
from collections.abc import Iterable, Iterator
from pathlib import Path

from lines import TOP, Line, Row, find, formats_rows, read_table

FORMATS, PAGE = TOP / "docs/FORMATS.md", TOP / "docs/altctl.1"
# What bash offers in the place of the last word. File names are asked for by `compopt`, which only completion has.
OFFERED = """. "$1"; shift
COMP_WORDS=("$@") COMP_CWORD=$(($# - 1)); compopt() { :; }; _altctl; printf '%s\\n' "${COMPREPLY[@]}\""""


def differences(place: str, due: Iterable[str], there: Iterable[str]) -> Iterator[str]:
    wanted, found = set(due), set(there)
    yield from (f"{place}: no `{it}`" for it in sorted(wanted - found))
    yield from (f"{place}: `{it}`, which the table does not have" for it in sorted(found - wanted))


def output(*words: object) -> str:
    return subprocess.run(list(map(str, words)), stdout=subprocess.PIPE, text=True, timeout=60).stdout


def kind_of(answer: list[str]) -> str:
    """The kind of line that an answer belongs to, or the answer."""
    if answer[-1] == f"end {len(answer) - 1}":
        return "list"
    if len(answer) > 1 or answer[0].startswith("error "):
        return answer[-1]
    return "command" if answer[0].split()[0] == "ok" else "query"


def in_formats(lines: list[Line]) -> Iterator[str]:
    due = (f"{it.form}: {it.kind}" for it in lines)
    there = (f"{it.form}: {it.kind}" for it in formats_rows(FORMATS.read_text()))
    yield from differences("docs/FORMATS.md", due, there)


def in_program(lines: list[Line], setup: list[str], altctl: str) -> Iterator[str]:
    with tempfile.TemporaryDirectory() as folder:
        file = f"{folder}/lines.alt"
        output(altctl, "create", file, 64)
        answers = output(altctl, "do", file, *setup, "commit").splitlines()
        if answers != ["ok"] * (len(setup) + 1):
            yield f"altctl: the lines of setup are answered {answers}"
        for it in lines:
            came = kind_of(output(altctl, "do", file, it.example).splitlines())
            if came != it.kind or it.example.split()[0] != it.word:
                yield f"altctl: `{it.example}` is answered as {came}, and not as {it.kind}: `{it.form}`"


def in_help(lines: list[Line], altctl: str) -> Iterator[str]:
    text = output(altctl, "run", "--help").split("\nLines, by what they are about")[1].split("\nFrom list on")[0]
    # A form stands between the margin and the column of what the line does.
    forms = (it[4:32].strip() for it in text.splitlines() if re.match(" {4}[a-z]", it))
    yield from differences("altctl run --help", (it.form for it in lines), forms)


def in_page(lines: list[Line]) -> Iterator[str]:
    forms = re.findall(r"^\.TP\n\\fB(\w+)\\fR(?: \\fI(.*)\\fR)?$", lines_section(PAGE.read_text())[0], re.M)
    yield from differences("docs/altctl.1", (it.form for it in lines), (" ".join(it).strip() for it in forms))


def offered(*words: str, script: Path = TOP / "clients/bash/altctl.bash") -> list[str]:
    """What completion offers in the place of the last word."""
    return output("bash", "-c", OFFERED, "bash", script, *words).split()


def in_completion(lines: list[Line]) -> Iterator[str]:
    there = offered("altctl", "do", "map.alt", "")
    yield from differences("clients/bash/altctl.bash", (it.word for it in lines), there)


def in_python(lines: list[Line]) -> Iterator[str]:
    """A method of Store has the word of its line among its constants."""
    module = ast.parse((TOP / "clients/python/altctl.py").read_text())
    store = next(it for it in module.body if isinstance(it, ast.ClassDef) and it.name == "Store")
    methods = {it.name: it for it in store.body if isinstance(it, ast.FunctionDef)}
    for it in lines:
        method = methods.get(it.python, ast.Pass())
        if it.word not in (part.value for part in ast.walk(method) if isinstance(part, ast.Constant)):
            yield f"clients/python/altctl.py: no method {it.python} that sends `{it.word}`"


def in_c(lines: list[Line]) -> Iterator[str]:
    """A function of altctl.h, or one that it calls to write ahead, has a text that begins with the word of its line."""
    header, source = ((TOP / "clients/c" / it).read_text() for it in ("altctl.h", "altctl.c"))
    bodies = {it[1]: it[0] for it in re.finditer(r"^int (alt_\w+)\(.*?^}", source, re.M | re.S)}
    for it in lines:
        body = bodies.get(it.c, "")
        body += "".join(bodies[name] for name in re.findall(r"\balt_send_\w+", body))
        if not re.search(rf"^int {it.c}\(", header, re.M):
            yield f"clients/c/altctl.h: no {it.c} for `{it.form}`"
        elif not re.search(rf'"{it.word}[" ]', body):
            yield f"clients/c/altctl.c: no {it.c} that sends `{it.word}`"


def in_tests(lines: list[Line]) -> Iterator[str]:
    """The random sessions beside a model make each line, the scripts of the program's tests have it, the tests of both
    clients call it, and if it takes memory for rows, it is refused that."""
    model = ast.parse((TOP / "tools/faults/compare.py").read_text())
    texts = [it.value for it in ast.walk(model) if isinstance(it, ast.Constant) and isinstance(it.value, str)]
    made = {it.split(" ")[0] for it in texts}
    scripts = "".join(it.read_text() for it in sorted((TOP / "crates/cli_tests/data").glob("*.txt")))
    tried = set(re.findall(r"^> +(\w+)", scripts, re.M))
    for word in dict.fromkeys(it.word for it in lines):
        if word not in made:
            yield f"tools/faults/compare.py: no `{word}`"
        if word not in tried:
            yield f"crates/cli_tests/data: no `{word}`"
    places = "clients/python/test_altctl.py", "clients/c/test_altctl.c", "tools/faults/refuse_allocations.sh"
    in_python, in_c, without_memory = ((TOP / it).read_text() for it in places)
    for it in lines:
        if not re.search(rf"\.{it.python}\b", in_python):
            yield f"{places[0]}: no test of {it.python}"
        if not re.search(rf"\b{it.c}\(", in_c):
            yield f"{places[1]}: no test of {it.c}"
        if it.kind == "list" and not re.search(rf"^{it.word}\b.* => ", without_memory, re.M):
            yield f"{places[2]}: no `{it.word}`"


class Service:
    """A service over a store of its own, and a planner who asks it."""

    def __init__(self, altctl: str, folder: str) -> None:
        file = f"{folder}/service.alt"
        output(altctl, "create", file, 64)
        words = [sys.executable, str(TOP / "desk/altserve"), file, "--program", altctl]
        self.process = subprocess.Popen(words, stderr=subprocess.DEVNULL)
        self.socket = socket.socket(socket.AF_UNIX)
        self.socket.settimeout(20)
        self.journal = Path(f"{file}.journal")
        late = time.monotonic() + 60
        while self.socket.connect_ex(f"{file}.sock"):
            if time.monotonic() > late or self.process.poll() is not None:
                raise TimeoutError("the service does not start")
            time.sleep(0.02)
        self.input = self.socket.makefile("r")

    def ask(self, line: str) -> list[str]:
        """The lines of an answer: all that come before the one of a bad line."""
        self.socket.sendall(f"{line}\nno such line\n".encode())
        answer = [self.input.readline().rstrip("\n")]
        while (more := self.input.readline()) != "error 22 BadLine word 1: there is no such line\n":
            if not more:
                return [*answer, "no more"]
            answer.append(more.rstrip("\n"))
        return answer

    def end(self) -> None:
        self.input.close()
        self.socket.close()
        self.process.terminate()
        self.process.wait(60)


def in_service(lines: list[Line], setup: list[str], altctl: str) -> Iterator[str]:
    with tempfile.TemporaryDirectory() as folder:
        service = Service(altctl, folder)
        try:
            for line in setup:
                service.ask(line)
            # A service commits each command, so what comes after one may be refused, but is no bad line.
            for it in sorted(lines, key=lambda it: it.kind == "command"):
                came = kind_of(service.ask(it.example))
                if came != it.kind and (it.kind != "command" or came.startswith("error 22 BadLine")):
                    yield f"desk/service: `{it.form}`, a {it.kind}, is answered as {came}"
            # So that its journal has each kind of line.
            service.ask("archive old 1")
        except (OSError, TimeoutError) as fault:
            yield f"desk/service: {fault}"
        finally:
            service.end()
        yield from in_journal(service.journal.read_text(), FORMATS.read_text())


def in_journal(journal: str, formats: str) -> Iterator[str]:
    """The lines of a journal have the fields that docs/FORMATS.md lists, and each kind of line is there."""
    table = find(r"^\| Line of \| Fields \|\n\|[-|]+\|\n((?:\|.*\n)+)", formats)[1]
    due = {" ".join(sorted(re.findall(r"`(\w+)`", row))) for row in table.splitlines()}
    written = {" ".join(sorted(json.loads(it))) for it in journal.splitlines()}
    yield from (f"docs/FORMATS.md, the journal: no `{it}`" for it in sorted(written - due))
    yield from (f"docs/FORMATS.md, the journal: `{it}`, which is not there" for it in sorted(due - written))


def commands_of(altctl: str) -> list[str]:
    """The words of the program, as its help lists them."""
    text = find(r"^Commands:\n((?:  .*\n)+)", output(altctl, "--help"))[1]
    return [it.split()[0] for it in text.splitlines() if it.split()[0] != "help"]


def wrong_commands(commands: list[str]) -> Iterator[str]:
    yield from differences("docs/FORMATS.md", commands, re.findall(r"^\| `altctl (\w+)", FORMATS.read_text(), re.M))
    yield from differences("docs/altctl.1", commands, re.findall(r"^\.SS altctl (\w+)$", PAGE.read_text(), re.M))
    there = [it for it in offered("altctl", "") if not it.startswith("-")]
    yield from differences("clients/bash/altctl.bash", commands, there)


def options_of(altctl: str, command: str) -> dict[str, bool]:
    """The options in the help of a command, and whether a value follows each."""
    text = output(altctl, command, "--help").split("\nOptions:")[1]
    found = re.findall(r"^ +(?:-\w, )?(--[\w-]+)( <\w+>)?", text, re.M)
    return {name: bool(value) for name, value in found if name != "--help"}


def options_in_formats(command: str) -> list[str]:
    text = FORMATS.read_text()
    rows = " ".join(re.findall(rf"^\| `altctl {command} (.*?)` \|", text, re.M))
    if "[OPTIONS]" in rows:
        rows += find(r"^OPTIONS are .*?^$", text, re.M | re.S)[0]
    return re.findall(r"--[\w-]+", rows)


def options_in_page(command: str) -> list[str]:
    text = PAGE.read_text().split(".SH SYNOPSIS")[1].split(".SH DESCRIPTION")[0].replace("\\-", "-")
    return re.findall(r"--[\w-]+", text.split(f".B altctl {command}\n")[1].split(".br")[0])


def wrong_options(altctl: str, commands: list[str]) -> Iterator[str]:
    for command in commands:
        due = options_of(altctl, command)
        yield from differences(f"docs/FORMATS.md, altctl {command}", due, options_in_formats(command))
        yield from differences(f"docs/altctl.1, altctl {command}", due, options_in_page(command))
        there = [it for it in offered("altctl", command, "-") if it != "--help"]
        yield from differences(f"clients/bash/altctl.bash, altctl {command}", due, there)
        for name in (name for name, has_value in due.items() if has_value):
            if offered("altctl", command, name, "") or "get" in offered("altctl", "do", name, "5", ""):
                yield f"clients/bash/altctl.bash: the number of {name} is taken for a file"


def lines_section(page: str) -> re.Match[str]:
    """The lines in the manual page, between two comments."""
    begin, end = r'(?<=^\.\\" Lines, by tools/gate/words\.py\.\n)', r'(?=^\.\\" End of the lines\.$)'
    return find(f"{begin}.*?{end}", page, re.M | re.S)


def in_manual(row: Row) -> str:
    """A row of the table as the manual page has it."""
    word, _, arguments = row.form.partition(" ")
    said = f"{row.does}: {row.answer}" if row.answer else row.does
    said = re.sub(r"`([^`]*)`", lambda it: f"\\fB{it[1]}\\fR", said.replace("\\", "\\e").replace("-", "\\-"))
    return f".TP\n\\fB{word}\\fR{arguments and f' {chr(92)}fI{arguments}{chr(92)}fR'}\n{said}\n"


def with_lines(page: str, rows: Iterable[Row]) -> str:
    """The manual page with the lines of FORMATS."""
    here = lines_section(page)
    return page[: here.start()] + "".join(map(in_manual, rows)) + page[here.end() :]


def faults(lines: list[Line], setup: list[str], altctl: str) -> list[str]:
    found = [*in_formats(lines), *in_program(lines, setup, altctl), *in_help(lines, altctl), *in_page(lines)]
    found += [*in_completion(lines), *in_python(lines), *in_c(lines), *in_tests(lines)]
    return [*found, *in_service(lines, setup, altctl)]


def main() -> int:
    words = [it for it in sys.argv[1:] if it != "--check"]
    altctl = os.path.abspath(words[0]) if words else str(TOP / "altctl")
    page = PAGE.read_text()
    due = with_lines(page, formats_rows(FORMATS.read_text()))
    if "--check" not in sys.argv:
        PAGE.write_text(due)
    lines, setup = read_table()
    commands = commands_of(altctl)
    found = [*faults(lines, setup, altctl), *wrong_commands(commands), *wrong_options(altctl, commands)]
    if "--check" in sys.argv and due != page:
        found.append("docs/altctl.1: the lines are not those of docs/FORMATS.md: run tools/gate/words.py")
    for it in found:
        print(it)
    print(f"words: {len(found)} faults" if found else f"words: {len(lines)} lines, words and options are everywhere")
    return 1 if found else 0


if __name__ == "__main__":
    sys.exit(main())
