#!/usr/bin/env python3
"""Runs the sessions and programs that the documents show, and compares what comes with what they say:
`tools/gate/documents.py [ALTCTL]`. Where something differs, it says what was expected and what came, and ends with
status 1.

In a block `console`, a line after `$ ` is a command of the shell; the lines after `> ` below it are its input, and all
others are what it prints. A block `sh` or `python` is a program as it stands, and the block `text` right below it is
what it prints. A block `c` or `cpp` is the file program.c or program.cpp, which the blocks `console` below it build.
The blocks of one document run in one folder, one after another, which has `altctl`, `desk` and `clients` as a clone has
them. README begins as its reader does, and a command that sets PATH sets it for those after it; the other documents
begin with the PATH that README has at its end.

A document whose programs need what is not installed is left out, and the last line says so.

It also looks whether README and `altctl --version` name the toolchain that is there and the last release of
CHANGELOG, whether links lead to files, also those of the READMEs of the crates and the desk, whether each refusal is
listed, whether each script has its row in tools/README.md, and whether a block `rust` is what a test has.
"""
from __future__ import annotations

import contextlib
import difflib
import os
import re
import shutil
import signal
import subprocess
import sys
import tempfile
from pathlib import Path

import refusals

TOP = Path(__file__).resolve().parents[2]
DOCUMENTS = [TOP / "README.md", *sorted((TOP / "docs").glob("*.md"))]
# Pages of which only the links are looked at.
OTHERS = [TOP / it for it in ("CONTRIBUTING.md", "CHANGELOG.md", "desk/README.md", "tools/README.md")]
# What documents need to run, and the commands that succeed where it is there.
NEEDS = {
    "EMBEDDING.md": {"a compiler of C and C++": "cc --version && c++ --version"},
    "MAPS.md": {"python3-gdal": f"{TOP}/desk/altgis --help"},
    "PLANNERS.md": {
        "nc -U (netcat-openbsd)": "nc -h 2>&1 | grep -q -e -U",
        "python3-tomli": f"{sys.executable} -c 'import tomllib' || {sys.executable} -c 'import tomli'",
    },
}
# What stands for the folder of a document in a PATH.
CLONE = "/CLONE"
BLOCK = re.compile(r"^```(\w+)\n(.*?)^```$", re.M | re.S)
# Paths that pages name, those of a crate also without crates/.
NAMED = r"docs/[A-Z-]+\.md|(?:clients|crates|tools)/[\w/]+\.\w+|desk/[\w/]+(?:\.\w+)?|\w+/(?:src|specs)/[\w/]+\.\w+"
LINK = re.compile(rf"\]\(([^)#]+)[^)]*\)|^\[.+\]: (\S+)$|`({NAMED})`", re.M)


class Run:
    """The folder of one document, and the commands that run in it."""

    def __init__(self, altctl, folder, path=None):
        self.folder, self.status, self.differences = folder, 0, 0
        os.symlink(altctl, f"{folder}/altctl")
        for it in ("clients", "desk", "tools"):
            os.symlink(TOP / it, f"{folder}/{it}")
        python = {"PYTHONPATH": str(TOP / "clients" / "python"), "PYTHONDONTWRITEBYTECODE": "1"}
        self.environment = {**os.environ, **python, "LC_ALL": "C.UTF-8"}
        self.path = path or os.environ["PATH"]

    def start(self, words, lines):
        text = "".join(f"{it}\n" for it in lines)
        how = {"stdout": subprocess.PIPE, "stderr": subprocess.STDOUT, "text": True, "timeout": 300}
        path = self.path.replace(CLONE, self.folder)
        ran = subprocess.run(words, input=text, cwd=self.folder, env={**self.environment, "PATH": path}, **how)
        self.status = ran.returncode
        return ran.stdout.splitlines()

    def command(self, command, lines):
        """Runs a command of a session, which finds the status of the one before, and keeps the PATH that it leaves."""
        kept = Path(self.folder, ".path")
        keep = f'status=$?; printf %s "$PATH" >{kept}; exit $status'
        came = self.start(["sh", "-c", f"(exit {self.status}); {command}\n{keep}"], lines)
        with contextlib.suppress(FileNotFoundError):
            self.path = kept.read_text().replace(self.folder, CLONE)
            kept.unlink()
        return came

    def compare(self, what, due, came):
        if due != came:
            self.differences += 1
            print(f"{what}: expected (-) and came (+):")
            print(*(f"    {it}" for it in list(difflib.unified_diff(due, came, lineterm="", n=1))[2:42]), sep="\n")

    def session(self, where, text):
        """A block `console`."""
        commands = []
        for line in text.splitlines():
            if line.startswith("$ "):
                commands.append((line[2:], [], []))
            elif line == ">" or line.startswith("> "):
                commands[-1][1].append(line[2:])
            else:
                commands[-1][2].append(line)
        for command, lines, due in commands:
            came = self.command(command, lines)
            self.compare(f"{where}: $ {command}", due, came)

    def program(self, where, kind, text, due):
        file = f"{self.folder}/program.{kind}"
        Path(file).write_text(text)
        came = self.start([sys.executable if kind == "python" else "sh", file], [])
        self.compare(where, due, came)


def missing(document):
    """What the sessions of a document need and is not installed, or None."""
    how = {"shell": True, "stdout": subprocess.DEVNULL, "stderr": subprocess.DEVNULL}
    tests = NEEDS.get(document.name, {})
    return next((what for what, test in tests.items() if subprocess.run(test, **how).returncode), None)


def end_service(folder):
    """Ends a service that a document has started, if it still runs."""
    with contextlib.suppress(FileNotFoundError, ProcessLookupError):
        os.kill(int(Path(folder, "altserve.pid").read_text()), signal.SIGTERM)


def run_blocks(document, altctl, path=None):
    """Runs the blocks of a document, and gives how many there are, how many outputs differ, and the PATH at the end."""
    text = document.read_text()
    blocks = [(it[1], it[2], text.count("\n", 0, it.start()) + 1, it.start(), it.end()) for it in BLOCK.finditer(text)]
    count = 0
    with tempfile.TemporaryDirectory() as folder:
        run = Run(altctl, folder, path)
        for n, (kind, body, line, _, end) in enumerate(blocks):
            where = f"{document.relative_to(TOP)}:{line}"
            if kind == "console":
                run.session(where, body)
            elif kind in ("sh", "python"):
                shown = n + 1 < len(blocks) and blocks[n + 1][0] == "text" and not text[end : blocks[n + 1][3]].strip()
                run.program(where, kind, body, blocks[n + 1][1].splitlines() if shown else [])
            elif kind in ("c", "cpp"):
                Path(folder, f"program.{kind}").write_text(body)
            elif kind != "text" and not (kind == "rust" and is_tested(body)):
                run.compare(where, [f"a block that can be run, and no {kind}"], [])
            count += kind in ("console", "sh", "python")
        end_service(folder)
    return count, run.differences, run.path


def is_tested(code):
    """Whether a test of the repository has just these lines."""
    lines = [it for it in code.splitlines() if not it.startswith("use ")]
    tests = (TOP / "crates/store_tests/src/tests/library.rt").read_text()
    return "\n".join(lines).strip() in tests


def dead_links(document):
    for found in LINK.finditer(document.read_text()):
        name = found[1] or found[2] or found[3]
        places = [TOP / name, TOP / "crates" / name] if found[3] else [document.parent / name]
        if "://" not in name and not any(it.exists() for it in places):
            yield f"{document.relative_to(TOP)}: no file {name}"


def scripts_in(text: str) -> set[str]:
    """The scripts that the tables of tools/README.md name, each by its path below tools/."""
    found, folder = set(), ""
    for line in text.splitlines():
        if head := re.match(r"\| (?:Here|In `(\w+)`) \|", line):
            folder = f"{head[1]}/" if head[1] else ""
        elif line.startswith("| `"):
            found |= {folder + it for it in re.findall(r"`([^`]+)`", line.split(" | ")[0])}
    return found


def wrong_scripts(tools: Path) -> list[str]:
    """Where the tables in the README of a folder of scripts are not what lies in it."""
    told = scripts_in((tools / "README.md").read_text())
    there = {str(it.relative_to(tools)) for it in tools.rglob("*.*") if it.suffix in (".py", ".sh", ".c")}
    return [
        *(f"tools/README.md: no row for {it}" for it in sorted(there - told)),
        *(f"tools/README.md: a row for {it}, which is not there" for it in sorted(told - there)),
    ]


def wrong_versions(altctl):
    """Where README and `altctl --version` name another toolchain than `rt version`, or another format than
    docs/FORMATS.md, or where programs and clients have another number than the last release in CHANGELOG."""
    how = {"stdout": subprocess.PIPE, "text": True, "timeout": 300}
    came = subprocess.run([altctl, "--version"], check=True, **how).stdout.splitlines()
    # Without the toolchain, README and the program are compared with each other.
    toolchain = came[2].split(" with ")[1]
    if shutil.which("rt"):
        toolchain = subprocess.run(["rt", "version"], check=True, **how).stdout.strip()
    if f"\nProved with: `{toolchain}`.\n" not in (TOP / "README.md").read_text():
        yield f"README.md: it is not said that all is proved with {toolchain}"
    number = re.search(r"`SLOT`, u32 format (\d+)", (TOP / "docs" / "FORMATS.md").read_text())[1]
    release = re.search(r"^## ([\d.]+),", (TOP / "CHANGELOG.md").read_text(), re.M)[1]
    due = [f"altctl {release}", f"file format {number}", f"proved with {toolchain}"]
    if came != due:
        yield f"altctl --version: {came} came, and not {due}"
    if f'\nversion = "{release}"\n' not in (TOP / "clients/python/pyproject.toml").read_text():
        yield f"clients/python/pyproject.toml: the version is not {release}"


def main():
    altctl = os.path.abspath((sys.argv[1:] or [TOP / "altctl"])[0])
    if sys.argv[1:]:  # The sessions' scripts take it, too, and not ./altctl, which may have to be built first.
        os.environ["ALTCTL"] = altctl
    faults = [*refusals.faults(refusals.of_program(), refusals.of_service())]
    faults += [*wrong_scripts(TOP / "tools"), *wrong_versions(altctl)]
    for document in [*DOCUMENTS, *OTHERS, *sorted(TOP.glob("crates/*/README.md"))]:
        faults += dead_links(document)
    for it in faults:
        print(it)
    count, differences, path = 0, 0, None
    skipped = {it: what for it in DOCUMENTS if (what := missing(it))}
    for document in DOCUMENTS:
        if document not in skipped:
            here, different, left = run_blocks(document, altctl, path)
            count, differences, path = count + here, differences + different, path or left
    if faults or differences:
        print(f"documents: {len(faults)} faults, and {differences} differences in {count} blocks")
        return 1
    left_out = "".join(f"; {it.name} was skipped, as {what} is not installed" for it, what in skipped.items())
    print(f"documents: {count} blocks ran as they are shown{left_out}")
    return 0


if __name__ == "__main__":
    sys.exit(main())
