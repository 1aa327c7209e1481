#!/usr/bin/env python3
"""Tests that `words.py` and `documents.py` see what a place lacks, and tests the completion for bash:
`tools/gate/test_words.py`."""
from __future__ import annotations

import contextlib
import io
import json
import shutil
import sys
import tempfile
import unittest
from dataclasses import replace
from pathlib import Path
from unittest import mock

sys.dont_write_bytecode = True
import documents
import refusals
import words
from lines import TOP, Line, formats_rows, read_table

ALTCTL = str(TOP / "altctl")
MADE_UP = Line("touch ALT", "query", "touch north", "touch", "alt_touch")
NO_LINE = "error 22 BadLine word 1: there is no such line"


class LinesTests(unittest.TestCase):
    def setUp(self) -> None:
        self.lines, self.setup = read_table()

    def faults(self, lines: list[Line]) -> list[str]:
        return words.faults(lines, self.setup, ALTCTL)

    def test_each_place_that_lacks_a_line_is_named(self):
        self.assertEqual(
            [
                "docs/FORMATS.md: no `touch ALT: query`",
                f"altctl: `touch north` is answered as {NO_LINE}, and not as query: `touch ALT`",
                "altctl run --help: no `touch ALT`",
                "docs/altctl.1: no `touch ALT`",
                "clients/bash/altctl.bash: no `touch`",
                "clients/python/altctl.py: no method touch that sends `touch`",
                "clients/c/altctl.h: no alt_touch for `touch ALT`",
                "tools/faults/compare.py: no `touch`",
                "crates/cli_tests/data: no `touch`",
                "clients/python/test_altctl.py: no test of touch",
                "clients/c/test_altctl.c: no test of alt_touch",
                f"desk/service: `touch ALT`, a query, is answered as {NO_LINE}",
            ],
            self.faults([*self.lines, MADE_UP]),
        )

    def test_each_place_that_has_more_than_the_table_is_named(self):
        self.assertEqual(
            [
                "docs/FORMATS.md: `blocks: query`, which the table does not have",
                "altctl run --help: `blocks`, which the table does not have",
                "docs/altctl.1: `blocks`, which the table does not have",
                "clients/bash/altctl.bash: `blocks`, which the table does not have",
            ],
            self.faults([it for it in self.lines if it.form != "blocks"]),
        )

    def test_a_wrong_kind_is_seen(self):
        lines = [replace(it, kind="list") if it.form == "free" else it for it in self.lines]
        self.assertEqual(
            [
                "docs/FORMATS.md: no `free: list`",
                "docs/FORMATS.md: `free: query`, which the table does not have",
                "altctl: `free` is answered as query, and not as list: `free`",
                "desk/service: `free`, a list, is answered as query",
            ],
            self.faults(lines),
        )

    def test_the_client_has_to_send_the_line_that_is_named(self):
        lines = [replace(it, python="checks", c="alt_changes") if it.form == "checks ALT" else it for it in self.lines]
        self.assertEqual(
            [
                "clients/python/altctl.py: no method checks that sends `checks`",
                "clients/c/altctl.c: no alt_changes that sends `checks`",
                "clients/python/test_altctl.py: no test of checks",
            ],
            self.faults(lines),
        )

    def test_a_changed_row_of_formats_changes_the_manual_page(self):
        page, text = words.PAGE.read_text(), words.FORMATS.read_text()
        self.assertEqual(page, words.with_lines(page, formats_rows(text)))
        changed = text.replace("| `drop ALT` | removes an alternative |", "| `drop ALT FORCE` | takes it out |")
        due = "\\fBdrop\\fR \\fIALT FORCE\\fR\ntakes it out: \\fBok\\fR\n"
        self.assertIn(due, words.with_lines(page, formats_rows(changed)))


class JournalTests(unittest.TestCase):
    def test_a_field_that_formats_does_not_have_is_named(self):
        page = words.FORMATS.read_text()
        kinds = ['{"done":1}', '{"opened":"t","last":0,"next":1}', '{"dropped":1,"archive":"a"}']
        fields = "batch time uid who alternatives records lines".split()
        batch, more = (json.dumps(dict.fromkeys(it, 1)) for it in (fields, [*fields, "host"]))
        self.assertEqual([], list(words.in_journal("\n".join([*kinds, batch]), page)))
        self.assertEqual(
            [
                "docs/FORMATS.md, the journal: no `alternatives batch host lines records time uid who`",
                "docs/FORMATS.md, the journal: `alternatives batch lines records time uid who`, which is not there",
            ],
            list(words.in_journal("\n".join([*kinds, more]), page)),
        )


class OptionsTests(unittest.TestCase):
    def test_each_place_that_lacks_an_option_is_named(self):
        due = words.options_of(ALTCTL, "check")
        self.assertLessEqual({("--no-lock", False), ("--wait", False)}, set(due.items()))
        self.assertTrue(words.options_of(ALTCTL, "run")["--cache"])
        with mock.patch.object(words, "options_of", lambda *_: {**due, "--made-up": True}):
            found = list(words.wrong_options(ALTCTL, ["check"]))
        self.assertEqual(
            [
                "docs/FORMATS.md, altctl check: no `--made-up`",
                "docs/altctl.1, altctl check: no `--made-up`",
                "clients/bash/altctl.bash, altctl check: no `--made-up`",
                "clients/bash/altctl.bash: the number of --made-up is taken for a file",
            ],
            found,
        )

    def test_each_place_that_lacks_a_word_is_named(self):
        commands = words.commands_of(ALTCTL)
        self.assertLessEqual({"create", "run", "do", "check", "tree", "copy"}, set(commands))
        self.assertNotIn("help", commands)
        places = ("docs/FORMATS.md", "docs/altctl.1", "clients/bash/altctl.bash")
        self.assertEqual([f"{it}: no `touch`" for it in places], list(words.wrong_commands([*commands, "touch"])))

    def test_the_number_behind_an_option_is_no_file(self):
        for option in ("--cache", "--buffer", "--grow-to"):
            for number in ([option, "5"], [option, "=", "5"], [f"{option}=5"]):
                with self.subTest(words=number):
                    self.assertEqual(["get"], words.offered("altctl", "do", *number, "map.alt", "ge"))
                    self.assertEqual([], words.offered("altctl", "do", *number, "ge"))
            for unfinished in ([option], [option, "="]):
                with self.subTest(words=unfinished):
                    self.assertEqual([], words.offered("altctl", "do", *unfinished, ""))

    def test_words_are_completed(self):
        self.assertEqual(["create", "copy", "check"], sorted(words.offered("altctl", "c"), reverse=True))
        self.assertEqual(["--grow", "--grow-to"], sorted(words.offered("altctl", "do", "map.alt", "--grow")))
        self.assertEqual(["conflicts"], words.offered("altctl", "do", "--strict", "map.alt", "commit", "'conf"))


class RefusalsTests(unittest.TestCase):
    def test_each_place_that_lacks_a_refusal_is_named(self):
        program, service = refusals.of_program(), refusals.of_service()
        self.assertEqual(("NoSuchAlternative", "ReadOnly", "Denied"), (program[1], program[24], service[90]))
        self.assertEqual([], list(refusals.faults(program, service)))
        more, other = max(program) + 1, max(service) + 1
        found = list(refusals.faults({**program, more: "MadeUp"}, {**service, other: "SoToo"}))
        self.assertEqual(
            [
                f"docs/OPERATING.md: no row for `{more} MadeUp`",
                f"docs/PLANNERS.md: no row for `{other} SoToo`",
                f"clients/c/altctl.h: no ALT_MADE_UP = {more}",
                f"clients/c/altctl.h: no ALT_SO_TOO = {other}",
            ],
            found[:4],
        )
        self.assertEqual(["refusals", "service_refusals"], [it.split()[1] for it in found[4:6]])
        self.assertTrue(found[4].endswith(", MadeUp") and found[5].endswith(", SoToo"))
        places = "crates/vm_cli/src/program/help.rt", "crates/base_tests/src/tests/words.rt"
        self.assertEqual([f"{it}: no `{more} MadeUp`" for it in places], found[6:])

    def test_two_refusals_of_one_number_are_seen(self):
        with tempfile.TemporaryDirectory() as folder:
            limits = Path(folder, "desk/service/limits.py")
            limits.parent.mkdir(parents=True)
            limits.write_text('REFUSALS = {\n    101: "One",\n    102: "Other",\n}\n')
            with mock.patch.object(refusals, "TOP", Path(folder)):
                self.assertEqual({101: "One", 102: "Other"}, refusals.of_service())
                limits.write_text(limits.read_text().replace("102", "101"))
                self.assertRaises(ValueError, refusals.of_service)


class LinksTests(unittest.TestCase):
    def test_a_file_that_a_page_names_and_that_is_gone_is_named(self):
        with tempfile.TemporaryDirectory() as folder:
            top = Path(folder)
            (top / "crates/low/src").mkdir(parents=True)
            (top / "crates/low/src/lib.rt").touch()
            page = top / "page.md"
            page.write_text(
                "`low/src/lib.rt` `low/src/gone.rt` [there](page.md) [not](other.md) `crates/low/src/no.rt`\n"
            )
            with mock.patch.object(documents, "TOP", top):
                found = list(documents.dead_links(page))
        gone = ("low/src/gone.rt", "other.md", "crates/low/src/no.rt")
        self.assertEqual([f"page.md: no file {it}" for it in gone], found)


class VersionsTests(unittest.TestCase):
    def test_a_release_that_programs_do_not_name_is_seen(self):
        self.assertEqual([], list(documents.wrong_versions(ALTCTL)))
        with tempfile.TemporaryDirectory() as folder:
            top = Path(folder)
            for it in ("README.md", "CHANGELOG.md", "docs/FORMATS.md", "clients/python/pyproject.toml"):
                (top / it).parent.mkdir(parents=True, exist_ok=True)
                (top / it).write_text((TOP / it).read_text())
            log = top / "CHANGELOG.md"
            log.write_text(log.read_text().replace("## Not released yet", "## 99.1.0, 2026-12-24"))
            with mock.patch.object(documents, "TOP", top):
                program, client = documents.wrong_versions(ALTCTL)
        self.assertRegex(program, r"altctl --version: \['altctl [\d.]+', .* and not \['altctl 99\.1\.0', ")
        self.assertEqual("clients/python/pyproject.toml: the version is not 99.1.0", client)


class SessionsTests(unittest.TestCase):
    def differences(self, *lines: str) -> int:
        with tempfile.TemporaryDirectory() as folder, contextlib.redirect_stdout(io.StringIO()):
            run = documents.Run(ALTCTL, folder)
            run.session("here", "\n".join(lines))
            return run.differences

    def test_a_reader_has_to_be_told_how_the_program_is_found(self):
        asks = ["$ altctl create map.alt 64", "created 64"]
        self.assertEqual(0, self.differences("$ PATH=$PWD:$PATH", *asks))
        if not shutil.which("altctl"):
            self.assertEqual(1, self.differences(*asks))

    def test_a_command_finds_the_status_and_the_path_of_the_one_before(self):
        self.assertEqual(0, self.differences("$ PATH=/a:$PATH; false", "$ echo $? ${PATH%%:*}", "1 /a"))


class ScriptsTests(unittest.TestCase):
    def test_a_script_without_a_row_and_a_row_without_a_script_are_named(self):
        with tempfile.TemporaryDirectory() as folder:
            tools = Path(folder)
            (tools / "gate").mkdir()
            for it in ("all.sh", "gate/there.py", "gate/new.py"):
                (tools / it).touch()
            tables = ["| Here | |", "|---|---|", "| `all.sh` | all |", "| In `gate` | |", "| `there.py`, `gone.c` | |"]
            (tools / "README.md").write_text("\n".join(tables))
            due = ["no row for gate/new.py", "a row for gate/gone.c, which is not there"]
            self.assertEqual([f"tools/README.md: {it}" for it in due], documents.wrong_scripts(tools))


if __name__ == "__main__":
    unittest.main()
