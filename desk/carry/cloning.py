"""How a clone is made: a store of its own in a new file, which gets its name once it is whole. Until then it is
FILE.part: if the link breaks, the same words go on with it."""
import contextlib
import os
import re
import socket
import subprocess
from concurrent.futures import ThreadPoolExecutor
from typing import List, Optional, Sequence, Tuple

from altctl import Ended, Refusal
from carry import names
from carry.batch import Batch
from carry.links import Fault, Link, program_path
from carry.names import SETTINGS, mark, office_of
from carry.pair import Say, told

BLOCKS = 1024  # to begin with: the file grows as it needs
PAGE = 50000  # records that one question brings: what an interruption costs at most
LAST_NUMBER, LAST_TABLE = 2**64 - 1, 2**16 - 1


def default_name() -> str:
    return re.sub("[^A-Za-z0-9_-]", "-", socket.gethostname().split(".")[0])[:15] or "office"


class Clone:
    def __init__(self, head: Link, file: str, name: str, tables: Sequence[int], say: Say):
        self.head, self.file, self.name, self.tables, self.say = (
            head,
            file,
            names.checked(name),
            sorted(set(tables)),
            say,
        )
        self.part = f"{file}.part"

    def make(self) -> None:
        """Makes the store with `top` as it is at HEAD."""
        if os.path.exists(self.file):
            if self._found(self.file)[0] is None:
                raise Fault(f"{self.file} is there already")
            return
        token, settings = self._find()
        written = None
        with ThreadPoolExecutor(1) as writer:
            while settings.get("at") is not None:
                settings, text = self._page(token, settings)
                if written is not None:
                    written.result()
                written = writer.submit(self._write, text)
        if written is not None:
            written.result()
        os.link(self.part, self.file)
        os.unlink(self.part)

    def _find(self) -> Tuple[str, dict]:
        """The token and the settings of the part that is there, if it is one of this HEAD; else of a new one."""
        there = names.read_names(self.head.store, self.name)
        token, settings = self._found(self.part)
        if token is not None and there.tokens == [token] == there.marks.get("top"):
            self.say("goes on where it was interrupted")
            return token, settings
        if there.tokens:
            raise Fault(
                f"HEAD has an office {self.name} already: choose another name by --office. If its clone is lost: "
                f"altcarry forget HEAD --office {self.name}"
            )
        if token is None or settings.get("at") != self._start():
            token, settings = self._begin()
        self._name_there(token)
        return token, settings

    def _found(self, file: str) -> Tuple[Optional[str], dict]:
        """The token and the settings of a clone, or of a part of one, that these words have made before."""
        if os.path.exists(file):
            with contextlib.suppress(Fault, Ended), Link(file) as store:
                name, settings = names.settings_of(store.store)
                tokens = names.read_names(store.store, name).tokens
                if (
                    name == self.name
                    and (settings["tables"], settings["head"]) == (self.tables, self.head.place)
                    and len(tokens) == 1
                ):
                    return tokens[0], settings
        return None, {}

    def _start(self) -> List[int]:
        return [self.tables[0] if self.tables else 0, 0]

    def _begin(self) -> Tuple[str, dict]:
        """An empty clone, with the token that HEAD gets next. If that comes to nothing, the next try sends the same
        one."""
        with contextlib.suppress(FileNotFoundError):
            os.unlink(self.part)
        words = [program_path(), "create", self.part, str(BLOCKS)]
        subprocess.run(words, check=True, stdout=subprocess.DEVNULL)
        token, batch = names.new_token(), Batch()
        settings = {"office": self.name, "head": self.head.place, "tables": self.tables, "at": self._start()}
        names.renew(batch, self.name, None, [token], settings)
        with Link(self.part) as store:
            batch.carry_out(store)
        return token, settings

    def _name_there(self, token: str) -> None:
        """HEAD's mark on the `top` that is read, page by page."""
        batch = Batch()
        names.renew(batch, self.name, None, [token])
        batch.add("checkpoint", "top", mark(self.name, token))
        try:
            batch.carry_out(self.head)
        except Refusal as refusal:
            raise Fault(told(refusal, "HEAD")) from refusal

    def _page(self, token: str, settings: dict) -> Tuple[dict, str]:
        """Reads the next records. Returns the place after them, and the lines that bring both to the clone."""
        table, number = settings["at"]
        rows = self.head.store.answer_lines("next", f"top@{mark(self.name, token)}", table, number, PAGE)
        settings, batch = {**settings, "at": self._place_after(rows, table)}, Batch()
        if settings["at"] is None:
            del settings["at"]
            names.renew(batch, self.name, token, [token], settings)
            batch.add("checkpoint", "top", mark(self.name, token))
        else:
            batch.add("put", office_of(self.name), *SETTINGS, names.text_of(settings))
        wanted = [it for it in rows if not self.tables or int(it.split()[1]) in self.tables]
        # A value stands in an answer as it stands in a put, and has no space.
        return settings, "".join(wanted).replace("record ", "put top ") + batch.text()

    def _write(self, text: str) -> None:
        """Lines and a commit in one go: faster than to wait for answers."""
        words = [program_path(), "run", "--strict", "--grow", "--", self.part]
        ran = subprocess.run(words, input=text + "commit\n", stdout=subprocess.PIPE, encoding="ascii")
        if ran.returncode:
            raise Fault(f"{self.part} could not be written: {ran.stdout[-100:].strip()}")

    def _place_after(self, rows: list, table: int) -> Optional[List[int]]:
        """The key at which the next page begins, or None after the last one."""
        if len(rows) < PAGE:
            return None
        table, number = map(int, rows[-1].split()[1:3])
        if number == LAST_NUMBER:
            table, number = table + 1, -1
        if self.tables and table not in self.tables:
            table, number = next((it for it in self.tables if it > table), LAST_TABLE + 1), -1
        return [table, number + 1] if table <= LAST_TABLE else None


def forget(head: Link, name: str, say: Say) -> None:
    """Removes all names of an office at HEAD. Its clone, if there still is one, cannot pull or push then."""
    there, batch = names.read_names(head.store, names.checked(name)), Batch()
    if office_of(name) not in there.parents:
        raise Fault(f"HEAD has no office {name}")
    for alt, check in there.extra(name, {}, ""):
        batch.add("uncheck", alt, check)
    batch.add("drop", office_of(name))
    try:
        batch.carry_out(head)
    except Refusal as refusal:
        raise Fault(told(refusal, "HEAD")) from refusal
    say(f"{name}: forgotten at HEAD")
