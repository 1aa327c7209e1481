"""A store of Zonegrater in the memory of this process, by `libaltstore`: a reader of a snapshot, a store to try
something in, a store for tests. Nothing is durable before `save`; for a durable store take `altctl`.

    from altstore import Memory

    with Memory.load("map.alt") as store:
        print(store.get("top", 7, 1))

    with Memory(64, room=1024) as store:
        store.put("top", 7, 1, b"duct")
        store.commit()
        store.save("copy.alt")

Each method sends a line of docs/FORMATS.md, and `ask` sends any lines. A store is used by one thread at a time. Needs
Python 3.9 or later, and the shared library: by its path in ALTSTORE_LIBRARY, beside this file, or where the system
looks.
"""
from __future__ import annotations

import ctypes
import os
from pathlib import Path
from types import TracebackType
from typing import Any, Iterator, Optional, Tuple, Union

__all__ = ["Memory", "Refused", "library"]

OK, MEMORY, FAILED, CLOSED, OPEN, UNREAD, UNWRITTEN, LINE_REFUSED = 0, 16, 17, 101, 102, 103, 104, 105
SENTENCES = {
    MEMORY: "error 16 Memory",
    FAILED: "error 17 Failed",
    18: "error 18 Damaged",
    19: "error 19 NotAStore",
    21: "error 21 BadSize",
    CLOSED: "the store is closed",
    OPEN: "the store is open already",
    UNREAD: "the image could not be read",
    UNWRITTEN: "the image could not be written",
    LINE_REFUSED: "a line was refused",
}


class Refused(Exception):
    """A call or a line was refused. `code` is the number of the refusal, or one of the library's own from 101 on."""

    def __init__(self, code: int, text: Optional[str] = None) -> None:
        super().__init__(text or SENTENCES.get(code, f"refused with {code}"))
        self.code = code


class _Handle(ctypes.Structure):
    _fields_ = [("is_open", ctypes.c_bool), ("at", ctypes.c_void_p)]


def library(path: Union[str, "os.PathLike[str]", None] = None) -> ctypes.CDLL:
    """The library, from this path or where it is looked for."""
    beside = Path(__file__).resolve().with_name("libaltstore.so.0")
    path = path or os.environ.get("ALTSTORE_LIBRARY") or (beside if beside.exists() else "libaltstore.so.0")
    found = ctypes.CDLL(str(path))
    handle, number, size = ctypes.POINTER(_Handle), ctypes.c_uint32, ctypes.c_size_t
    functions: Tuple[Tuple[Any, ...], ...] = (
        ("altstore_new", number, number, number),
        ("altstore_load", number, ctypes.c_int32, number),
        ("altstore_load_bytes", number, ctypes.c_char_p, size, number),
        ("altstore_ask", number, ctypes.c_char_p, size, ctypes.c_bool),
        ("altstore_length", size),
        ("altstore_answers", size, size, ctypes.c_char_p, size),
        ("altstore_save", number, ctypes.c_int32),
        ("altstore_close", None),
    )
    for name, given, *taken in functions:
        function = getattr(found, name)
        function.restype, function.argtypes = given, [handle, *taken]
    return found


_found = None


def _library():
    global _found
    _found = _found or library()
    return _found


_SPELLED = [chr(it) if 33 <= it <= 125 and it != 37 else f"%{it:02X}" for it in range(256)]


def _encode(value):
    """A value as a word of a line: `-` for the empty one, and two digits for each byte that is none of a word or has a
    meaning there."""
    if value in (b"", b"-"):
        return "%2D" if value else "-"
    return "".join(map(_SPELLED.__getitem__, value))


def _decode(word):
    """The value that a word spells."""
    if word == "-":
        return b""
    first, *others = word.split("%")
    return b"".join([first.encode("ascii"), *(bytes([int(it[:2], 16)]) + it[2:].encode("ascii") for it in others)])


class Memory:
    """A store in memory: a new one of `blocks` blocks of 4,096 bytes, that may grow to `room` of them."""

    def __init__(self, blocks: int, room: int = 0) -> None:
        self._handle = _Handle()
        self._call("altstore_new", blocks, room)

    @classmethod
    def load(cls, image: Union[str, "os.PathLike[str]", bytes, bytearray], room: int = 0) -> Memory:
        """The store in an image: a path, or bytes."""
        store = cls.__new__(cls)
        store._handle = _Handle()
        if isinstance(image, (bytes, bytearray)):
            store._call("altstore_load_bytes", bytes(image), len(image), room)
        else:
            with open(image, "rb") as file:
                store._call("altstore_load", file.fileno(), room)
        return store

    def _call(self, name, *words):
        code = getattr(_library(), name)(ctypes.byref(self._handle), *words)
        if code != OK:
            raise Refused(code)

    def ask(self, lines: Union[str, bytes], stops: bool = False) -> str:
        """The answers to lines, as text. A refused line is answered by its refusal, and is the last one if `stops` is
        true."""
        data = lines.encode() if isinstance(lines, str) else lines
        found, handle = _library(), ctypes.byref(self._handle)
        code = found.altstore_ask(handle, data, len(data), stops)
        if code not in (OK, LINE_REFUSED, FAILED):
            raise Refused(code)
        length = found.altstore_length(handle)
        answers = ctypes.create_string_buffer(length)
        found.altstore_answers(handle, 0, answers, length)
        return answers.raw.decode("ascii")

    def _answer(self, line):
        answer = self.ask(line + "\n")
        if answer.startswith("error "):
            raise Refused(int(answer.split(" ")[1]), answer.strip())
        return answer.splitlines()

    def get(self, alt: str, table: int, number: int) -> Optional[bytes]:
        """The value of a record, or None."""
        answer = self._answer(f"get {alt} {table} {number}")[0]
        return _decode(answer[6:]) if answer.startswith("value ") else None

    def put(self, alt: str, table: int, number: int, value: bytes) -> None:
        self._answer(f"put {alt} {table} {number} {_encode(value)}")

    def remove(self, alt: str, table: int, number: int) -> None:
        self._answer(f"remove {alt} {table} {number}")

    def records(self, alt: str) -> Iterator[Tuple[int, int, bytes]]:
        """The records of an alternative: (table, number, value) in the order of their keys."""
        for answer in self._answer(f"list {alt}")[:-1]:
            _, table, number, value = answer.split(" ")
            yield int(table), int(number), _decode(value)

    def commit(self) -> None:
        self._answer("commit")

    def save(self, path: Union[str, "os.PathLike[str]"]) -> None:
        """Writes the image. Changes that were not committed are gone."""
        with open(path, "wb") as file:
            self._call("altstore_save", file.fileno())

    def close(self) -> None:
        _library().altstore_close(ctypes.byref(self._handle))

    def __enter__(self) -> Memory:
        return self

    def __exit__(self, *_: Union[type, BaseException, TracebackType, None]) -> None:
        self.close()

    def __del__(self) -> None:
        if getattr(self, "_handle", None) is not None and self._handle.is_open:
            self.close()
