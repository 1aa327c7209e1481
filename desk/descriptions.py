"""What people say of designs: title, owner, status and note of each, in an alternative of their own, so that it is kept
when a design is posted or dropped.

| Record of `.designs` | Its value |
|---|---|
| (1, n) | a design as JSON: its name, and what is said of it; n is the first 8 bytes of the name's SHA-256 |"""
import hashlib
import json

import maps
from altctl import Refusal

OWN, TABLE = ".designs", 1
FIELDS = ("title", "owner", "status", "note")
MOST = 500  # characters of a text
NO_ALTERNATIVE, IS_THERE = 1, 2


def number_of(name):
    return int.from_bytes(hashlib.sha256(name.encode()).digest()[:8], "big")


class Descriptions:
    """What is said of designs, read once after each change."""

    def __init__(self):
        self.found = None

    def forget(self):
        self.found = None

    def read(self, store):
        """What is said of each design, as a dict from name."""
        if self.found is None:
            self.found = {}
            try:
                for row in store.list(OWN, TABLE):
                    self._take(row.value)
            except Refusal as refusal:
                if refusal.number != NO_ALTERNATIVE:
                    raise
        return self.found

    def _take(self, value):
        try:
            its = json.loads(value)
            self.found[its["name"]] = {it: its[it][:MOST] for it in FIELDS if isinstance(its.get(it), str)}
        except (KeyError, TypeError, ValueError, RecursionError):
            pass  # It is no description, and says nothing.

    def write(self, store, name, it):
        """Says something of a design."""
        its = {"name": name, **{field: str(it.get(field, ""))[:MOST] for field in FIELDS}}
        value = maps.to_text(its).encode()
        if len(value) > maps.LONGEST:
            raise maps.Fault("that is too long")
        if OWN not in {it.name for it in store.alternatives()}:
            try:
                store.new(OWN, "top")
            except Refusal as refusal:
                if refusal.number != IS_THERE:
                    raise
        store.put(OWN, TABLE, number_of(name), value)
        self.forget()
