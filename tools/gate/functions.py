"""Finds the function around a place in a source file, as its layout shows it: each body ends with a brace that stands
as far left as the function's first line. `wrong_bodies.py` uses it."""
import re
from dataclasses import dataclass

FUNCTION = re.compile(r"( *)(?:pub(?:\([^)]*\))? )?(?:const )?(?:unsafe )?fn (\w+)")
# The head of an impl or a trait, or a module in a file.
OWNER = re.compile(r"( *)(?:pub(?:\([^)]*\))? )?(?:unsafe )?(impl|trait|mod)\b(.*)")
CYCLE = re.compile(r" *#\[cycle\((\w+)\)\]")


@dataclass(frozen=True)
class Function:
    """A function: the modules that it stands in, its type with the trait (`FileDiskDisk`), its name, and its cycle of
    calls if it has one."""

    modules: tuple
    owner: str
    name: str
    cycle: str = ""

    @property
    def place(self):
        """What is proved as a whole: the function, or its cycle."""
        return (self.modules, self.cycle) if self.cycle else self

    def name_in(self, crate):
        """Its name as a check prints it."""
        return "::".join(it for it in (crate, *self.modules, self.owner, self.name) if it)


def indent_of(line):
    return len(line) - len(line.lstrip(" "))


def body_of(lines, first):
    """The lines of the body of the function whose first line this is, if it has one: from its opening to its closing
    brace."""
    indent = indent_of(lines[first])
    for opening in range(first, len(lines)):
        line = lines[opening]
        if opening > first and (not line.strip() or indent_of(line) > indent):
            continue
        if opening > first and not line.lstrip().startswith((")", "{", "where")):
            return None
        if line.endswith("}"):
            return range(opening, opening + 1)
        if line.endswith("{"):
            closing = next((at for at in range(opening + 1, len(lines)) if lines[at] == " " * indent + "}"), None)
            return range(opening, closing + 1) if closing else None
        if line.endswith(";"):
            return None
    return None


def without_parameters(head):
    """The head of an impl without what stands in angle brackets."""
    while "<" in head:
        shorter = re.sub(r"<[^<>]*>", "", head.replace("->", ""))
        if shorter == head:
            return head
        head = shorter
    return head


def owner_of(lines, first):
    """The type, and the trait, of the impl around a function, and the modules in the file, the outermost first."""
    owner, modules, indent = "", [], indent_of(lines[first])
    for at in range(first - 1, -1, -1):
        found = OWNER.match(lines[at])
        if not found or len(found[1]) >= indent:
            continue
        indent = len(found[1])
        if found[2] == "mod":
            modules.insert(0, re.match(r"\s*(\w+)", found[3])[1])
        else:
            end = next(it for it in range(at, first) if lines[it].rstrip().endswith("{"))
            head = without_parameters(" ".join([found[3], *lines[at + 1 : end + 1]]))
            trait, _, of_type = re.sub(r"\bwhere\b.*|[{:] .*|{", "", head).rpartition(" for ")
            owner = "".join(it.split("::")[-1].strip() for it in (of_type, trait))
    return owner, modules


def function_at(file, text, at, with_head=False):
    """The function in whose body this line of the file's text stands, the first of which is 0, or None. With its head:
    the function of this line."""
    lines = text.split("\n")
    for first in range(at, -1, -1):
        found = FUNCTION.match(lines[first])
        body = body_of(lines, first) if found else None
        if body and (at in body or with_head and first <= at <= body[-1]):
            owner, inside = owner_of(lines, first)
            of_file = [
                it for it in file.removeprefix("src/").removesuffix(".rt").split("/") if it not in ("lib", "mod")
            ]
            above = [CYCLE.match(lines[it]) for it in range(max(0, first - 12), first)]
            cycle = next((it[1] for it in reversed(above) if it), "")
            return Function((*of_file, *inside), owner, found[2], cycle)
    return None
