"""Why something failed, for the person who asked for it: a line on what was not done, and a second one on the file, the
line or the word that it was about, with what the system or the program said."""
import os
import sys

# A line of the store may have a megabyte.
LONGEST = 200


def tell(program: str, text: object) -> None:
    """Tells a person something, of one line or more, with the program's name before each."""
    print(named(program, text), file=sys.stderr, flush=True)


def named(program: str, text: object) -> str:
    return "\n".join(f"{program}: {it}" for it in str(text).splitlines())


def why(fault: BaseException) -> str:
    """What is behind a fault: the file and the error of the system, what altctl said, or the line that was refused, and
    which word of it is wrong."""
    if isinstance(fault, OSError) and fault.strerror:
        return fault.strerror if fault.filename is None else f"{os.fsdecode(fault.filename)}: {fault.strerror}"
    line, reason = getattr(fault, "line", None), getattr(fault, "reason", None)
    if line is not None:
        text = f"the line was: {line if len(line) <= LONGEST else line[:LONGEST] + '..'}"
        return f"{text}\n{reason}" if reason else text
    said = (getattr(fault, "said", "") or str(fault)).strip()
    return f"{said}: {reason}" if reason else said


def owners(file: str) -> str:
    """Who has a file's lock, as far as that can be seen. It may be on another machine, and a service under systemd sees
    no list of locks."""
    try:
        found = os.stat(file)
        with open("/proc/locks") as locks:
            rows = [it.split() for it in locks]
    except OSError:
        rows = []
    else:
        place = f"{os.major(found.st_dev):02x}:{os.minor(found.st_dev):02x}:{found.st_ino}"
        rows = [it for it in rows if it[5:6] == [place]]
    return ", ".join(map(process, sorted({it[4] for it in rows}))) or "a process that is not seen from here"


def process(number: str) -> str:
    """A process, with its name if that can be seen."""
    try:
        with open(f"/proc/{number}/comm") as name:
            return f"process {number} ({name.read().strip()})"
    except OSError:
        return f"process {number}"
