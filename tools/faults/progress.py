#!/usr/bin/env python3
"""Has the program make, open, list, check, copy and grow a store over a device that is slow:
`tools/faults/progress.py`. On a terminal the standard error tells how far a job is, and nothing of that is left on the
screen when it is done; anywhere else no byte is written there, nor on a terminal where the job is short. What is
answered is the same each time. Where it isn't so, it says so and ends with status 1.

It needs a C compiler, and a program that is linked against glibc. It stands beside the gate, as `tools/faults/space.py`
does.
"""
import os
import pty
import re
import shutil
import subprocess
import sys
import tempfile
import threading

sys.dont_write_bytecode = True
from fixed_run import Failure, expect
from preloaded import PROGRAM, build_program, compiled, preloaded

# A file is made longer by so many blocks at a time, and this many take two seconds. They are a hole.
AT_ONCE = 16_384
MANY = 400 * AT_ONCE
# As many leaves as take three seconds to read: one has nine records, of values of 441 bytes.
BLOCKS, RECORDS, SLOW = 6144, 5400, 6000
VALUE = "v" * 441
# Those of a copy: the store is opened in less than a second, the copy takes three.
COPIED, FEW = 256 * AT_ONCE, 900
LINE = re.compile(rb"\raltctl: (\d+)(?: of (\d+))? blocks")


def gathered(descriptor, into):
    """Reads a terminal to its end."""
    while True:
        try:
            more = os.read(descriptor, 65536)
        except OSError:
            return
        if not more:
            return
        into.append(more)


def run(words, lines, slow, on_terminal, answers_too=False):
    """Runs the program with its standard error on a terminal, and its output too where that is asked for, or on pipes.
    Gives its status, its output, and what came on the standard error."""
    variables = {**os.environ, **slow}
    text = "".join(line + "\n" for line in lines).encode()
    if not on_terminal:
        ran = subprocess.run([PROGRAM, *words], input=text, capture_output=True, env=variables, timeout=120)
        return ran.returncode, ran.stdout, ran.stderr
    here, there = pty.openpty()
    came = []
    reader = threading.Thread(target=gathered, args=(here, came))
    reader.start()
    output = there if answers_too else subprocess.PIPE
    with subprocess.Popen(
        [PROGRAM, *words], stdin=subprocess.PIPE, stdout=output, stderr=there, env=variables
    ) as program:
        os.close(there)
        answers, _ = program.communicate(text, timeout=120)
    reader.join(60)
    os.close(here)
    return program.returncode, answers, b"".join(came)


def screen(written):
    """The lines that stand on a screen once this was written."""
    rows, column = [[]], 0
    for letter in written.decode():
        if letter == "\n":
            rows.append([])
        elif letter == "\r":
            column = 0
        else:
            row = rows[-1]
            row.extend(" " * (column + 1 - len(row)))
            row[column] = letter
            column += 1
    return ["".join(row).rstrip() for row in rows]


def expect_progress(what, written, jobs, totals):
    """Looks whether the terminal told how far so many jobs are, each with rising numbers, of these numbers of blocks
    or, for 0, of no number, and is blank after."""
    told = [(int(it[1]), int(it[2] or 0)) for it in LINE.finditer(written)]
    begun = sum(n == 0 or told[n - 1][0] >= blocks for n, (blocks, _) in enumerate(told))
    expect(f"{what}: jobs that were told", jobs, begun)
    expect(f"{what}: of how many blocks", totals, {told_total for _, told_total in told})
    expect(f"{what}: lines, one job", True, len(told) >= 2 * jobs)
    expect(f"{what}: the screen", [""], screen(written))


def try_job(what, words, lines, slow, jobs, totals=frozenset({BLOCKS}), prepare=None):
    """Runs one job with its standard error on a pipe, on a terminal with its output, and on a terminal alone. Where the
    job changes the file, `prepare` is called before each time."""
    came = {}
    for how in ("pipe", "screen", "terminal"):
        if prepare:
            prepare()
        came[how] = run(words, lines, slow, how != "pipe", how == "screen")
    status, output, faults = came["pipe"]
    expect(f"{what}: status and standard error", (0, b""), (status, faults))
    expect(f"{what}: the same on a terminal", (0, output), came["terminal"][:2])
    expect(f"{what}: what stands on the screen", output.decode().split("\n"), screen(came["screen"][2]))
    expect_progress(what, came["terminal"][2], jobs, totals)
    status, quick, faults = run(words, lines, {}, True) if not prepare else (0, output, b"")
    expect(f"{what}: a short job on a terminal", (0, output, b""), (status, quick, faults))


def main():
    build_program()
    with tempfile.TemporaryDirectory() as folder:
        slow = preloaded(compiled("slow_calls", folder), slow=SLOW)
        file, small, grown = (os.path.join(folder, name) for name in ("store", "small", "grown"))
        try:
            remove = lambda: os.path.exists(file) and os.remove(file)
            try_job("create", ["create", file, str(MANY)], [], slow, 1, {MANY}, remove)
            remove()
            run(["create", file, str(BLOCKS)], [], {}, False)
            puts = [f"put top 1 {number} {VALUE}" for number in range(RECORDS)]
            status, _, faults = run(["run", file], [*puts, "commit"], {}, True)
            expect("puts on a terminal", (0, b""), (status, faults))
            # The opening reads few blocks.
            try_job("open and list", ["run", "--cache", "0", file], ["list top"], slow, 1)
            try_job("check", ["check", file], [], slow, 1)
            run(["create", small, "1024"], [], {}, False)
            run(["run", small], [*puts[:FEW], "commit"], {}, False)
            # With what is read for the copy, they are more blocks than it has.
            remove = lambda: os.path.exists(grown) and os.remove(grown)
            try_job("copy", ["copy", small, grown, str(COPIED)], [], slow, 1, {COPIED, 0}, remove)
            os.remove(small)
            run(["create", small, "64"], [], {}, False)
            # How many blocks there will be is not known where they are counted.
            try_job("growth", ["run", grown], [f"grow {MANY}"], slow, 1, {0}, lambda: shutil.copy(small, grown))
        except Failure as it:
            print(f"progress: {it}")
            return 1
    print("progress: a terminal was told how far five jobs are, and nothing else was")
    return 0


if __name__ == "__main__":
    sys.exit(main())
