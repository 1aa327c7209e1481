"""One list of lines, run by the program over a file, and what the file shows then. `tools/faults/space.py` and
`tools/faults/failing_device.py` stop it in many ways. Whatever stops it, what was acknowledged is shown, and the file
has got no shorter."""
import os
import subprocess

# A store has so many blocks at first, and is grown to so many.
BLOCK, BLOCKS, MORE = 4096, 64, 90
# A value that fills a leaf with a few short ones, and one for which such a leaf has no room.
LARGEST, BESIDE = "d" * 4000, "e" * 100
LINES = [
    *("put top 1 1 a", "new x top", "put x 1 1 b", "checkpoint x c", "commit"),
    *(f"put top 1 2 {LARGEST}", "merge x", "post x", "uncheck x c", "commit"),
    *(f"put top 1 3 {BESIDE}", f"grow {MORE}", "remove top 1 1", "commit"),
]
QUERIES = ["alts", "list top", "list x", "changes x", "checks x", "free"]
NONE = ["error 1 NoSuchAlternative"] * 3
BOTH = ["alternative top ~", "alternative x top", "end 2"]
# What the store shows once so many of the lines are committed.
SHOWN = {
    0: ["alternative top ~", "end 1", "end 0", *NONE, "free 30"],
    5: [
        *BOTH, "record 1 1 a", "end 1", "record 1 1 b", "end 1", "change 1 1 a b", "end 1", "checkpoint c", "end 1",
        "free 28",
    ],
    10: [*BOTH, *["record 1 1 b", f"record 1 2 {LARGEST}", "end 2"] * 2, "end 0", "end 0", "free 29"],
    # A root over two leaves, and the leaf of x.
    14: [
        *(*BOTH, f"record 1 2 {LARGEST}", f"record 1 3 {BESIDE}", "end 2"),
        *("record 1 1 b", f"record 1 2 {LARGEST}", "end 2", "end 0", "end 0", "free 52"),
    ],
}


class Failure(Exception):
    """Something is lost, or answered otherwise than it should be."""


def expect(what, due, came):
    if due != came:
        raise Failure(f"{what}: expected {due}, and came {came}")


def start(altctl, words, lines=(), prepare=None, variables=None):
    """Starts the program, and gives its status, the lines of its output, and its standard error."""
    text = "".join(line + "\n" for line in lines)
    ran = subprocess.run(
        [altctl, *words], input=text, capture_output=True, text=True, preexec_fn=prepare, env=variables, timeout=60
    )
    return ran.returncode, ran.stdout.splitlines(), ran.stderr


def create(altctl, file):
    expect("create", (0, [f"created {BLOCKS}"], ""), start(altctl, ["create", file, str(BLOCKS)]))


def usual(n):
    """The answer to a line."""
    return "ok 1" if LINES[n] == "merge x" else "ok"


def allowed(answers):
    """After how many lines the state is that may be shown: what was acknowledged, or what the commit commits that was
    stopped."""
    last = max([n + 1 for n, answer in enumerate(answers) if LINES[n] == "commit" and answer == "ok"], default=0)
    if answers and answers[-1] == "error 15 Device" and LINES[len(answers) - 1] == "commit":
        return {last, len(answers)}
    return {last}


def check_answers(file, status, answers, faults, how):
    """Looks whether lines were answered as usual up to the end, or up to one that the device failed. The answers may
    lack where the opening failed. Gives whether the run was stopped."""
    due = [usual(n) for n in range(min(len(answers), len(LINES)))]
    if status == 0:
        expect(f"{how}: the answers", ([usual(n) for n in range(len(LINES))], ""), (answers, faults))
        return False
    if answers:
        due[-1] = "error 15 Device"
        ends = (3, "altctl: stopped\n")
    else:
        # The store, or first its selector, which is read and written again.
        ends = (1, "altctl: 15 Device\n" if faults.endswith("15 Device\n") else f"altctl: cannot open {file}\n")
    expect(f"{how}: the answers", (due, *ends), (answers, status, faults))
    return True


def shown_after(altctl, file, answers, how):
    """Opens a file again, and gives after how many lines the state is that it shows. A growth that was stopped may have
    left some of its blocks."""
    blocks = os.path.getsize(file) / BLOCK
    if not BLOCKS <= blocks <= MORE:
        raise Failure(f"{how}: the file has {blocks} blocks")
    status, shown, faults = start(altctl, ["run", file], QUERIES)
    expect(f"{how}, opened again", (0, ""), (status, faults))
    for after in allowed(answers):
        if shown == SHOWN[after]:
            return after
    raise Failure(f"{how}, opened again: {shown} after {answers}")


def finish(altctl, file, after, how):
    """Runs the rest of the lines."""
    due = [usual(n) for n in range(after, len(LINES))]
    expect(f"{how}: the rest", (0, due, ""), start(altctl, ["run", file], LINES[after:]))
    expect(f"{how}: the end", (0, SHOWN[len(LINES)], ""), start(altctl, ["run", file], QUERIES))
    expect(f"{how}: blocks of the file", MORE, os.path.getsize(file) / BLOCK)


def run_and_finish(altctl, file, how, program=None, options=(), **started):
    """Runs the lines in a way that may stop them, looks at what is shown then, and runs the rest as usual. Gives
    whether they were stopped."""
    status, answers, faults = start(program or altctl, ["run", *options, file], LINES, **started)
    stopped = check_answers(file, status, answers, faults, how)
    finish(altctl, file, shown_after(altctl, file, answers, how), how)
    return stopped
