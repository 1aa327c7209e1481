#!/usr/bin/env python3
"""Has the prover refuse the wrong bodies in `crates/*/wrong-bodies`: `tools/gate/wrong_bodies.py [--anew] [CRATE..]`.

Each is a file of the form that the gate takes in `must-fail`: a small change that turns what a function means. The gate
(`rt ci`) tries those in `must-fail` one by one; here many share a check. In each round at most one place in a function
is changed, and a wrong body counts as refused where its function is not proved for a reason of its own. What a round
leaves open is tried again, at last alone, as the gate would try it. A line tells of each what came of it, and the last
line counts them. The status is 1 where one is not refused, cannot be applied or is not seen to be tried.

What came of a wrong body is kept in the user's cache folder, by a checksum of all that it stands on: its text, the
sources, definitions and proofs of the crate and of those below it, their lines in crates.txt, and the toolchain's name.
Only what changed is tried again; `--anew` tries all.

It works with one job, and uses `rt` and its library as modules, as they are today: a later toolchain may ask for
changes here.
"""
import contextlib
import hashlib
import importlib.machinery
import importlib.util
import json
import os
import pathlib
import re
import resource
import shutil
import signal
import sys
import tempfile
import time
from dataclasses import dataclass, field

sys.dont_write_bytecode = True
from functions import function_at

ROOT = pathlib.Path(__file__).resolve().parents[2]
ONE_JOB = ["--jobs", "1"]
# What came of a wrong body, where one is a bad edit that cannot be applied or does not compile. The first three are
# kept: they stay so as long as nothing changes.
REFUSED, PASSED, BROKEN, OPEN = "refused", "NOT REFUSED", "BAD EDIT", "NOT TRIED"
# Part of each checksum: a change of how a result is found raises it.
METHOD = "1"
# What a check says of a function, whose name may have spaces; and of one that is not proved for a reason of its own.
VERDICT = re.compile(r"^fn (.+?): ((?:not )?proved.*|could not tell.*|no proof.*)", re.M)
OWN_REASON = re.compile(r"not proved$|not proved; the borrow|no proof: expected")
# A message on a place in a source file.
MESSAGE = re.compile(r"^(?:note: )?(?:\./)?((src/\S+?):(\d+):\d+: )(.*)", re.M)


class Stop(Exception):
    """Why nothing, or nothing more, can be tried."""


def load_rt():
    """The command `rt` as a module."""
    place = shutil.which("rt")
    if not place:
        raise Stop("rt, the command of the Rattle toolchain, is not found")
    loader = importlib.machinery.SourceFileLoader("rt_command", os.path.realpath(place))
    module = importlib.util.module_from_spec(importlib.util.spec_from_loader("rt_command", loader))
    loader.exec_module(module)
    return module


def processor_time():
    """The seconds of processor time that all checks took until now."""
    used = resource.getrusage(resource.RUSAGE_CHILDREN)
    return used.ru_utime + used.ru_stime


@dataclass
class WrongBody:
    """A file of `wrong-bodies`: the changes that it makes, and the functions in which they stand."""

    path: pathlib.Path
    text: str
    changes: list = field(default_factory=list)
    functions: set = field(default_factory=set)
    lies_in_functions: bool = True

    @property
    def name(self):
        return self.path.stem


def changes_of(text):
    """The changes that an edit's text asks for: a file, a text there that stands once, and what takes its place."""
    file, old = "", None
    for line in text.split("\n"):
        if line.startswith("file: "):
            file = line[len("file: ") :].strip()
        elif line.startswith("old: "):
            old = line[len("old: ") :]
        elif line.startswith("new:"):
            yield file, old, line[len("new:") :].removeprefix(" ")


def with_changes(changes, texts, folder):
    """These texts, by file, with the changes made; None where one cannot be made. With them, the functions that are
    changed."""
    texts, functions = dict(texts), set()
    for file, old, new in changes:
        text = texts[file] if file in texts else (folder / file).read_text()
        if text.count(old) != 1:
            return None, set()
        line = text.count("\n", 0, text.index(old))
        functions.add(function_at(file, text, line) if file.startswith("src/") else None)
        texts[file] = text.replace(old, new)
    return texts, functions


def read_body(path, folder):
    """Reads a wrong body that can be applied."""
    body = WrongBody(path, path.read_text())
    body.changes = list(changes_of(body.text))
    _, functions = with_changes(body.changes, {}, folder)
    body.lies_in_functions = bool(functions) and None not in functions
    body.functions = functions - {None}
    return body


def first_message(body, texts, messages):
    """The first of a check's messages that is about a function which this wrong body changes."""
    for place, file, line, said in messages:
        if file in texts and function_at(file, texts[file], int(line) - 1, with_head=True) in body.functions:
            return place + said
    return " ".join(sorted(it.name for it in body.functions)) + " is not proved"


class Results:
    """What came of wrong bodies, by checksum, in the user's cache folder."""

    def __init__(self, rt, anew):
        at = os.environ.get("XDG_CACHE_HOME") or os.path.join(os.path.expanduser("~"), ".cache")
        self.folder = pathlib.Path(at) / "zonegrater" / "wrong-bodies"
        self.anew = anew
        self.toolchain = pathlib.Path(rt.KIT, "KIT-ID").read_text().strip()
        self.sums = {}

    def sum_of(self, crate):
        """A checksum of all that a verdict on the crate stands on."""
        if crate.name not in self.sums:
            seen = hashlib.sha256(repr((METHOD, self.toolchain, crate.name, crate.said)).encode())
            for file in sorted(
                it for part in ("src", "specs", "proofs") for it in pathlib.Path(crate.folder, part).rglob("*")
            ):
                if file.is_file():
                    seen.update(repr((str(file.relative_to(crate.folder)), file.read_bytes())).encode())
            seen.update(repr([self.sum_of(it) for it in crate.deps]).encode())
            self.sums[crate.name] = seen.hexdigest()
        return self.sums[crate.name]

    def place(self, crate, body):
        name = hashlib.sha256(repr((self.sum_of(crate), body.name, body.text)).encode()).hexdigest()
        return self.folder / f"{crate.name}-{name}.json"

    def known(self, crate, body):
        """What came of the wrong body at an earlier run, and what was said of it."""
        if self.anew:
            return None
        with contextlib.suppress(OSError, ValueError, KeyError):
            found = json.loads(self.place(crate, body).read_text())
            os.utime(self.place(crate, body))
            if found["kind"] in (REFUSED, PASSED, BROKEN):
                return found["kind"], found["said"]
        return None

    def keep(self, crate, body, kind, said):
        if kind == OPEN:
            return
        with contextlib.suppress(OSError):
            self.folder.mkdir(parents=True, exist_ok=True)
            with tempfile.NamedTemporaryFile("w", dir=self.folder, delete=False) as to:
                json.dump({"crate": crate.name, "name": body.name, "kind": kind, "said": said}, to)
            os.replace(to.name, self.place(crate, body))

    def drop_old(self):
        """Removes what no run asked for in 60 days."""
        for it in self.folder.glob("*"):
            with contextlib.suppress(OSError):
                if it.stat().st_mtime < time.time() - 60 * 24 * 3600:
                    it.unlink()


class Trial:
    """The wrong bodies of a crate, tried over what a check of the crate as it stands proved (the base)."""

    def __init__(self, rt, crate):
        self.rt, self.crate, self.folder = rt, crate, pathlib.Path(crate.folder)
        self.room = tempfile.mkdtemp(prefix="wrong-bodies-")
        self.base = os.path.join(self.room, "base")
        self.names = []
        self.checks = 0

    def prepare(self):
        """Builds the libraries below, and proves the crate as it stands, over what earlier checks kept if that
        serves."""
        log = tempfile.TemporaryFile("w+", errors="replace")
        for below in self.crate.below():
            below.out = log
            if below.build_rlib(ONE_JOB, anew=False):
                log.seek(0)
                raise Stop(f"{self.crate.name}: the library {below.name} could not be built\n{log.read()[-2000:]}")
        self.crate.out = log
        self.rt.adopt(self.crate, is_alone=False)
        kept = os.path.join(self.crate.folder, "out", "incremental")
        said = ""
        for start in [kept] * os.path.isdir(kept) + [None]:
            shutil.rmtree(self.base, ignore_errors=True)
            if start:
                self.rt.linked(start, self.base)
            else:
                os.mkdir(self.base)
            ran = self.rt.checked(self.crate, {}, ONE_JOB, self.base)
            if not ran.returncode:
                self.names = [name for name, _ in VERDICT.findall(ran.stdout)]
                return
            said = ran.stdout
        raise Stop(f"{self.crate.name} is not proved as it stands, so no wrong body of it was tried\n{said[-2000:]}")

    def name_of(self, function):
        """The name of a function that is changed, as a check prints it, or None where the check of the base printed
        none such."""
        name = function.name_in(self.crate.name)
        return name if name in self.names else None

    def over_base(self, call):
        """What a call gives that gets a copy of the base to work over."""
        over = os.path.join(self.room, "over")
        self.rt.linked(self.base, over)
        try:
            return call(over)
        finally:
            shutil.rmtree(over, ignore_errors=True)

    def verdicts(self, texts, names):
        """What a check of these functions, over these texts, says of them, and its messages; None where it did not
        reach them."""
        self.checks += 1
        flags = [*ONE_JOB, *(word for it in sorted(names) for word in ("--only", it))]
        ran = self.over_base(lambda over: self.rt.checked(self.crate, texts, flags, over))
        if any(self.rt.unread(it, texts) for it in ran.stdout.split("\n")):
            return None
        said = dict(VERDICT.findall(ran.stdout))
        return (said, MESSAGE.findall(ran.stdout)) if names <= said.keys() else None

    def alone(self, body):
        """What comes of a wrong body by itself, as the gate tries it, and what is said of it."""
        self.checks += 1
        kind, said = self.over_base(lambda over: self.rt.must_fail(self.crate, str(body.path), ONE_JOB, over))
        kinds = {self.rt.REFUSED: REFUSED, self.rt.AT_LIMIT: REFUSED, self.rt.MISSED: PASSED, self.rt.BAD: BROKEN}
        said = re.sub(
            r"^(refused, as it must be|NOT REFUSED|BAD EDIT|NOT TRIED):? ", "", said.partition(f"{body.path.name}: ")[2]
        )
        return kinds.get(kind, OPEN), "alone: " + said

    def next_round(self, waiting):
        """Those of the wrong bodies that one check can try together, and those that are left."""
        texts, taken, chosen, left = {}, set(), [], []
        for body in waiting:
            places = {it.place for it in body.functions}
            made = None if places & taken else with_changes(body.changes, texts, self.folder)[0]
            if made is None:
                left.append(body)
            else:
                texts, taken = made, taken | places
                chosen.append(body)
        return chosen, left

    def try_together(self, chosen):
        """Tries wrong bodies in one check, or in two halves where that reaches no verdict. Gives what was said of those
        that are refused, and those that are left open."""
        texts = with_changes([it for body in chosen for it in body.changes], {}, self.folder)[0]
        names = {body.name: {self.name_of(it) for it in body.functions} for body in chosen}
        found = self.verdicts(texts, set().union(*names.values()))
        if not found and len(chosen) > 1:
            half = len(chosen) // 2
            halves = [self.try_together(it) for it in (chosen[:half], chosen[half:])]
            return {**halves[0][0], **halves[1][0]}, halves[0][1] + halves[1][1]
        refused, unsure = {}, []
        for body in chosen:
            if found and any(OWN_REASON.match(found[0][it]) for it in names[body.name]):
                refused[body.name] = first_message(body, texts, found[1])
            else:
                unsure.append(body)
        return refused, unsure

    def try_all(self, bodies):
        """Tries wrong bodies, and gives for each in turn what came of it. What a round leaves open is tried in one more
        round, and then alone."""
        clear = lambda it: it.lies_in_functions and all(map(self.name_of, it.functions))
        waiting, alone = [it for it in bodies if clear(it)], [it for it in bodies if not clear(it)]
        once = set()
        while waiting:
            chosen, left = self.next_round(waiting)
            refused, unsure = self.try_together(chosen)
            for body in chosen:
                if body.name in refused:
                    yield body, REFUSED, refused[body.name]
            last = [it for it in unsure if it.name in once or len(chosen) == 1]
            once.update(it.name for it in unsure)
            alone += last
            waiting = left + [it for it in unsure if it not in last]
        for body in alone:
            yield (body, *self.alone(body))


def bodies_of(rt, crate):
    """The wrong bodies of a crate that can be applied, and why the others cannot."""
    folder = pathlib.Path(crate.folder)
    good, bad = [], []
    for path in sorted((folder / "wrong-bodies").glob("*")):
        why = rt.read_edit(str(path), crate.folder)[1] if path.suffix == ".edit" else "its name does not end in .edit"
        if why:
            bad.append((path.stem, BROKEN, why))
        else:
            good.append(read_body(path, folder))
    return good, bad


def tell(crate, name, kind, said, before=""):
    print(f"{kind:<12} {crate.name}/{name}: {before}{said[:200]}", flush=True)


def try_new(rt, crate, bodies, results):
    """Tries wrong bodies of which nothing is known, and tells what comes of each and what they took. Gives what came,
    by name."""
    came, before, begun = {}, processor_time(), time.monotonic()
    trial = Trial(rt, crate)
    try:
        trial.prepare()
        proved = processor_time()
        for body, kind, said in trial.try_all(bodies):
            came[body.name] = kind
            results.keep(crate, body, kind, said)
            tell(crate, body.name, kind, said)
    finally:
        shutil.rmtree(trial.room, ignore_errors=True)
    took = f"{processor_time() - proved:.0f} seconds of processor time, "
    took += f"beside {proved - before:.0f} for the crate as it stands"
    print(
        f"{crate.name}: {len(bodies)} tried in {trial.checks} checks: {took}; "
        f"{time.monotonic() - begun:.0f} seconds in all",
        flush=True,
    )
    return came


def try_crate(rt, crate, results):
    """Tries the wrong bodies of a crate, as far as nothing is known of them, and gives what came of each, by name."""
    good, bad = bodies_of(rt, crate)
    came, new = {}, []
    for name, kind, why in bad:
        came[name] = kind
        tell(crate, name, kind, why)
    for body in good:
        known = results.known(crate, body)
        if known:
            came[body.name] = known[0]
            tell(crate, body.name, *known, "known: ")
        else:
            new.append(body)
    return {**came, **(try_new(rt, crate, new, results) if new else {})}


def main(words):
    rt = load_rt()
    rt.share_work(False)
    anew, names = "--anew" in words, [it for it in words if it != "--anew"]
    os.chdir(ROOT)
    crates = [it for it in rt.rtlib.crates_below(str(ROOT)) if os.path.isdir(os.path.join(it.folder, "wrong-bodies"))]
    for name in names:
        if name not in [it.name for it in crates]:
            raise Stop(f"{name} is no crate with wrong bodies: the words are --anew and names of crates")
    results, count = Results(rt, anew), {REFUSED: 0, PASSED: 0, BROKEN: 0, OPEN: 0}
    failed = []
    for crate in crates:
        if names and crate.name not in names:
            continue
        came = try_crate(rt, crate, results)
        for path in sorted(pathlib.Path(crate.folder, "wrong-bodies").iterdir()):
            kind = came.get(path.stem, OPEN)
            count[kind] += 1
            failed += [f"{crate.name}/{path.stem}"] * (kind != REFUSED)
    results.drop_old()
    told = ", ".join(f"{count[kind]} {kind.lower()}" for kind in count)
    print(f"wrong bodies: {told}{': ' + ' '.join(failed) if failed else ''}")
    return 1 if failed or not count[REFUSED] else 0


if __name__ == "__main__":
    # So that the copies go when a time limit ends it.
    signal.signal(signal.SIGTERM, lambda *_: sys.exit(128 + signal.SIGTERM))
    try:
        sys.exit(main(sys.argv[1:]))
    except Stop as why:
        sys.exit(f"wrong_bodies: {why}")
