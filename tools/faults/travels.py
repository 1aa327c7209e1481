#!/usr/bin/env python3
"""Lets offices work with `altcarry` over a bad link, which is cut, while both sides are killed, and looks in the end
whether all show the same `top`, and whether each acknowledged change is in it, or was changed or settled by name, and
none came back: `tools/faults/travels.py [ALTCTL] [ROUNDS] [SEED] [--worlds N]`. If not, the status is 1. It stands
beside the gate.

HEAD is a service, and each of two offices has a clone, in some rounds with a service of its own. In each round people
at HEAD and in the offices make designs, put, merge, settle and post, and the offices pull and push. The model knows
nothing of how `altcarry` works: each put has a value of its own, and supersedes the value that its planner saw; a
settlement supersedes the side that it gives up. In the end, of the values that a key ever had exactly the one that
nothing supersedes is in `top`. Several worlds run side by side, since most of their time they wait for the link."""
import argparse
import contextlib
import os
import random
import signal
import socket
import subprocess
import sys
import tempfile
import threading
import time
from collections import Counter
from pathlib import Path

sys.dont_write_bytecode = True
import bad_link
from people import KEYS, PATIENCE, TABLES, AtHead, Failure, Gone, History, InOffice, Lines

TOP = Path(__file__).resolve().parents[2]
ALTSERVE, ALTCARRY = (str(TOP / "desk" / it) for it in ("altserve", "altcarry"))
OFFICES = ("anna", "berta")
MOST_ROUNDS_IN_THE_END = 40


class World:
    """HEAD, two offices, their links, and what became of each change."""

    def __init__(self, altctl, folder, number, seed, rounds, count):
        self.altctl, self.folder, self.number, self.seed, self.rounds, self.count = (
            altctl,
            folder,
            number,
            seed,
            rounds,
            count,
        )
        self.chance, self.history, self.is_over = random.Random(f"{seed} world"), History(), False
        self.services, self.starts, self.failure = {}, threading.Lock(), None
        os.mkdir(folder)
        self.head = f"{folder}/head.alt"
        self.files = {it: f"{folder}/{it}.alt" for it in OFFICES}
        self.served = set()
        subprocess.run([altctl, "create", self.head, "16384"], check=True, stdout=subprocess.DEVNULL)
        self.serve(self.head)
        self.links = {it: self.link(2 * number + at, it) for at, it in enumerate(OFFICES)}
        self.at_head = AtHead(self, "h", lambda: f"{self.head}.sock", ["top", "d1", "d2", "d1"])
        self.people = {
            "anna": InOffice(self, "anna", lambda: self.place("anna"), ["d1", "d2"]),
            "berta": InOffice(self, "berta", lambda: self.place("berta"), ["d1", "top"]),
        }
        self.carries = {it: random.Random(f"{seed} carry {it}") for it in OFFICES}

    def link(self, number, office):
        seed, service = f"{self.seed} {office}", f"{self.head}.sock"
        if not bad_link.missing():
            return bad_link.BadLink(number, service, seed=seed)
        near = f"{self.folder}/{office}.link"  # Each office's proxy has a socket of its own.
        os.symlink(service, near)
        return bad_link.PoorProxy(number, near, seed=seed)

    # --- services ---------------------------------------------------------------------------------

    def serve(self, file):
        words = [sys.executable, ALTSERVE, "--program", self.altctl, file]
        with open(f"{file}.said", "ab") as said:
            self.services[file] = subprocess.Popen(words, stderr=said)
        late = time.monotonic() + PATIENCE
        while time.monotonic() < late:
            with contextlib.suppress(OSError), socket.socket(socket.AF_UNIX) as probe:
                probe.connect(f"{file}.sock")
                return
            time.sleep(0.01)
        raise Failure(f"no service of {file}: " + Path(f"{file}.said").read_text()[-500:])

    def serve_again(self):
        """Starts services that were killed."""
        with self.starts:
            for file, it in list(self.services.items()):
                if it.poll() is not None:
                    self.serve(file)

    def kill_service(self, file):
        service = self.services[file]
        if self.chance.random() < 0.5:
            with contextlib.suppress(OSError, ValueError):
                for it in Path(f"/proc/{service.pid}/task/{service.pid}/children").read_text().split():
                    os.kill(int(it), signal.SIGKILL)
        else:
            service.kill()
            service.wait()
        self.count["kills of a service or its program"] += 1

    def place(self, office):
        file = self.files[office]
        return f"{file}.sock" if file in self.services else file

    def change_place(self, office):
        """Some offices have a service at times, and at others not."""
        file = self.files[office]
        if file in self.services:
            service = self.services.pop(file)
            service.terminate()
            service.wait()
        elif self.chance.random() < 0.5:
            self.serve(file)

    # --- altcarry ---------------------------------------------------------------------------------

    def carry(self, office, *words, kills=False):
        """Runs altcarry. Returns its status and what it said; None if it was killed."""
        environment = {**os.environ, "ALTCTL": self.altctl, "ALTCARRY_SSH": self.links[office].words}
        how = {
            "stdout": subprocess.PIPE,
            "stderr": subprocess.STDOUT,
            "text": True,
            "env": environment,
            "start_new_session": True,
        }
        ran = subprocess.Popen([sys.executable, ALTCARRY, *words], **how)
        try:
            said, _ = ran.communicate(timeout=self.chance.expovariate(1 / 3) if kills else PATIENCE)
        except subprocess.TimeoutExpired:
            os.killpg(ran.pid, signal.SIGKILL)
            ran.communicate()
            if not kills:
                raise Failure(f"altcarry {words} hangs") from None
            self.count["kills of altcarry"] += 1
            return None, ""
        if "Traceback" in said or ran.returncode not in (0, 1, 3):
            raise Failure(f"altcarry {words}: {said}")
        self.count[f"altcarry ended with {ran.returncode}"] += 1
        if ran.returncode == 1:
            self.expect(words, said)
        return ran.returncode, said

    def expect(self, words, said):
        """Refusals that may come: those that tell the person to pull or to merge first, and races."""
        fine = (
            "pull, ",
            "merge it here",
            "try again",
            "is not at HEAD any more",
            "HEAD has no design",
            "push top first",
            "HEAD doesn't have",
        )
        if not any(it in said for it in fine):
            raise Failure(f"altcarry {words}: {said}")
        self.count["told to pull or merge first"] += 1

    def travel(self, office):
        chance, file = self.carries[office], self.files[office]
        with contextlib.suppress(Gone):
            for _ in range(chance.randrange(1, 3)):
                kills = chance.random() < 0.3 and not self.is_over
                if chance.random() < 0.5:
                    self.carry(office, "pull", file, kills=kills)
                else:
                    with Lines(self, self.place(office)) as lines:
                        designs = [it for it in lines.parents() if not it.startswith("w")]
                    self.carry(office, "push", file, chance.choice(designs), kills=kills)

    # --- rounds -----------------------------------------------------------------------------------

    def run(self):
        try:
            self.begin()
            for _ in range(self.rounds):
                self.round()
                self.count["rounds"] += 1
            self.end()
        except Failure as failure:
            self.failure = f"world {self.number} of seed {self.seed}: {failure}"
        finally:
            for it in self.services.values():
                it.kill()
                it.wait()
            for it in self.links.values():
                it.close()

    def begin(self):
        with Lines(self, f"{self.head}.sock") as lines:
            for table in TABLES:
                for number in range(KEYS):
                    value = self.history.new_value("first")
                    lines.batch(f"put top {table} {number} {value}")
                    self.history.put((table, number), None, value)
            lines.batch("new d1 top", "new d2 top")
        for office, designs in (("anna", ["d1", "d2"]), ("berta", ["d1"])):
            for _ in range(20):
                status, said = self.carry(office, "clone", "ssh:head:map.sock", self.files[office], "--office", office)
                if status == 0:
                    break
            while self.carry(office, "pull", self.files[office], *designs)[0] != 0:
                pass

    def round(self):
        """Work on all sides at once, while something may be cut or killed."""
        work = [threading.Thread(target=self.safely, args=(self.head_works,))]
        for it in OFFICES:
            if self.chance.random() < 0.1:
                self.change_place(it)
            work.append(threading.Thread(target=self.safely, args=(self.office_works, it)))
        for it in work:
            it.start()
        while any(it.is_alive() for it in work):
            time.sleep(self.chance.uniform(0.1, 2))
            what = self.chance.random()
            if what < 0.08:
                link = self.links[self.chance.choice(OFFICES)]
                link.is_cut = True
                time.sleep(self.chance.uniform(0.5, 14))
                link.is_cut = False
                self.count["cuts of a link"] += 1
            elif what < 0.2:
                self.kill_service(self.chance.choice(list(self.services)))
            self.serve_again()
        for it in work:
            it.join(PATIENCE)
        if self.failure:
            raise Failure(self.failure)

    def safely(self, do, *words):
        try:
            do(*words)
        except Failure as failure:
            self.failure = str(failure)
        except Exception as fault:
            self.failure = f"{do.__name__}: {fault!r}"
            raise

    def head_works(self):
        for _ in range(self.chance.randrange(1, 4)):
            with contextlib.suppress(Gone):
                self.at_head.work()

    def office_works(self, office):
        for _ in range(self.chance.randrange(1, 3)):
            with contextlib.suppress(Gone):
                self.people[office].work()
        self.travel(office)

    # --- the end ----------------------------------------------------------------------------------

    def end(self):
        """Pushes, pulls and posts until nothing is left, and compares."""
        self.is_over = True
        for it in self.links.values():
            it.loss, it.delay = 0.0, 0.002
        for _ in range(MOST_ROUNDS_IN_THE_END):
            if self.quiet():
                break
        else:
            raise Failure(f"it does not come to an end: {self.left()}")
        tops = [self.top_of(f"{self.head}.sock"), *(self.top_of(self.place(it)) for it in OFFICES)]
        if tops[1:] != tops[:1] * len(OFFICES):
            raise Failure(f"not the same top: {tops}")
        fault = self.history.fault(tops[0])
        if fault:
            raise Failure(fault)
        known = [it for changes in self.history.changes.values() for it in changes]
        self.count["values put"] += sum(not it.startswith("~") for it in known)
        self.count["values removed"] += sum(it.startswith("~") for it in known)

    def top_of(self, place):
        with Lines(self, place) as lines:
            return {(int(it[0]), int(it[1])): it[2] for it in lines.rows("list top")}

    def left(self):
        found = {}
        for it in (f"{self.head}.sock", *(self.place(it) for it in OFFICES)):
            with Lines(self, it) as lines:
                found[Path(it).name] = lines.parents()
        return found

    def quiet(self):
        """One round of the end. Returns whether HEAD and both clones have nothing but `top`."""
        for it in OFFICES:
            self.settle_office(it)
        with Lines(self, f"{self.head}.sock") as lines:
            self.at_head.look_after(lines)
            parents = lines.parents()
            for design in reversed(list(parents)):
                if design != "top" and design not in lines.parents().values():
                    self.at_head.bring_in(lines, design, parents[design])
        for it in OFFICES:
            self.carry(it, "pull", self.files[it])
        return all(list(it) == ["top"] for it in self.left().values())

    def settle_office(self, office):
        person, file = self.people[office], self.files[office]
        self.carry(office, "pull", file)
        with Lines(self, self.place(office)) as lines:
            person.look_after(lines)
            for design, parent in reversed(list(lines.parents().items())):
                if design.startswith("w") or (
                    f".{office}" in design and parent != "top" and person.is_local(lines, design)
                ):
                    person.bring_in(lines, design, parent)
            for design in lines.parents():
                if design != "top":
                    person.merge(lines, design)
        with Lines(self, self.place(office)) as lines:
            parents = lines.parents()
        for design in parents:
            self.carry(office, "push", file, design)
        with Lines(self, self.place(office)) as lines:
            for design in reversed(list(parents)):
                tally = lines.answers([f"tally {design}"])[0] if design != "top" else None
                if tally and tally[0] == "tally" and tally[1] == "0" and person.is_local(lines, design):
                    lines.batch(f"drop {design}")


def main():
    parser = argparse.ArgumentParser(description=__doc__.split(":")[0])
    parser.add_argument("altctl", nargs="?", default=str(TOP / "altctl"))
    parser.add_argument("rounds", nargs="?", type=int, default=500)
    parser.add_argument("seed", nargs="?", type=int, default=1)
    parser.add_argument("--worlds", type=int, default=10, help="how many run side by side")
    words = parser.parse_args()
    altctl, count, begun = os.path.abspath(words.altctl), Counter(), time.monotonic()
    missing = bad_link.missing()
    if missing:
        print(f"travels: {missing} is not there, so a proxy stands in for the link")
    with tempfile.TemporaryDirectory() as folder:
        share = -(-words.rounds // words.worlds)
        worlds = [World(altctl, f"{folder}/{it}", it, words.seed + it, share, count) for it in range(words.worlds)]
        threads = [threading.Thread(target=it.run) for it in worlds]
        for it in threads:
            it.start()
        for it in threads:
            it.join()
        failures = [it.failure for it in worlds if it.failure]
    for it in failures:
        print(f"travels: {it}")
    if not failures:
        print(
            "travels: all show the same top, and each change is in it once or was superseded by name, "
            f"seed {words.seed}"
        )
    for what, number in sorted(count.items()):
        print(f"    {number} {what}")
    print(f"    {time.monotonic() - begun:.0f} s")
    return 1 if failures else 0


if __name__ == "__main__":
    sys.exit(main())
