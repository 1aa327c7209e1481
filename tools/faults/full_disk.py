#!/usr/bin/env python3
"""Fills the disk of a service and empties it again and again while planners write: `tools/faults/full_disk.py [ALTCTL]
[COUNT] [SEED]`. The service has to go on all the time without a new start: queries are answered on a full disk, changes
are refused there with a reason, and carried out again once there is room. In the end the store has to have each record
whose put was acknowledged, and no other. If not, the status is 1. It stands beside the gate.

The disks are small file systems, in memory and (ext4) in a file, mounted in a namespace of their own. What cannot be
mounted here is left out, and a line says so. Now and then the program is killed on the full disk, where the service has
to start it again."""
import argparse
import contextlib
import os
import random
import shutil
import signal
import subprocess
import sys
import tempfile
import threading
import time
from collections import Counter
from pathlib import Path

sys.dont_write_bytecode = True
from kill import Failure
from kill_service import ALTSERVE, TOP, Connection

MEBIBYTES, PLANNERS, BLOCKS = 64, 4, 2048
# Refusals that a change may get.
DUE = {"error 97 NotJournaled ENOSPC", "error 105 NoRoom ENOSPC", "error 15 Device"}
# How long a change may be refused once there is room again, and how long a query may take, in seconds.
LATE = 20
KINDS = ("tmpfs", "ext4")


class Writer:
    """Puts records that nobody puts again, in batches of one, few or many."""

    def __init__(self, number, chance):
        self.table, self.chance, self.count = number + 1, chance, 0
        self.made, self.refused, self.fault = {}, Counter(), None

    def batch(self):
        lines = self.chance.choice((1, 1, 1, 5, 100))
        for _ in range(lines):
            self.count += 1
            yield self.count, f"{self.count:0{self.chance.choice((10, 100, 1000))}}"

    def work(self, path, is_over):
        try:
            connection = Connection(path)
            while not is_over.is_set():
                records = list(self.batch())
                lines = [f"put top {self.table} {number} {value}" for number, value in records]
                answers = connection.ask(lines if len(lines) == 1 else ["begin", *lines, "commit"])
                if answers is None:
                    raise Failure("the service has closed a connection")
                refused = {it for it in answers if it.startswith("error ") and not it.startswith("error 91 ")}
                if not refused:
                    self.made.update(records)
                    time.sleep(0.01)
                elif refused <= DUE:
                    self.refused.update(refused)
                    time.sleep(0.02)
                else:
                    raise Failure(f"a batch was answered {refused}")
        except Failure as failure:
            self.fault = failure


class Trial:
    def __init__(self, altctl, folder, seed):
        self.altctl, self.file, self.chance = altctl, f"{folder}/map.alt", random.Random(seed)
        self.filler, self.said = Path(folder, "filler"), Path(folder).with_name("said")
        self.writers = [Writer(number, random.Random(f"{seed} {number}")) for number in range(PLANNERS)]
        self.kills = self.waits = 0
        subprocess.run([altctl, "create", self.file, str(BLOCKS)], check=True, stdout=subprocess.DEVNULL)
        # Old entries of the journal go to another disk.
        archives = Path(folder).with_name("archives")
        archives.mkdir()
        os.symlink(archives, f"{self.file}.archives")

    def run(self, count):
        with open(self.said, "wb") as said:
            words = [sys.executable, ALTSERVE, "--program", self.altctl, "--grow", self.file]
            service = subprocess.Popen(words, stderr=said)
        is_over = threading.Event()
        try:
            while not os.path.exists(f"{self.file}.sock"):
                time.sleep(0.01)
            work = [threading.Thread(target=it.work, args=(f"{self.file}.sock", is_over)) for it in self.writers]
            for it in work:
                it.start()
            connection = Connection(f"{self.file}.sock")
            for number in range(count):
                self.round(service, connection, number)
            is_over.set()
            for it in work:
                it.join()
            self.compare(connection)
        finally:
            is_over.set()
            service.terminate()
            status = service.wait()
        if status:
            raise Failure(f"the service ended with status {status}: {self.said.read_text()[-1000:]}")

    def round(self, service, connection, number):
        time.sleep(self.chance.uniform(0, 0.3))
        self.fill()
        try:
            if self.chance.random() < 0.2:
                children = Path(f"/proc/{service.pid}/task/{service.pid}/children").read_text().split()
                os.kill(int(children[0]), signal.SIGKILL)
                self.kills += 1
            for _ in range(5):
                time.sleep(self.chance.uniform(0, 0.1))
                self.asked(service, connection, "get top 1 1", ("value ", "none"))
        finally:
            self.filler.unlink()
        late = time.monotonic() + LATE
        # The journal would take all that is free in the end.
        last = self.asked(service, connection, "batches", ("batches ",)).split()[1]
        self.asked(service, connection, f"archive a{number} {last}", ("ok ", "error 104 NoArchive "))
        while self.asked(service, connection, f"put top 99 {number} a", ("ok", *DUE)) != "ok":
            self.waits += 1
            if time.monotonic() > late:
                raise Failure(f"no change is carried out {LATE} s after there was room")
            time.sleep(0.02)

    def fill(self):
        """Fills the disk, at once or bit by bit."""
        step = self.chance.choice((1 << 20, 64 << 10, 4096))
        with open(self.filler, "wb", buffering=0) as file, contextlib.suppress(OSError):
            while file.write(bytes(step)):
                pass

    def asked(self, service, connection, line, due):
        begun, answers = time.monotonic(), connection.ask([line])
        if answers is None or not answers[0].startswith(due):
            raise Failure(f"{line} was answered {answers}; {self.said.read_text()[-1000:]}; {service.poll()}")
        if time.monotonic() - begun > LATE:
            raise Failure(f"{line} took {time.monotonic() - begun:.1f} s")
        return answers[0]

    def compare(self, connection):
        """Compares what is there with what was acknowledged."""
        for it in self.writers:
            if it.fault:
                raise it.fault
            rows = (row.split() for row in connection.rows(f"list top {it.table}")[:-1])
            shown = {int(words[2]): words[3] for words in rows}
            if shown != it.made:
                raise Failure(f"table {it.table}: lost {it.made.keys() - shown}, too many {shown.keys() - it.made}")


def mounted(kind, folder, disk):
    """Mounts a small file system. Returns whether that is possible."""
    if kind == "tmpfs":
        words = ["mount", "-t", "tmpfs", "-o", f"size={MEBIBYTES}m", "none", disk]
    elif shutil.which("mkfs.ext4"):
        image = f"{folder}/image"
        with open(image, "wb") as file:
            file.truncate(MEBIBYTES << 20)
        subprocess.run(["mkfs.ext4", "-q", "-m", "0", image], check=True)
        words = ["mount", "-o", "loop", image, disk]
    else:
        return False
    return subprocess.run(words, stderr=subprocess.DEVNULL).returncode == 0


def inside(kind, altctl, count, seed):
    with tempfile.TemporaryDirectory() as folder:
        disk = f"{folder}/disk"
        os.mkdir(disk)
        if not mounted(kind, folder, disk):
            print(f"{kind} cannot be mounted here")
            return
        try:
            trial = Trial(altctl, disk, seed)
            trial.run(count)
        finally:
            subprocess.run(["umount", "--lazy", disk], check=True)
    refused = sum((it.refused for it in trial.writers), Counter())
    told = ", ".join(f"{number} {answer[6:]}" for answer, number in sorted(refused.items()))
    made = sum(len(it.made) for it in trial.writers)
    print(f"{kind}: {count} times full, {trial.kills} kills there, {made} records, none lost; refused: {told}")


def main():
    parser = argparse.ArgumentParser(description=__doc__.split(":")[0])
    parser.add_argument("altctl", nargs="?", default=str(TOP / "altctl"))
    parser.add_argument("count", nargs="?", type=int, default=30)
    parser.add_argument("seed", nargs="?", type=int, default=1)
    parser.add_argument("--inside", choices=KINDS, help=argparse.SUPPRESS)
    said = parser.parse_args()
    if said.inside:
        try:
            inside(said.inside, os.path.abspath(said.altctl), said.count, said.seed)
        except Failure as failure:
            print(f"full_disk: {said.inside}: {failure}", file=sys.stderr)
            return 1
        return 0
    own = ["--mount"] if os.geteuid() == 0 else ["--map-root-user", "--mount"]
    words = [said.altctl, str(said.count), str(said.seed)]
    status = 0
    for kind in KINDS:
        ran = subprocess.run(["unshare", *own, sys.executable, __file__, "--inside", kind, *words])
        status = status or ran.returncode
    return status


if __name__ == "__main__":
    sys.exit(main())
