#!/usr/bin/env python3
"""Measures how long planners wait for an answer while the service makes a backup, beside the same without one:

    tools/measure/measure_backup.py [--mebibytes N] [--planners N] [--backups N] [--folder FOLDER] [--times FILE]
        [ALTCTL]

The store is made here, in FOLDER, with values of a block each, and a tenth of it spare. Each planner changes one
record, waits for the answer, and changes the next. The first backup makes a file, and each other one replaces it.
`--times` writes when each line was sent, and how long it took. Times are looked at, never tested."""
import argparse
import os
import random
import socket
import subprocess
import sys
import tempfile
import threading
import time
from pathlib import Path
from typing import Iterator, List, Tuple

from measure_service import ALTSERVE, TOP, in_processes, until_served

# Bytes of a value: its leaf has no place for another one.
VALUE = 4000
BLOCKS_OF_MEBIBYTE = 256
# How long is measured without a backup, and after each one.
SECONDS, PAUSE = 10, 3
# A wait is long from so many milliseconds on.
LONG = 50


def make_store(altctl: str, file: str, mebibytes: int) -> int:
    """Makes a store of about that size, with a tenth of it spare. Returns how many records it has."""
    blocks = mebibytes * BLOCKS_OF_MEBIBYTE
    records = blocks * 9 // 10
    subprocess.run([altctl, "create", file, str(blocks)], check=True, stdout=subprocess.DEVNULL)
    words = [altctl, "run", "--buffer", "65536", "--", file]
    with subprocess.Popen(words, stdin=subprocess.PIPE, stdout=subprocess.DEVNULL, text=True) as program:
        for number in range(records):
            program.stdin.write(f"put top 7 {number} {number:0{VALUE}}\n")
            if number % 50_000 == 0:
                program.stdin.write("commit\n")
        program.stdin.write("commit\n")
    if program.returncode:
        raise RuntimeError(f"altctl ended with status {program.returncode}")
    return records


def planner(path: str, records: int, is_over: threading.Event) -> Iterator[Tuple[float, float]]:
    """Changes one record after another. Gives when each line was sent, and how long its answer took."""
    with socket.socket(socket.AF_UNIX) as service:
        service.connect(path)
        while not is_over.is_set():
            sent = time.monotonic()
            service.sendall(b"put top 7 %d value\n" % random.randrange(records))
            answer = service.recv(100)
            if answer != b"ok\n":
                raise RuntimeError(f"not the answer: {answer!r}")
            yield sent, time.monotonic() - sent


def plan(path: str, records: int, count: int, is_over: threading.Event) -> List[Tuple[float, float]]:
    """So many planners at once, each in a thread."""
    found: List[Tuple[float, float]] = []
    threads = [threading.Thread(target=lambda: found.extend(planner(path, records, is_over))) for _ in range(count)]
    for it in threads:
        it.start()
    for it in threads:
        it.join()
    return found


def watched(path: str, records: int, said) -> Tuple[List[Tuple[float, float]], List[Tuple[float, float, str]]]:
    """The waits of all planners, and when each backup began and ended, with its answer."""
    end = Path(f"{path}.end")

    def act(number):
        if number:
            is_over = threading.Event()
            threading.Thread(target=lambda: (wait_for(end), is_over.set()), daemon=True).start()
            return plan(path, records, said.planners // 2 or 1, is_over)
        spans = []
        try:
            time.sleep(SECONDS)
            for _ in range(said.backups):
                begun = time.monotonic()
                answer = asked(path, "backup a")
                spans.append((begun, time.monotonic(), answer))
                time.sleep(PAUSE)
        finally:
            end.touch()
        return spans

    spans, *waits = in_processes(2 if said.planners == 1 else 3, act)
    return sorted(tuple(it) for part in waits for it in part), spans


def wait_for(file: Path) -> None:
    while not file.exists():
        time.sleep(0.05)


def asked(path: str, line: str) -> str:
    with socket.socket(socket.AF_UNIX) as service:
        service.connect(path)
        service.sendall(f"{line}\n".encode())
        return service.recv(1000).decode().strip()


def row(what: str, waits: List[float]) -> str:
    """How many waits there were, how long half, 99 and all took no longer than, and how many were long."""
    waits = sorted(1000 * it for it in waits) or [0.0]
    parts = [waits[len(waits) // 2], waits[len(waits) * 99 // 100], waits[-1]]
    return f"| {what} | {len(waits):,} | {' | '.join(f'{it:.1f}' for it in parts)} | {sum(it > LONG for it in waits)} |"


def told(waits: List[Tuple[float, float]], spans: List[Tuple[float, float, str]]) -> Iterator[str]:
    yield f"| | commits | half, ms | 99 %, ms | all, ms | above {LONG} ms |\n|---|---|---|---|---|---|"
    yield row("without a backup", [it for sent, it in waits if sent + it < spans[0][0]])
    for number, (begun, end, answer) in enumerate(spans, 1):
        during = [it for sent, it in waits if begun - it < sent < end]
        yield row(f"backup {number}: {answer}", during)
        yield row("in the second after it", [it for sent, it in waits if end < sent < end + 1])


def main() -> None:
    parser = argparse.ArgumentParser(description=__doc__.split(":")[0])
    parser.add_argument("--mebibytes", type=int, default=914, help="the size of the store")
    parser.add_argument("--planners", type=int, default=8, help="how many there are")
    parser.add_argument("--backups", type=int, default=3, help="how many are made")
    parser.add_argument("--folder", default=None, help="where the store is made")
    parser.add_argument("--times", default=None, help="a file for when each line was sent, and how long it took")
    parser.add_argument("altctl", nargs="?", default=str(TOP / "altctl"))
    said = parser.parse_args()
    with tempfile.TemporaryDirectory(dir=said.folder) as folder:
        file = f"{folder}/map.alt"
        records = make_store(said.altctl, file, said.mebibytes)
        os.sync()
        with open(f"{folder}/said", "wb") as said_file:
            service = subprocess.Popen([sys.executable, ALTSERVE, "--program", said.altctl, file], stderr=said_file)
        try:
            until_served(service, f"{folder}/said")
            waits, spans = watched(f"{file}.sock", records, said)
        finally:
            service.terminate()
            service.wait()
    print(f"{said.mebibytes} MiB, {said.planners} planners; load {os.getloadavg()[0]:.0f}")
    print(*told(waits, spans), sep="\n")
    if said.times:
        zero = spans[0][0]
        rows = [f"{sent - zero:.4f} {it:.4f}" for sent, it in waits]
        rows += [f"{begun - zero:.4f} {end - begun:.4f} backup" for begun, end, _ in spans]
        Path(said.times).write_text("\n".join(rows) + "\n")


if __name__ == "__main__":
    main()
