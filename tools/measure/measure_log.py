#!/usr/bin/env python3
"""Measures `log` over a long journal: how long the first line of an answer and all of it take, and how much memory,
by `altserve log` and by a service:

    tools/measure/measure_log.py [--size MB] [ALTCTL]

The journal is made here, without a store: of 12 planners and 40 designs, with batches of one line and of many. One line
in it names a planner, an alternative and a record that no other line names. Times are looked at, never tested."""
import argparse
import os
import random
import socket
import subprocess
import sys
import tempfile
import time
from pathlib import Path

TOP = Path(__file__).resolve().parents[2]
sys.path.insert(0, str(TOP / "desk"))
from service.journal_log import Log

ALTSERVE = str(TOP / "desk" / "altserve")
PLANNERS = [f"planner-{number}" for number in range(12)]
DESIGNS = [f"design-{number}" for number in range(40)]
RECORDS = 200_000
# Lines of the batches, and how many of a hundred batches have that many.
SIZES = [1] * 70 + [5] * 20 + [60] * 9 + [2000]
# An answer is read for so long.
MOST_SECONDS = 5
# How many batches share a commit.
GROUP = 8
FILTERS = (
    "",
    "planner=planner-3",
    "alternative=design-7",
    "record=7:4711",
    "planner=planner-3 alternative=design-7 record=7:4711",
    "planner=rare",
    "alternative=rare",
    "record=9:9",
    "planner=nobody",
    "alternative=nothing",
    "record=8:8",
    "after={middle}",
    "after={middle} record=9:9",
    "last=10",
    "last=10 record=7:4711",
    "last=10 record=8:8",
    "last=10 planner=rare",
)


def batch(number, who, name, lines):
    head = f'{{"batch":{number},"time":"2026-11-29T12:00:00.000Z","uid":1000,"who":"{who}"'
    return f'{head},"alternatives":["{name}"],"records":{len(lines)},"lines":[{",".join(lines)}]}}\n'


def make_journal(path, size):
    """A journal of that many bytes. Returns the number of its last batch."""
    chance = random.Random(1)
    number, written, is_rare = 0, 0, False
    with open(path, "w", encoding="ascii") as file:
        file.write('{"opened":"2026-11-29T12:00:00.000Z","last":0,"next":1}\n')
        while written < size:
            texts = []
            for _ in range(GROUP):
                number += 1
                name, count = chance.choice(DESIGNS), chance.choice(SIZES)
                numbers = chance.choices(range(RECORDS), k=count)
                lines = [f'"put {name} 7 {it} value-{it * 7919 % 1000003:032}"' for it in numbers]
                texts.append(batch(number, chance.choice(PLANNERS), name, lines))
            if not is_rare and written > size * 0.7:
                is_rare, number = True, number + 1
                texts.append(batch(number, "rare", "rare", ['"put rare 9 9 a"']))
            texts.append(f'{{"done":{number}}}\n')
            text = "".join(texts)
            file.write(text)
            written += len(text)
    return number


def make_index(path):
    log = Log(path, writes=True)
    while log.has_more():
        log.add()
    log.close()


def by_command(file, words):
    """When the first line and the last one came, and the memory of the process in MiB."""
    options = [f"--{it}" for it in words.split()]
    begun = time.monotonic()
    how = {"stdout": subprocess.PIPE, "stderr": subprocess.DEVNULL, "bufsize": 0}
    process = subprocess.Popen([sys.executable, ALTSERVE, "log", *options, file], **how)
    found = read(lambda: process.stdout.read(1 << 16), begun)
    process.stdout.close()
    _, status, used = os.wait4(process.pid, 0)
    process.returncode = status
    return *found, used.ru_maxrss / 1024


def by_service(path, words):
    """When the first line and the last one came."""
    with socket.socket(socket.AF_UNIX) as planner:
        planner.connect(path)
        planner.sendall(b"whoami\n")
        planner.recv(1 << 16)
        begun = time.monotonic()
        planner.sendall(f"log {words}\n".encode())
        planner.shutdown(socket.SHUT_WR)
        return read(lambda: planner.recv(1 << 16), begun)


def read(take, begun):
    """When the first and the last part came, in milliseconds. What takes too long is not read to its end."""
    came, first = take(), time.monotonic() - begun
    while came and time.monotonic() - begun < MOST_SECONDS:
        came = take()
    return 1000 * first, 1000 * (time.monotonic() - begun)


def service_over(altctl, file, last):
    """A service over a store that holds the batches of the journal."""
    subprocess.run([altctl, "create", file, "256"], check=True, stdout=subprocess.DEVNULL)
    lines = ["new .service top", f"checkpoint .service {last}", "commit"]
    subprocess.run([altctl, "do", file, *lines], check=True, stdout=subprocess.DEVNULL)
    process = subprocess.Popen([sys.executable, ALTSERVE, "--program", altctl, file], stderr=subprocess.PIPE)
    process.stderr.readline()
    return process


def memory(process):
    """The most memory that a process took, in MiB."""
    text = Path(f"/proc/{process.pid}/status").read_text()
    return int(text.split("VmHWM:")[1].split()[0]) / 1024


def main():
    parser = argparse.ArgumentParser(description=__doc__.split(":")[0])
    parser.add_argument("--size", type=int, default=1000, help="of the journal, in MB")
    parser.add_argument("altctl", nargs="?", default=str(TOP / "altctl"))
    said = parser.parse_args()
    with tempfile.TemporaryDirectory() as folder:
        file = f"{folder}/map.alt"
        begun = time.monotonic()
        last = make_journal(f"{file}.journal", said.size * 1_000_000)
        made = time.monotonic()
        make_index(f"{file}.journal")
        indexed = time.monotonic()
        bytes_of = [os.path.getsize(f"{file}.journal{it}") for it in ("", ".index")]
        print(f"{last:,} batches, {bytes_of[0]:,} bytes, made in {made - begun:.0f} s")
        print(f"its index has {bytes_of[1]:,} bytes, made in {indexed - made:.0f} s")
        service = service_over(said.altctl, file, last)
        print(f"load {os.getloadavg()[0]:.0f}")
        print(f"An answer that takes more than {MOST_SECONDS} s is not read to its end.")
        columns = "Command: first line, ms", "all, ms", "MiB", "Service: first line, ms", "all, ms", "MiB so far"
        print(f"| Filter | {' | '.join(columns)} |\n" + "|---" * 7 + "|")
        try:
            for it in FILTERS:
                words = it.format(middle=last // 2)
                first, whole, used = by_command(file, words)
                found = by_service(f"{file}.sock", words)
                columns = [f"{it:.0f}" for it in (first, whole, used, *found, memory(service))]
                print(f"| {words or 'none'} | {' | '.join(columns)} |", flush=True)
        finally:
            service.terminate()
            service.wait()
            service.stderr.close()


if __name__ == "__main__":
    main()
