#!/usr/bin/env python3
"""Measures how many commits and gets a second the service answers to planners who each wait for an answer, and how long
they wait, beside PostgreSQL and SQLite with as many writers:

    tools/measure/measure_service.py [--seconds N] [--rounds N] [--planners N ..] [--processors N]
        [--slow MICROSECONDS] [--flood N] [ALTCTL]

It writes three tables, the last one of the processor time that the service itself takes, which tells more than rates
on a busy machine. With `--flood` it writes another one instead: how long a line takes beside that many of the
planners, who flood the service. With `--slow` each sync of all three takes that much longer, as on a slower disk; with
`--processors` all of them, and what asks them, share the first N. Times are looked at, never tested.

Each commit changes one record of 10,000, or two or ten in a batch, and is durable before it is answered: in PostgreSQL
by an UPDATE of one row, or ten in a transaction that is sent at once, with fsync on, in SQLite by one in WAL mode with
synchronous=FULL. What is not installed is skipped, and so is SQLite for more than 64 planners, with a line that says
so."""
import argparse
import contextlib
import json
import os
import random
import re
import selectors
import shutil
import socket
import sqlite3
import subprocess
import sys
import tempfile
import time
import traceback
from pathlib import Path
from statistics import median
from typing import List, NamedTuple

TOP = Path(__file__).resolve().parents[2]
sys.path.insert(0, str(TOP / "tools/faults"))
from preloaded import compiled, preloaded
ALTSERVE = str(TOP / "desk" / "altserve")
PLANNERS = [1, 8, 64]
RECORDS = 10_000
POSTGRES = sorted(Path("/usr/lib/postgresql").glob("*/bin"))[-1:]
# How many processes act as planners.
LOADERS = 2
# The connections that PostgreSQL takes, and so many processes at most write to SQLite.
MOST, MOST_OF_SQLITE = 500, 64
# What planners flood the service with.
FLOODS = {
    "single lines": b"put top 8 1 a\n" * 500,
    "batches of two lines": b"begin\nput top 8 1 a\nput top 8 2 a\ncommit\n" * 200,
    "batches of 64 lines": (b"begin\n" + b"put top 8 1 a\n" * 64 + b"commit\n") * 10,
    "batches that are refused": b"begin\nput top 8 1 a\nput nowhere 8 1 a\ncommit\n" * 200,
    "gets": b"get top 7 1\n" * 500,
    "lists of 1,000 records": b"list top 7 1 1000\n" * 100,
}
# Of how many in a thousand commits the time is told.
SHARES = (500, 990, 999)


class Found(NamedTuple):
    """How many answers came a second, and if that is known, how long they took, in milliseconds, and how many seconds
    of a processor the service took for one."""

    rate: float
    times: List[float] = []
    processor: float = 0.0


def in_processes(count, work):
    """Runs `work` in `count` processes, each with its number, and returns the results, which are JSON."""
    with tempfile.TemporaryDirectory() as folder:
        children = []
        for number in range(count):
            child = os.fork()
            if not child:
                status = 1
                try:
                    Path(folder, str(number)).write_text(json.dumps(work(number)))
                    status = 0
                except Exception:
                    traceback.print_exc()
                finally:
                    os._exit(status)
            children.append(child)
        if any([os.waitpid(it, 0)[1] for it in children]):
            raise RuntimeError("a process of the load failed")
        return [json.loads(Path(folder, str(number)).read_text()) for number in range(count)]


def load(path, count, seconds, text, due):
    """Has `count` planners each write a text, wait for its `due` lines of answer, and write the next. Returns how long
    each took, in milliseconds. Those who are connected last wait for all others first, so the first answers do not
    count."""
    selector = selectors.DefaultSelector()
    planners = []
    for _ in range(count):
        planner = socket.socket(socket.AF_UNIX)
        planner.connect(path)
        planners.append([planner, due, 0.0])
    for it in planners:
        selector.register(it[0], selectors.EVENT_READ, it)
        it[0].sendall(text())
    times, until = [], time.monotonic() + seconds
    while time.monotonic() < until:
        for key, _ in selector.select(1):
            it, answer = key.data, key.fileobj.recv(8192)
            if not answer or b"error" in answer:
                raise RuntimeError(f"not the answer: {answer}")
            it[1] -= answer.count(b"\n")
            if not it[1]:
                now = time.monotonic()
                if it[2]:
                    times.append(1000 * (now - it[2]))
                it[1], it[2] = due, now
                key.fileobj.sendall(text())
    return times


def flood(path, count, seconds, text):
    """Has `count` planners write a text again and again, and read the answers. Returns how many lines of answer each
    has read."""
    selector = selectors.DefaultSelector()
    for _ in range(count):
        planner = socket.socket(socket.AF_UNIX)
        planner.connect(path)
        planner.setblocking(False)
        # What was written of the text, and how many lines were read.
        selector.register(planner, selectors.EVENT_READ | selectors.EVENT_WRITE, [0, 0])
    until = time.monotonic() + seconds
    while time.monotonic() < until:
        for key, events in selector.select(1):
            if events & selectors.EVENT_WRITE:
                with contextlib.suppress(BlockingIOError):
                    key.data[0] = (key.data[0] + key.fileobj.send(text[key.data[0] :])) % len(text)
            if events & selectors.EVENT_READ:
                key.data[1] += key.fileobj.recv(1 << 16).count(b"\n")
        time.sleep(0.001)
    return [it.data[1] for it in selector.get_map().values()]


def put():
    return b"put top 7 %d value-%d\n" % (random.randrange(RECORDS), random.randrange(1 << 30))


def batch_of(count):
    return b"begin\n" + b"".join(put() for _ in range(count)) + b"commit\n"


def get():
    return b"get top 7 %d\n" % random.randrange(RECORDS)


def processor_seconds(process):
    """How long a process has had a processor."""
    words = Path(f"/proc/{process.pid}/stat").read_text().rpartition(")")[2].split()
    return (int(words[11]) + int(words[12])) / os.sysconf("SC_CLK_TCK")


def until_served(process, said):
    """Waits until a service has said that it serves."""
    while b": batches to " not in Path(said).read_bytes():
        if process.poll() is not None:
            raise RuntimeError(Path(said).read_text())
        time.sleep(0.05)


def until_alone(file):
    """Waits until the service has closed the connections of those who have gone, as it takes 256 of one user."""
    words = [sys.executable, ALTSERVE, "status", file]
    while "planners 1" not in subprocess.run(words, check=True, stdout=subprocess.PIPE).stdout.decode().splitlines():
        time.sleep(0.05)


@contextlib.contextmanager
def service(altctl, folder, variables):
    """A service over a store with the records. Gives what measures commits, batches of two and ten lines, and gets."""
    file = f"{folder}/map.alt"
    subprocess.run([altctl, "create", file, "16384"], check=True, stdout=subprocess.DEVNULL)
    lines = "".join(f"put top 7 {number} value\n" for number in range(RECORDS)) + "commit\n"
    subprocess.run([altctl, "run", "--", file], input=lines.encode(), check=True, stdout=subprocess.DEVNULL)
    with open(f"{folder}/said", "wb") as said:
        process = subprocess.Popen([sys.executable, ALTSERVE, "--program", altctl, file], stderr=said, env=variables)

    def measure(text, due):
        def planners(count, seconds):
            loaders, taken = min(LOADERS, count), processor_seconds(process)
            found = in_processes(loaders, lambda _: load(f"{file}.sock", count // loaders, seconds, text, due))
            taken = processor_seconds(process) - taken
            until_alone(file)
            times = [it for part in found for it in part]
            # The first answer to each planner has no time.
            return Found(len(times) / seconds, times, taken / (len(times) + count))

        return planners

    try:
        until_served(process, f"{folder}/said")
        yield {
            "commits": measure(put, 1),
            "batches of two": measure(lambda: batch_of(2), 4),
            "batches of ten": measure(lambda: batch_of(10), 12),
            "gets": measure(get, 1),
        }
    finally:
        process.terminate()
        process.wait()


def beside_floods(said):
    """A table of how long lines of the other planners take, who come a second after those who flood, by what these
    send."""
    count = said.planners[-1]
    columns = (
        "Others: half, 99 %, all take no longer, ms",
        "Answers a second of those who flood, at least",
        "on average",
    )
    yield shown(f"{said.flood} of {count} flood with", columns) + "\n" + "|---" * 4 + "|"
    with tempfile.TemporaryDirectory() as folder, contextlib.ExitStack() as stack:
        variables = slowed(said, folder)
        stack.enter_context(service(said.altctl, folder, variables))
        file, others = f"{folder}/map.alt", (count - said.flood) // LOADERS
        for what, text in FLOODS.items():

            def act(number):
                if number == LOADERS:
                    return flood(f"{file}.sock", said.flood, said.seconds + 1, text)
                time.sleep(1)
                return load(f"{file}.sock", others, said.seconds, put, 1)

            *times, answers = in_processes(LOADERS + 1, act)
            until_alone(file)
            times = sorted(it for part in times for it in part)
            waited = [times[len(times) // 2], times[len(times) * 99 // 100], times[-1]] if times else []
            rates = [it / (said.seconds + 1) for it in answers]
            told = f"{min(rates):,.0f}", f"{sum(rates) / len(rates):,.0f}"
            yield shown(what, [", ".join(f"{it:.0f}" for it in waited) or "none", *told])


def changes(count):
    """A script of pgbench that changes so many rows in one transaction, in the order of their numbers, so that no two
    transactions wait for each other in a circle."""
    each = RECORDS // count
    numbers = "".join(f"\\set number{it} random({it * each}, {it * each + each - 1})\n" for it in range(count))
    updates = "".join(
        f"UPDATE map SET value = 'value-' || :value WHERE number = :number{it};\n" for it in range(count)
    )
    if count > 1:
        updates = f"\\startpipeline\nBEGIN;\n{updates}COMMIT;\n\\endpipeline\n"
    return f"{numbers}\\set value random(0, 1000000000)\n{updates}"


def by_pgbench(data, run, rows):
    """What measures transactions that change so many rows."""
    script = f"{data}/{rows}.sql"
    Path(script).write_text(changes(rows))

    def commits(count, seconds):
        clients = [
            "-c", str(count), "-j", str(min(LOADERS, count)), "-T", str(seconds), "-l", f"--log-prefix={data}/times"
        ]
        words = ["-h", data, "-n", "-M", "prepared", "-f", script, *clients, "postgres"]
        text = run(str(POSTGRES[0] / "pgbench"), *words)
        times = []
        for it in Path(data).glob("times.*"):
            times += [int(line.split()[2]) / 1000 for line in it.read_text().splitlines()]
            it.unlink()
        # It tells no rate if connecting took all of the time.
        told = re.search(r"^tps = ([0-9.]+)", text, re.M)
        return Found(float(told[1]) if told else 0.0, times)

    return commits


@contextlib.contextmanager
def postgres(folder, variables):
    """A server of PostgreSQL. Gives what measures commits and transactions of ten changes, by pgbench."""
    data = f"{folder}/postgres"
    os.makedirs(data)
    user = {}
    if os.geteuid() == 0:
        shutil.chown(data, "postgres", "postgres")
        os.chmod(folder, 0o711)
        user = {"user": "postgres", "group": "postgres", "extra_groups": []}

    def run(*words, **how):
        ran = subprocess.run(words, stdout=subprocess.PIPE, stderr=subprocess.PIPE, cwd=data, **user, **how)
        if ran.returncode:
            raise RuntimeError(f"{words}: {ran.stderr.decode()}")
        return ran.stdout.decode()

    initdb, pg_ctl, psql = (str(POSTGRES[0] / it) for it in ("initdb", "pg_ctl", "psql"))
    run(initdb, "-D", f"{data}/it", "-A", "trust")
    control = [pg_ctl, "-D", f"{data}/it", "-w", "-l", f"{data}/log"]
    run(*control, "-o", f"-k {data} -c listen_addresses= -c max_connections={MOST}", "start", env=variables)
    try:
        for sql in (
            "CREATE TABLE map (number int PRIMARY KEY, value text)",
            f"INSERT INTO map SELECT number, 'value' FROM generate_series(0, {RECORDS - 1}) number",
        ):
            run(psql, "-h", data, "-d", "postgres", "-c", sql)
        yield {"commits": by_pgbench(data, run, 1), "batches of ten": by_pgbench(data, run, 10)}
    finally:
        run(*control, "-m", "fast", "stop")


def sqlite(folder, variables):
    """A file of SQLite. Gives what measures commits: by processes started anew, since syncs are made slow from a start
    on."""
    file = f"{folder}/sqlite"
    with contextlib.closing(sqlite3.connect(file)) as store, store:
        store.execute("PRAGMA journal_mode=WAL")
        store.execute("CREATE TABLE map (number INTEGER PRIMARY KEY, value TEXT)")
        store.executemany("INSERT INTO map VALUES (?, 'value')", ((number,) for number in range(RECORDS)))

    def commits(count, seconds):
        words = [sys.executable, __file__, "--sqlite", file, str(count), "--seconds", str(seconds)]
        return Found(float(subprocess.run(words, check=True, stdout=subprocess.PIPE, env=variables).stdout))

    return commits


def write_sqlite(file, count, seconds):
    """The commits a second of so many writers."""

    def write(_):
        store = sqlite3.connect(file, isolation_level=None, timeout=60)
        store.execute("PRAGMA synchronous=FULL")
        random.seed(os.getpid())
        done, until = 0, time.monotonic() + seconds
        while time.monotonic() < until:
            value, number = f"value-{random.randrange(1 << 30)}", random.randrange(RECORDS)
            store.execute("UPDATE map SET value = ? WHERE number = ?", (value, number))
            done += 1
        return done

    return sum(in_processes(count, write)) / seconds


def sync_time(folder):
    """How long a write and its sync take here, in microseconds."""
    with open(f"{folder}/sync", "ab", buffering=0) as file:
        begun = time.monotonic()
        for _ in range(200):
            file.write(b"x" * 100)
            os.fdatasync(file.fileno())
        return (time.monotonic() - begun) / 200 * 1e6


def shown(what, columns):
    return f"| {what} | {' | '.join(columns)} |"


def rates(found, planners):
    """How many a second."""
    columns = [*map(str, planners), f"{planners[-1]} to {planners[0]}"]
    yield shown("A second, by planners", columns) + "\n" + "|---" * (len(planners) + 2) + "|"
    for what, by_count in found.items():
        medians = [median(it.rate for it in by_count[count]) for count in planners]
        yield shown(what, [f"{it:,.0f}" for it in medians] + [f"{medians[-1] / medians[0]:.1f}"])


def waits(found, planners):
    """How long all but the slowest took."""
    head = shown("Milliseconds: half, 99 %, 99.9 % take no longer", map(str, planners))
    yield head + "\n" + "|---" * (len(planners) + 1) + "|"
    for what, by_count in found.items():
        columns = []
        for count in planners:
            times = sorted(time for it in by_count[count] for time in it.times)
            columns.append(", ".join(f"{times[len(times) * it // 1000]:.1f}" for it in SHARES) if times else "")
        if any(columns):
            yield shown(what, columns)


def processor_times(found, planners):
    """How long the service had a processor for each answer."""
    yield shown("Processor microseconds for each", map(str, planners)) + "\n" + "|---" * (len(planners) + 1) + "|"
    for what, by_count in found.items():
        medians = [1e6 * median(it.processor for it in by_count[count]) for count in planners]
        if any(medians):
            yield shown(what, [f"{it:,.0f}" for it in medians])


def slowed(said, folder):
    """The variables of programs whose syncs take as much longer as was said."""
    return preloaded(compiled("slow_calls", folder), slow_sync=said.slow) if said.slow else dict(os.environ)


def measured(said, planners):
    """What was found of each, by planners, a list of rounds; how long syncs took, and how busy the machine was."""
    with tempfile.TemporaryDirectory() as folder, contextlib.ExitStack() as stack:
        variables = slowed(said, folder)
        kinds = stack.enter_context(service(said.altctl, folder, variables))
        measures = {f"altserve: {what}": measure for what, measure in kinds.items()}
        if POSTGRES:
            kinds = stack.enter_context(postgres(folder, variables))
            measures.update({f"PostgreSQL: {what}": measure for what, measure in kinds.items()})
        else:
            print("PostgreSQL is not installed (postgresql), and skipped")
        if max(planners) <= MOST_OF_SQLITE:
            measures["SQLite: commits"] = sqlite(folder, variables)
        else:
            print(f"SQLite is skipped: more than {MOST_OF_SQLITE} processes would wait for its lock")
        found = {what: {count: [] for count in planners} for what in measures}
        syncs, loads = [], []
        # In turns, so that other work on the machine hits all of them alike.
        for _ in range(said.rounds):
            syncs.append(sync_time(folder))
            loads.append(os.getloadavg()[0])
            for what, measure in measures.items():
                for count in planners:
                    found[what][count].append(measure(count, said.seconds))
    return found, syncs, loads


def main():
    parser = argparse.ArgumentParser(description=__doc__.split(":")[0])
    parser.add_argument("--seconds", type=int, default=2, help="of each measurement")
    parser.add_argument("--rounds", type=int, default=5, help="how often each is done; the median counts")
    parser.add_argument("--planners", type=int, nargs="+", default=PLANNERS, help="how many there are, 250 at most")
    parser.add_argument("--processors", type=int, help="how many processors are used")
    parser.add_argument("--slow", type=int, default=0, help="microseconds added to each sync")
    parser.add_argument("--flood", type=int, help="how many of the planners flood the service")
    parser.add_argument("--sqlite", nargs=2, help=argparse.SUPPRESS)
    parser.add_argument("altctl", nargs="?", default=str(TOP / "altctl"))
    said = parser.parse_args()
    if said.sqlite:
        print(write_sqlite(said.sqlite[0], int(said.sqlite[1]), said.seconds))
        return
    if said.processors:
        os.sched_setaffinity(0, sorted(os.sched_getaffinity(0))[: said.processors])
    if said.flood:
        for row in beside_floods(said):
            print(row, flush=True)
        return
    found, syncs, loads = measured(said, said.planners)
    sync = f"a sync takes {median(syncs):.0f} µs" + (f" and {said.slow} more" if said.slow else "")
    load_seen = f"load {min(loads):.0f} to {max(loads):.0f}"
    processors = len(os.sched_getaffinity(0))
    print(f"{processors} processors, {load_seen}; {sync}; the median of {said.rounds} times {said.seconds} s")
    tables = rates(found, said.planners), waits(found, said.planners), processor_times(found, said.planners)
    print("\n\n".join("\n".join(it) for it in tables))


if __name__ == "__main__":
    main()
