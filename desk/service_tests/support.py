"""A service over a real store, and planners by bytes, for the tests."""
import contextlib
import fcntl
import json
import os
import signal
import socket
import struct
import subprocess
import sys
import tempfile
import termios
import time
import unittest
from pathlib import Path

from service.journal_log import Log, filter_of
from service.recent import last_batch

DESK = Path(__file__).resolve().parent.parent
ALTSERVE = str(DESK / "altserve")
ALTCTL = os.environ.get("ALTCTL", str(DESK.parent / "altctl"))
NOBODY = 65534
HAS_TOML = not subprocess.run(
    [sys.executable, "-c", "try: import tomllib\nexcept ImportError: import tomli"], stderr=subprocess.DEVNULL
).returncode
HAS_NC = not subprocess.run(["sh", "-c", "nc -h 2>&1 | grep -q -e -U"]).returncode
NEEDS_TOML = "neither Python 3.11 nor tomli (python3-tomli) is installed"
# Starts the service with other limits, or without a module.
CHANGED = """import runpy, sys
sys.path[:0] = {path!r}
{change}
sys.argv[0] = {file!r}
runpy.run_path({file!r}, run_name="__main__")
"""
# What the program says of a value that is too long, or has a % of its own, and of a name.
LONG_VALUE, NAMED = "word 5: VALUE is at most 4,000 bytes, % as %25", "1 to 32 of A-Za-z0-9_.-"
LONG = "%00" * 4000


def kept_batches(path):
    """The batches that the store holds, by a model: a state of the store for each number that was the last one in
    it."""
    states, now, waiting = {0: []}, [], []
    for line in map(json.loads, Path(path).read_text().splitlines()):
        if "batch" in line:
            waiting.append(line)
            continue
        last = line["done"] if "done" in line else line["last"]
        found = [it for it in waiting if it["batch"] <= last]
        now = now + found if found else states.get(last, [])
        states[last], waiting = now, []
    return now


def entries(path, *filters, kept=None):
    """The answer to `log`, without its last line."""
    log = Log(path)
    rows = b"".join(log.entries(filter_of(filters), kept)).decode().splitlines()
    log.close()
    assert rows[-1] == f"end {len(rows) - 1}"
    return rows[:-1]


class Raw:
    """A planner by bytes."""

    def __init__(self, path):
        self.socket = socket.socket(socket.AF_UNIX)
        try:
            self.socket.connect(path)
        except OSError:
            self.socket.close()
            raise
        self.socket.settimeout(60)
        self.answers = self.socket.makefile("rb")

    def __enter__(self):
        return self

    def __exit__(self, *_):
        self.answers.close()
        self.socket.close()

    def send(self, *lines):
        self.socket.sendall("".join(f"{it}\n" for it in lines).encode())

    def read(self, count=1):
        return [self.answers.readline().decode().rstrip("\n") for _ in range(count)]

    def ask(self, *lines):
        """The answers to lines that each have one line of it."""
        self.send(*lines)
        return self.read(len(lines))

    def is_read(self):
        """Whether the service has read all that was sent."""
        return not struct.unpack("i", fcntl.ioctl(self.socket, termios.TIOCOUTQ, bytes(4)))[0]

    def rows(self, line):
        """The answer to a line up to the last row."""
        self.send(line)
        rows = self.read()
        while rows[-1] and not rows[-1].startswith(("end ", "error ")):
            rows += self.read()
        return rows

    def last_batch(self):
        """The last batch in the store."""
        return last_batch(self.rows("checks .service"), self.rows("changes .service"))

    def rest(self):
        """All that is answered when no more lines come."""
        self.socket.shutdown(socket.SHUT_WR)
        return self.answers.read().decode().splitlines()


class ServiceTest(unittest.TestCase):
    def setUp(self):
        folder = tempfile.TemporaryDirectory()
        self.addCleanup(folder.cleanup)
        self.folder = folder.name
        self.file = os.path.join(self.folder, "map.alt")
        self.socket, self.journal, self.said = f"{self.file}.sock", f"{self.file}.journal", Path(f"{self.file}.said")
        self.service = None
        self.create()
        self.addCleanup(self.stop)

    def create(self, blocks=256):
        subprocess.run([ALTCTL, "create", self.file, str(blocks)], check=True, stdout=subprocess.DEVNULL)

    def launch(self, *options, change="", before=(), **how):
        """Starts the service, after a change of its limits."""
        path = [str(DESK), str(DESK.parent / "clients" / "python")]
        text = CHANGED.format(path=path, file=ALTSERVE, change=change)
        words = [*before, sys.executable, "-c", text, "--program", ALTCTL, *options, self.file]
        with open(self.said, "wb") as said:
            self.service = subprocess.Popen(words, stderr=said, **how)

    def start(self, *options, **how):
        """Starts the service, and waits until it serves."""
        self.launch(*options, **how)
        self.until(lambda: b": batches to " in self.said.read_bytes())

    def start_limited(self, **values):
        self.start(
            change="\n".join(["from service import limits", *(f"limits.{name} = {it}" for name, it in values.items())])
        )

    def until(self, is_so):
        late = time.monotonic() + 60
        while not is_so():
            self.assertTrue(self.service is None or self.service.poll() is None, self.said.read_text())
            self.assertLess(time.monotonic(), late)
            time.sleep(0.01)

    def stop(self, how=signal.SIGTERM):
        """Ends the service, and gives its status."""
        service, self.service = self.service, None
        if service is None:
            return None
        service.send_signal(how)
        return service.wait(60)

    def failed(self, *options, **how):
        """The status of a service that ends at its start, and what it says."""
        self.launch(*options, **how)
        status = self.service.wait(60)
        self.service = None
        return status, self.said.read_text()

    def planner(self):
        return Raw(self.socket)

    def altctl(self, *lines):
        """What the program answers while no service runs."""
        ran = subprocess.run([ALTCTL, "do", self.file, *lines], stdout=subprocess.PIPE, timeout=60)
        return ran.stdout.decode().splitlines()

    def log(self, *filters):
        """The log without its times and users."""
        words = [sys.executable, ALTSERVE, "log", *filters, self.file]
        rows = subprocess.run(words, check=True, stdout=subprocess.PIPE, timeout=60).stdout.decode().splitlines()
        self.assertEqual(f"end {len(rows) - 1}", rows[-1])
        return [" ".join([it.split(" ")[1], *it.split(" ")[4:]]) for it in rows[:-1]]

    def program(self):
        """The process of the program that the service has started."""
        children = Path(f"/proc/{self.service.pid}/task/{self.service.pid}/children").read_text().split()
        [child] = [it for it in children if b"\0serve\0" in Path(f"/proc/{it}/cmdline").read_bytes()]
        return int(child)

    @contextlib.contextmanager
    def halted(self):
        """The program stands still meanwhile, and what is sent waits."""
        program = self.program()
        os.kill(program, signal.SIGSTOP)
        try:
            yield program
        finally:
            with contextlib.suppress(ProcessLookupError):
                os.kill(program, signal.SIGCONT)

    def memory(self, what="VmHWM"):
        """The most memory that the service took, in bytes."""
        text = Path(f"/proc/{self.service.pid}/status").read_text()
        return 1024 * int(text.split(f"{what}:")[1].split()[0])

    def rules(self, text):
        Path(f"{self.file}.rules").write_text(text)
