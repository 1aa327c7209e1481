#!/usr/bin/env python3
"""Takes the service over from one machine to the other, as docs/TWO-MACHINES.md has it: `tools/faults/two_machines.py
[COUNT [ROOT [SEED]]]`. Three Debians, each a copy of ROOT, or of one that debootstrap makes with the packages of the
page, are booted by systemd-nspawn in network namespaces of their own, and do each command of the page. Then the machine
of the service is killed, cut off, or frozen, in turn, COUNT times (6 if none is given) while planners write: after each
time each acknowledged batch has to be there, and none may be done twice. One that is frozen, as a virtual machine that
is halted, goes on in the middle of its work once the other machine has taken over, and so do its planners: what it
still writes has to be refused. SEED (1 if none is given) decides how long planners have written when the machine goes.

If something is not as it should be, the disks, logs and journals of the machines are kept, with what the machines told
before they were ended, and the script says where. Several may run at once, with a ROOT that is there; from six on they
want more than 128 of fs.inotify.max_user_instances, or a machine does not boot.

It is not one of the scripts of `tools/all.sh`: it takes a quarter of an hour, and has lost batches, as the page says.
It takes the rights of root. If something is not installed or not allowed, it says so and ends with status 0."""
import contextlib
import os
import random
import re
import shutil
import signal
import socket
import subprocess
import sys
import tempfile
import threading
import time
from pathlib import Path

TOP = Path(__file__).resolve().parents[2]
PAGE = TOP / "docs/TWO-MACHINES.md"
NAMES = ("one", "two", "three")
NET = f"alt{os.getpid()}"
ENV = ("-i", "PATH=/usr/sbin:/usr/bin:/sbin:/bin", "LC_ALL=C.UTF-8", "HOME=/root", "TERM=dumb")
QUIET = {"stdin": subprocess.DEVNULL, "stdout": subprocess.DEVNULL, "stderr": subprocess.DEVNULL}
# How long a take-over, and the way back to three machines, may take, and a command on one of them.
LATE_SECONDS = 600
# How the machine of the service goes away, in turn.
WAYS = ("killed", "cut off", "frozen")
# Planners at each machine, and how long each rests between two batches.
PLANNERS, REST_SECONDS = 3, 0.02
# How long they write before a machine goes away.
LOAD_SECONDS = 1, 6
# What a machine is asked when something is not as it should be.
ASKED = (
    "crm_mon --one-shot --inactive --failcounts",
    "gluster volume status map",
    "gluster volume heal map info",
    "systemctl status --no-pager --full altserve@map.service altserve@map.socket glusterd",
    "ls -la --time-style=full-iso /var/lib/altserve /srv/brick/map",
    "altserve status --socket /run/altserve/map.sock /var/lib/altserve/map.alt",
    "journalctl --no-pager --output short-precise",
)
# Where a machine's processes may have a control group of their own: with one in common a systemd would see, and try to
# end, those of the other machines.
GROUPS = [Path("/sys/fs/cgroup/systemd"), Path("/sys/fs/cgroup/unified"), Path("/sys/fs/cgroup")]


class Failed(Exception):
    """What is not as it should be."""


def run(*words, **how):
    return subprocess.run([str(it) for it in words], check=True, stdout=subprocess.PIPE, text=True, **how).stdout


def say(text):
    print(f"two_machines: {text}", flush=True)


def until(is_so, what, pause=0.2):
    late = time.monotonic() + LATE_SECONDS
    while not is_so():
        if time.monotonic() > late:
            raise Failed(f"{what}: not within {LATE_SECONDS} seconds")
        time.sleep(pause)


def is_kept(group):
    """Removes a control group with those in it, and tells whether it is there all the same."""
    subprocess.run(["find", str(group), "-depth", "-type", "d", "-exec", "rmdir", "{}", ";"], **QUIET)
    return group.exists()


class Net:
    """A switch in a network namespace of its own, and a namespace for each machine."""

    def __enter__(self):
        run("ip", "netns", "add", NET)
        run("ip", "-n", NET, "link", "add", "switch", "type", "bridge")
        run("ip", "-n", NET, "link", "set", "switch", "up")
        for number, name in enumerate(NAMES, 1):
            run("ip", "netns", "add", f"{NET}-{name}")
            run("ip", "-n", NET, "link", "add", name, "type", "veth", "peer", "name", "eth0", "netns", f"{NET}-{name}")
            run("ip", "-n", NET, "link", "set", name, "master", "switch", "up")
            run("ip", "-n", f"{NET}-{name}", "address", "add", f"10.99.1.{number}/24", "dev", "eth0")
            for it in "lo", "eth0":
                run("ip", "-n", f"{NET}-{name}", "link", "set", it, "up")
        return self

    def __exit__(self, *_):
        for it in (*(f"{NET}-{name}" for name in NAMES), NET):
            subprocess.run(["ip", "netns", "del", it], **QUIET)

    def plug(self, name, is_in):
        run("ip", "-n", NET, "link", "set", name, "up" if is_in else "down")


class Machine:
    def __init__(self, name, root, folder, deb):
        self.name, self.folder, self.process = name, folder / name, None
        for it in ("upper", "work", "root", "brick"):
            (self.folder / it).mkdir(parents=True)
        self.root = self.folder / "root"
        self.groups = [it / f"{NET}-{name}" for it in GROUPS if (it / "cgroup.procs").exists()]
        layers = f"lowerdir={root},upperdir={self.folder}/upper,workdir={self.folder}/work"
        run("mount", "-t", "overlay", "overlay", "-o", layers, self.root)
        hosts = "".join(f"10.99.1.{number} {it}\n" for number, it in enumerate(NAMES, 1))
        (self.root / "etc/hosts").write_text(f"127.0.0.1 localhost\n{hosts}")
        (self.root / "etc/hostname").write_text(f"{name}\n")
        (self.root / "etc/machine-id").write_text("")
        (self.root / "srv/brick").mkdir(parents=True, exist_ok=True)
        shutil.copy(deb, self.root / "root/zonegrater.deb")

    def boot(self):
        for it in self.groups:
            it.mkdir(exist_ok=True)
        # The shell joins the groups, and becomes the program.
        words = ["sh", "-c", 'while [ "$1" != -- ]; do echo $$ >"$1"; shift; done; shift; exec "$@"', "sh"]
        words += [*(f"{it}/cgroup.procs" for it in self.groups), "--"]
        words += ["systemd-nspawn", "--quiet", "--register=no", "--keep-unit", f"--machine={NET}-{self.name}"]
        words += [
            f"--hostname={self.name}",
            f"--directory={self.root}",
            f"--network-namespace-path=/run/netns/{NET}-{self.name}",
            "--capability=all",
            # A container may not do this otherwise, and a machine may: the service needs it.
            "--system-call-filter=pidfd_getfd",
            f"--bind={self.folder}/brick:/srv/brick",
        ]
        words += ["--bind=/dev/fuse", "--boot"]
        self.process = subprocess.Popen(words, start_new_session=True, **QUIET)
        until(
            lambda: self.leader() and self.tried("systemctl", "is-active", "--quiet", "multi-user.target"),
            f"{self.name} boots",
        )

    def leader(self):
        """The process of its systemd."""
        with contextlib.suppress(OSError, IndexError):
            return int(Path(f"/proc/{self.process.pid}/task/{self.process.pid}/children").read_text().split()[0])
        return None

    def words(self, *words):
        return ["nsenter", "-t", str(self.leader()), "-m", "-u", "-i", "-n", "-p", "-C", "env", *ENV, *words]

    def tried(self, *words):
        with contextlib.suppress(subprocess.TimeoutExpired):
            return self.leader() is not None and subprocess.run(self.words(*words), **QUIET, timeout=60).returncode == 0
        return False

    def said(self, *words, seconds=LATE_SECONDS):
        how = {"stdin": subprocess.DEVNULL, "stdout": subprocess.PIPE, "stderr": subprocess.STDOUT, "text": True}
        try:
            ran = subprocess.run(self.words(*words), **how, timeout=seconds)
        except subprocess.TimeoutExpired:
            raise Failed(f"{self.name}: {' '.join(words)}: not within {seconds} seconds") from None
        if ran.returncode:
            raise Failed(f"{self.name}: {' '.join(words)}: status {ran.returncode}: {ran.stdout.strip()}")
        return ran.stdout

    def tell_all(self, path):
        """Writes what the machine tells about itself."""
        with open(path, "w") as told:
            for it in ASKED if self.leader() is not None else ():
                print(f"\n# {it}", file=told, flush=True)
                with contextlib.suppress(subprocess.TimeoutExpired):
                    how = {"stdin": subprocess.DEVNULL, "stdout": told, "stderr": subprocess.STDOUT}
                    subprocess.run(self.words("sh", "-c", it), **how, timeout=60)

    def freeze(self, is_frozen):
        """Has all processes of the machine stand still, or go on. Its kernel, which is that of all, goes on meanwhile,
        so its network is to be cut off, too."""
        self.freezers()[0].write_text(f"{int(is_frozen)}\n")

    def freezers(self):
        """The files by which that is done. An older system has none."""
        return [it / "cgroup.freeze" for it in self.groups if (it / "cgroup.freeze").exists()]

    def kill(self):
        """As by a power cut, but that what it has written and not synced stays."""
        with contextlib.suppress(ProcessLookupError, TypeError):
            os.kill(self.leader(), signal.SIGKILL)
        self.process.kill()
        self.process.wait()

    def clear(self):
        if self.process is not None:
            self.kill()
        subprocess.run(["umount", "--lazy", str(self.root)], **QUIET)
        # They are empty a moment after the last process has ended.
        until(lambda: not any(map(is_kept, self.groups)), f"the groups of {self.name} go")


class Planner(threading.Thread):
    """A planner at one machine, who puts records with numbers of a table of its own, one after another. A batch without
    an answer is looked for before it is sent again."""

    def __init__(self, machine, table, acknowledged):
        super().__init__(daemon=True)
        self.machine, self.table, self.acknowledged = machine, table, acknowledged
        self.number, self.ends, self.rests = 0, False, False
        # When a line was answered, by a service that was started when, and how, or `no answer`. What was read is
        # `value`.
        self.seen, self.started = [], 0.0

    def run(self):
        while not self.ends:
            with contextlib.suppress(OSError, ValueError, IndexError, EOFError):
                with socket.socket(socket.AF_UNIX) as service:
                    service.settimeout(20)
                    service.connect(f"/proc/{self.machine.leader()}/root/run/altserve/map.sock")
                    answers = service.makefile("r")
                    self.meet(service, answers)
                    self.work(service, answers)
            time.sleep(0.1)

    def meet(self, service, answers):
        """Finds out when the service was started: one clock is that of all machines here."""
        service.sendall(b"status\n")
        for row in iter(answers.readline, ""):
            if row.startswith("status up_seconds "):
                self.started = time.monotonic() - float(row.split()[2])
            if row.startswith("end "):
                return
        raise EOFError

    def ask(self, service, answers, line):
        answer = ""
        try:
            service.sendall(f"{line}\n".encode())
            answer = answers.readline()
        finally:
            if not answer.endswith("\n"):
                self.see("no answer")
        if not answer.endswith("\n"):
            raise EOFError
        return answer.strip()

    def work(self, service, answers):
        is_new = False
        while not self.ends:
            while self.rests and not self.ends:
                # It reads on, so it connects again as soon as the service has ended.
                self.ask(service, answers, "batches")
                time.sleep(0.1)
            line = f"top {self.table} {self.number}"
            answer = "none" if is_new else self.ask(service, answers, f"get {line}")
            if answer == "none":
                answer = self.ask(service, answers, f"put {line} x")
            self.see(answer.split(" x")[0])
            if answer not in ("ok", "value x"):
                raise ValueError(answer)
            self.acknowledged.add((self.table, self.number))
            self.number, is_new = self.number + 1, True
            time.sleep(REST_SECONDS)

    def see(self, what):
        self.seen.append((time.monotonic(), self.started, what))

    def late(self, first, begun):
        """What became of its lines after the first answer of another service, if the one that it had met was started
        before the take-over began."""
        return [what for when, started, what in list(self.seen) if when > first and started < begun]


def blocks():
    """The commands of the page, with the machines that they are for."""
    for text in re.findall(r"^```text\n# on (.*?)^```$", PAGE.read_text(), re.M | re.S):
        names, *commands = text.splitlines()
        yield names.split(), commands


def set_up(machines):
    for names, commands in blocks():
        for command in commands:
            say(f"{' '.join(names)}: {command[:100]}")
            for name in names:
                machines[name].said("sh", "-c", f"cd /root && {command}")
    until(lambda: active(machines) is not None, "the service starts")
    said = active(machines).said("journalctl", "--no-pager", "--unit", "altserve@map.service")
    if "the lock is not on what the program writes with" in said:
        raise Failed("the lock is not on what the program writes with")


def active(machines):
    """The machine whose service answers, or None."""
    return next((machines[name] for name in ("one", "two") if has_answer(machines[name])), None)


def has_answer(machine):
    with contextlib.suppress(OSError):
        with socket.socket(socket.AF_UNIX) as service:
            service.settimeout(5)
            service.connect(f"/proc/{machine.leader()}/root/run/altserve/map.sock")
            service.sendall(b"batches\n")
            return service.recv(100).startswith(b"batches ")
    return False


def is_whole(machines):
    """Whether all machines are there again, and hold the same."""
    try:
        nodes = machines["three"].said("crm_mon", "--one-shot", seconds=60)
        healed = machines["three"].said("gluster", "volume", "heal", "map", "info", seconds=60)
    except Failed:
        return False
    online = re.search(r"Online: \[ (.*?) \]", nodes)
    return online is not None and len(online[1].split()) == 3 and healed.count("Number of entries: 0") == 3


def first_answer(planners, moment):
    """When the first batch was acknowledged after this moment, or None."""
    found = (when for it in planners for when, _, what in list(it.seen) if when > moment and what == "ok")
    return min(found, default=None)


class TakeOver:
    """One of them: when it began, after how many seconds the first batch was acknowledged by the other machine, and
    what became of the old service's lines after that."""

    def __init__(self, machines, number):
        found = []
        until(lambda: found.append(active(machines)) or found[-1], "the service answers")
        self.old = found[-1]
        [self.new] = [it for it in machines.values() if it.name in ("one", "two") and it is not self.old]
        ways = [it for it in WAYS if it != "frozen" or self.old.freezers()]
        self.number, self.how, self.begun, self.late = number, ways[number % len(ways)], time.monotonic(), {}

    def run(self, net, planners):
        self.away(net)
        until(lambda: first_answer(planners[self.new.name], self.begun), f"{self.new.name} goes on")
        first = first_answer(planners[self.new.name], self.begun)
        self.seconds = first - self.begun
        time.sleep(5)
        self.back(net)
        if self.how != "killed":
            # Its planners go on for a moment.
            time.sleep(10)
        for what in (what for it in planners[self.old.name] for what in it.late(first, self.begun)):
            self.late[what] = self.late.get(what, 0) + 1

    def away(self, net):
        if self.how == "killed":
            self.old.kill()
            return
        net.plug(self.old.name, False)
        if self.how == "frozen":
            self.old.freeze(True)

    def back(self, net):
        if self.how == "killed":
            self.old.boot()
            return
        net.plug(self.old.name, True)
        if self.how == "frozen":
            self.old.freeze(False)

    def told(self):
        late = ", ".join(f"{count} {what}" for what, count in sorted(self.late.items())) or "none"
        return (
            f"{self.number}: {self.old.name} {self.how}, {self.new.name} answered after {self.seconds:.1f} s; "
            f"late lines to {self.old.name}: {late}"
        )


def take_over(net, machines, number, acknowledged, planners, seconds):
    before = len(acknowledged)
    until(lambda: len(acknowledged) > before, "planners go on")
    time.sleep(seconds)
    loaded = len(acknowledged) - before
    one = TakeOver(machines, number)
    one.run(net, planners)
    # What is written is shown as not healed, so all rest.
    everybody = [it for those in planners.values() for it in those]
    for it in everybody:
        it.rests = True
    until(lambda: is_whole(machines), "all machines are there again", 1)
    # Where the service was found on both machines, Pacemaker ends both, and starts one of them.
    machines["three"].said("crm_resource", "--wait")
    # The service has the store open at two copies alone until then.
    machines["three"].said("crm", "resource", "restart", "service")
    machines["three"].said("crm_resource", "--wait")
    until(lambda: active(machines) is not None, "the service starts again")
    say(f"{one.told()}; {len(acknowledged) - before} batches, {loaded} of them in {seconds:.1f} s before")
    compare(machines, acknowledged)
    for it in everybody:
        it.rests = False
    return one


def compare(machines, acknowledged):
    """Whether each acknowledged batch is there, and each one once in the journal."""
    due, found = set(acknowledged), []
    until(lambda: found.extend(rows_of(active(machines))) or found, "the service tells what is there")
    there = {tuple(map(int, it.split()[1:3])) for it in found if it.startswith("record ")}
    done = [tuple(map(int, it.split()[6:8])) for it in found if it.startswith("entry ") and it.split()[4] == "put"]
    lost, twice = due - (there & set(done)), len(done) - len(set(done))
    load = os.getloadavg()[0]
    say(f"{len(due)} batches acknowledged, {len(lost)} lost, {twice} done twice; load {load:.0f}")
    if lost or twice or not due:
        raise Failed(f"lost: {sorted(lost)[:9]}")


def rows_of(machine):
    """All records and the whole journal, or nothing if the service ended meanwhile."""
    rows = []
    with contextlib.suppress(OSError, AttributeError):  # There may be no machine.
        with socket.socket(socket.AF_UNIX) as service:
            service.connect(f"/proc/{machine.leader()}/root/run/altserve/map.sock")
            service.sendall(b"list top\nlog\n")
            service.shutdown(socket.SHUT_WR)
            rows = service.makefile("r").read().splitlines()
    return rows if sum(it.startswith("end ") for it in rows) == 2 else []


def say_times(done):
    """After how many seconds the other machine answered, for each way."""
    for how in WAYS:
        times = sorted(it.seconds for it in done if it.how == how)
        if not times:
            say(f"skipped: none was {how}")
        else:
            say(
                f"{len(times)} {how}: first answers after {times[0]:.1f} to {times[-1]:.1f} s, "
                f"median {times[len(times) // 2]:.1f} s"
            )


def keep(folder, machines, planners):
    """Has what tells how it came to this in the folder."""
    for it in machines.values():
        it.tell_all(folder / f"{it.name}.told")
    rows = []
    with contextlib.suppress(OSError):
        rows = rows_of(active(machines))
    (folder / "rows").write_text("".join(f"{it}\n" for it in rows))
    with open(folder / "planners", "w") as told:
        for it in (it for those in planners.values() for it in those):
            for when, started, what in list(it.seen):
                print(f"{it.machine.name} {it.table} {when:.3f} {started:.3f} {what}", file=told)
            print(f"{it.machine.name} {it.table} next {it.number}", file=told)


@contextlib.contextmanager
def kept_if_failed(folder, machines, planners):
    try:
        yield
    except Exception:
        say(f"it fails at {time.strftime('%H:%M:%S')}, {time.monotonic():.3f} s of the planners' clock")
        keep(folder, machines, planners)
        raise


def try_all(root, deb, count, folder, seed):
    with contextlib.ExitStack() as all_of_it:
        net = all_of_it.enter_context(Net())
        machines = {}
        for name in NAMES:
            machines[name] = Machine(name, root, folder, deb)
            all_of_it.callback(machines[name].clear)
            machines[name].boot()
        acknowledged, planners = set(), {}
        all_of_it.enter_context(kept_if_failed(folder, machines, planners))
        set_up(machines)
        for number, name in enumerate(("one", "two")):
            tables = range(number * PLANNERS + 1, number * PLANNERS + PLANNERS + 1)
            planners[name] = [Planner(machines[name], table, acknowledged) for table in tables]
            for it in planners[name]:
                it.start()
        until(lambda: len(acknowledged) > 20, "the first batches")
        done, draw = [], random.Random(seed)
        try:
            for number in range(count):
                done.append(take_over(net, machines, number, acknowledged, planners, draw.uniform(*LOAD_SECONDS)))
        finally:
            say(f"{len(done)} take-overs of {count}")
            say_times(done)
            for it in (it for those in planners.values() for it in those):
                it.ends = True


def root_of(folder):
    """A small Debian with the packages of the page, or None."""
    [installed] = re.findall(r"^apt-get install (?:--\S+ )*(.*) \./zonegrater\.deb$", PAGE.read_text(), re.M)
    words = ",".join(
        ("systemd", "systemd-sysv", "dbus", "python3", "adduser", "iproute2", "procps", *installed.split())
    )
    made = ["debootstrap", "--variant=minbase", f"--include={words}", "bookworm", str(folder / "debian")]
    if shutil.which("debootstrap") is None:
        say("skipped: no ROOT is given, and debootstrap is not installed")
        return None
    ran = subprocess.run(made, stdout=subprocess.PIPE, stderr=subprocess.STDOUT, text=True)
    if ran.returncode:
        say(f"skipped: debootstrap makes no root: {ran.stdout.strip().splitlines()[-1]}")
        return None
    return folder / "debian"


def main():
    signal.signal(signal.SIGTERM, lambda *_: sys.exit(1))
    if len(sys.argv) > 4:
        sys.exit("usage: tools/faults/two_machines.py [COUNT [ROOT [SEED]]]")
    missing = [it for it in ("systemd-nspawn", "nsenter", "ip", "mount", "dpkg-deb") if shutil.which(it) is None]
    if missing or os.geteuid() or not os.path.exists("/dev/fuse"):
        say(f"skipped: {missing[0] + ' is not installed' if missing else 'it takes root, and /dev/fuse'}")
        return 0
    count, root, seed = sys.argv[1:] + [6, "", 1][len(sys.argv) - 1 :]
    folder = Path(tempfile.mkdtemp(prefix="two-"))
    with contextlib.ExitStack() as end:
        end.callback(shutil.rmtree, folder, ignore_errors=True)
        try:
            found = Path(root) if root else root_of(folder)
            if found is not None:
                deb, _ = run(TOP / "tools/release/package.sh", f"{folder}/packages").split()
                try_all(found, deb, int(count), folder, int(seed))
        except Exception as fault:
            end.pop_all()
            say(f"{fault}\nwhat the machines left is in {folder}")
            if isinstance(fault, Failed):
                return 1
            raise
    return 0


if __name__ == "__main__":
    sys.exit(main())
