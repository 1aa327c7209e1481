#!/usr/bin/env python3
"""Tests what `tools/release/package.sh` makes: `tools/release/test_package.py [ROOT]`. It builds the packages twice, in
two folders and under other settings, and compares their bytes; it unpacks them, has the sessions of the README run with
the program that was unpacked, and builds and runs a program in C by `pkg-config`, one in Python, the service, the
completion and the wheel. Those for aarch64 it tries under qemu: the sessions of the README, and that the programs of
both processors read each other's file.

It also installs the package in a small Debian of its own, a copy of ROOT or one that debootstrap makes, boots that by
systemd-nspawn, and does there what a new user does: the sessions of the README, a service under systemd, an upgrade, a
removal. This takes the rights of root.

What is not installed is skipped, with a line that says so; all of it is if the program of these sources is not
built."""
import os
import re
import shutil
import signal
import subprocess
import sys
import tarfile
import tempfile
import time
import unittest
from pathlib import Path

sys.dont_write_bytecode = True
sys.path.insert(0, str(Path(__file__).resolve().parents[1] / "gate"))
import documents

TOP = documents.TOP
ROOT = sys.argv.pop(1) if len(sys.argv) > 1 else None
# The programs beside altctl.
PROGRAMS = ("altserve", "altdesk", "altcarry", "altgis")
# What a Debian has that is made here.
IN_ROOT = ("systemd", "systemd-sysv", "dbus", "python3", "adduser", "netcat-openbsd")
IN_ROOT_ENV = ("-i", "PATH=/usr/sbin:/usr/bin:/sbin:/bin", "LC_ALL=C.UTF-8")
PROGRAM_IN_C = """#include <altctl.h>
#include <stdio.h>
int main(void)
{
    alt_store *store;
    int error = alt_create("c.alt", 64, NULL);
    if (error == ALT_OK)
        error = alt_open(&store, "c.alt", NULL);
    if (error == ALT_OK)
        error = alt_put(store, "top", (alt_key){7, 1}, "duct", 4);
    if (error == ALT_OK)
        error = alt_commit(store);
    puts(alt_error_name(error));
    return error != ALT_OK || alt_close(store) != ALT_OK;
}
"""
IN_MEMORY_IN_C = """#include <altstore.h>
#include <stdio.h>
int main(void)
{
    altstore store = ALTSTORE_CLOSED_HANDLE;
    uint32_t code = altstore_new(&store, 64, 0);
    if (code == ALTSTORE_OK)
        code = altstore_ask(&store, (const uint8_t *)"commit", 6, true);
    altstore_close(&store);
    printf("%u\\n", (unsigned)code);
    return code != ALTSTORE_OK;
}
"""
IN_MEMORY_IN_PYTHON = 'import altstore\nwith altstore.Memory(64) as store:\n    print(store.ask("blocks"), end="")'
PROGRAM_IN_PYTHON = 'import altctl\nwith altctl.Store("c.alt") as store:\n    print(store.get("top", 7, 1))'
# What bash offers behind the words of a line.
COMPLETED = """. "$1"; shift
COMP_WORDS=("$@") COMP_CWORD=$(($# - 1)); compopt() { :; }; _altctl; printf '%s\\n' "${COMPREPLY[@]}\""""


def run(*words, **how):
    how = {"check": True, "stdout": subprocess.PIPE, "text": True, "timeout": 300, **how}
    return subprocess.run([str(it) for it in words], **how).stdout


def is_there(*words):
    return not any(
        subprocess.run(["sh", "-c", f"command -v {it}"], stdout=subprocess.DEVNULL).returncode for it in words
    )


def is_built():
    """Whether `./altctl` starts a program, and does not have all of it proved and built first."""
    made = TOP / "crates/altctl/out/altctl.stamp"
    digest = run(TOP / "tools/sources.sh", "digest").strip()
    carried = (TOP / "dist/altctl-x86_64-linux.txt").read_text().split()[1]
    return digest == carried or made.exists() and made.read_text().split()[0] == digest


def built(folder):
    """The packages, made in a folder, which nothing else uses."""
    return map(Path, run(TOP / "tools/release/package.sh", folder).split())


def assert_same_bytes(test, made, *words):
    """Makes the packages again in another place and under other settings, and compares their bytes with those made."""
    settings = {**os.environ, "TZ": "Asia/Tokyo", "LC_ALL": "C.UTF-8"}
    copy = copied(test.folder / "another place")
    line = 'umask 077; exec tools/release/package.sh "$@"'
    again = run("sh", "-c", line, "sh", *words, test.folder / "second", cwd=copy, env=settings).split("\n")
    for first, second in zip(made, map(Path, again)):
        test.assertEqual(first.name, second.name)
        test.assertEqual(first.read_bytes(), second.read_bytes(), first.name)


def copied(folder):
    """A copy of this repository as it lies here, changes that are not committed among it."""
    run("git", "clone", "--quiet", "--shared", "--no-checkout", TOP, folder)
    files = run("git", "ls-files", "-co", "--exclude-standard", cwd=TOP).splitlines()
    for it in files:
        if (TOP / it).is_file():
            (folder / it).parent.mkdir(parents=True, exist_ok=True)
            shutil.copy2(TOP / it, folder / it)
    run("git", "reset", "--quiet", cwd=folder)
    out = "crates/altctl/out"
    (folder / out).mkdir(parents=True, exist_ok=True)
    for it in ("altctl", "altctl.stamp", "altctl-aarch64", "altctl-aarch64.stamp"):
        if (TOP / out / it).is_file():
            shutil.copy2(TOP / out / it, folder / out / it)
    archive = "crates/altstore/out/libaltstore.a"
    if (TOP / archive).is_file():
        (folder / archive).parent.mkdir(parents=True, exist_ok=True)
        shutil.copy2(TOP / archive, folder / archive)
    return folder


class InRoot(documents.Run):
    """The sessions of a document inside another root, where the program is installed. `enter` are the words that lead
    there."""

    def __init__(self, root, enter):
        self.enter, self.status, self.differences = enter, 0, 0
        os.mkdir(f"{root}/srv/session")
        os.symlink("/usr/bin/altctl", f"{root}/srv/session/altctl")

    def command(self, command, lines):
        return self.start(["sh", "-c", f"(exit {self.status}); {command}"], lines)

    def start(self, words, lines):
        words = [*self.enter, "sh", "-c", 'cd /srv/session && exec "$@"', "sh", *words]
        text = "".join(f"{it}\n" for it in lines)
        how = {"stdout": subprocess.PIPE, "stderr": subprocess.STDOUT, "text": True, "timeout": 300}
        ran = subprocess.run(words, input=text, **how)
        self.status = ran.returncode
        return ran.stdout.splitlines()


@unittest.skipUnless(is_built(), "the program of these sources is not built: tools/build.sh does it")
@unittest.skipUnless(is_there("dpkg-deb", "cc", "git"), "dpkg-deb, a C compiler or git is not installed")
class PackageTests(unittest.TestCase):
    @classmethod
    def setUpClass(cls):
        run(TOP / "altctl", "--version")
        cls.temporary = tempfile.TemporaryDirectory()
        cls.folder = Path(cls.temporary.name)
        cls.deb, cls.archive = built(cls.folder / "first")
        cls.unpacked = cls.folder / "unpacked"
        with tarfile.open(cls.archive) as archive:
            archive.extractall(cls.unpacked)
            cls.entries = archive.getmembers()
        (cls.prefix,) = cls.unpacked.iterdir()
        cls.variables = {
            **os.environ,
            "PATH": f"{cls.prefix}/bin{os.pathsep}{os.environ['PATH']}",
            "PYTHONDONTWRITEBYTECODE": "1",
        }

    @classmethod
    def tearDownClass(cls):
        cls.temporary.cleanup()

    def test_the_same_commit_gives_the_same_bytes(self):
        assert_same_bytes(self, (self.deb, self.archive))

    def test_files_have_fixed_owners_and_modes(self):
        for it in self.entries:
            programs = ("/bin/altctl", "/tools/upgrade.py", *(f"/desk/{it}" for it in PROGRAMS))
            is_run = it.isdir() or it.name.endswith(programs)
            due = 0o777 if it.issym() else 0o755 if is_run else 0o644
            self.assertEqual((0, 0, oct(due)), (it.uid, it.gid, oct(it.mode)), it.name)
        names = [it.name for it in self.entries]
        self.assertEqual(sorted(names, key=lambda it: it.split("/")), names)

    def test_both_packages_and_an_installation_have_the_same_files(self):
        def files(folder):
            return {str(it.relative_to(folder)).removesuffix(".gz") for it in folder.rglob("*") if not it.is_dir()}

        run("dpkg-deb", "-x", self.deb, self.folder / "deb")
        run(TOP / "tools/release/install.sh", self.folder / "installed")
        self.assertEqual(files(self.prefix), files(self.folder / "deb/usr"))
        self.assertEqual(files(self.prefix), files(self.folder / "installed"))
        self.assertEqual((TOP / "dist/altctl-x86_64-linux").read_bytes(), (self.prefix / "bin/altctl").read_bytes())
        said = (self.folder / "deb/usr/lib/pkgconfig/altctl.pc").read_text()
        self.assertIn("prefix=/usr\n", said)

    def test_the_sessions_of_the_readme_run(self):
        count, differences, _ = documents.run_blocks(TOP / "README.md", str(self.prefix / "bin/altctl"))
        self.assertEqual((True, 0), (count > 0, differences))

    @unittest.skipUnless(is_there("pkg-config"), "pkg-config is not installed")
    def test_programs_are_built_and_run(self):
        (self.folder / "c.c").write_text(PROGRAM_IN_C)
        found = {
            **self.variables,
            "PKG_CONFIG_PATH": f"{self.prefix}/lib/pkgconfig",
            "LD_LIBRARY_PATH": f"{self.prefix}/lib",
        }
        for name, words in ("shared", "--cflags --libs"), ("static", "--cflags --libs --static"):
            link = "-static" if name == "static" else ""
            run("sh", "-c", f"cc {link} -o {name} c.c $(pkg-config {words} altctl)", cwd=self.folder, env=found)
            self.assertEqual("ok\n", run(self.folder / name, cwd=self.folder, env=found))
            found_by_python = {**self.variables, "PYTHONPATH": f"{self.prefix}/lib/python3/dist-packages"}
            told = run(sys.executable, "-c", PROGRAM_IN_PYTHON, cwd=self.folder, env=found_by_python)
            self.assertEqual("b'duct'\n", told)
            (self.folder / "c.alt").unlink()

    @unittest.skipUnless(is_there("pkg-config"), "pkg-config is not installed")
    def test_the_store_in_memory(self):
        if not (self.prefix / "lib/libaltstore.a").exists():
            self.skipTest("the archive of libaltstore is not built")
        (self.folder / "memory.c").write_text(IN_MEMORY_IN_C)
        found = {
            **self.variables,
            "PKG_CONFIG_PATH": f"{self.prefix}/lib/pkgconfig",
            "LD_LIBRARY_PATH": f"{self.prefix}/lib",
        }
        run("sh", "-c", "cc -o memory memory.c $(pkg-config --cflags --libs altstore)", cwd=self.folder, env=found)
        self.assertEqual("0\n", run(self.folder / "memory", env=found))
        found["PYTHONPATH"] = f"{self.prefix}/lib/python3/dist-packages"
        self.assertEqual("blocks 64\n", run(sys.executable, "-c", IN_MEMORY_IN_PYTHON, env=found))

    def test_the_programs_of_the_desk_start(self):
        leaflet = "/usr/share/javascript/leaflet/leaflet.min.js"
        needs = {"altgis": "from osgeo import gdal"}
        needs["altdesk"] = f"import aiohttp, os; from osgeo import gdal; os.stat({leaflet!r})"
        for name in PROGRAMS:
            test = ["/usr/bin/python3" if name in needs else sys.executable, "-c", needs.get(name, "")]
            if not subprocess.run(test, stderr=subprocess.DEVNULL).returncode:
                self.assertIn(f"usage: {name}", run(name, "--help", env=self.variables))

    def test_each_program_has_a_manual_page(self):
        names = {it.name for it in (self.prefix / "bin").iterdir()}
        self.assertEqual({"altctl", *PROGRAMS}, names)
        for name in names:
            page = self.prefix / f"share/man/man1/{name}.1.gz"
            if is_there("man"):
                words = ["man", "--warnings", "--encoding=UTF-8", "--local-file", page]
                ran = subprocess.run(list(map(str, words)), stdout=subprocess.PIPE, stderr=subprocess.PIPE, text=True)
                self.assertEqual((0, ""), (ran.returncode, ran.stderr), name)
                self.assertRegex(ran.stdout, rf"(?m)^NAME\n +{name} +- +\w+")
            self.assertTrue(page.exists())

    @unittest.skipUnless(is_there("systemd-analyze"), "systemd is not installed")
    def test_the_unit_gives_the_service_few_rights(self):
        unit = self.prefix / "lib/systemd/system/altserve@.service"
        self.assertIn("ExecStart=/usr/bin/altserve --program /usr/bin/altctl ", unit.read_text())
        one = self.folder / "units/altserve@map.service"
        one.parent.mkdir()
        shutil.copy(unit, one)
        # From 0, nothing that it does not need, to 10. An older systemd does not judge a file.
        words = ["systemd-analyze", "security", "--offline=true", "--threshold=10", "--no-pager", str(one)]
        ran = subprocess.run(words, stdout=subprocess.PIPE, stderr=subprocess.STDOUT, text=True)
        self.assertEqual((0, True), (ran.returncode, "OK" in ran.stdout or "SAFE" in ran.stdout), ran.stdout)

    @unittest.skipUnless(is_there("bash"), "bash is not installed")
    def test_words_are_completed(self):
        file = self.prefix / "share/bash-completion/completions/altctl"
        cases = (
            (["altctl", "c"], ["create", "check", "copy"]),
            (["altctl", "copy", "--"], ["--no-lock", "--wait", "--help"]),
            (["altctl", "run", "--c"], ["--cache"]),
            (["altctl", "check", "--"], ["--no-lock", "--wait", "--help"]),
            (["altctl", "tree", str(self.prefix / "incl")], [str(self.prefix / "include")]),
            (["altctl", "run", "--cache", "2"], [""]),
            (["altctl", "do", "--cache", "9", "map.alt", "ne"], ["new", "next"]),
            (["altctl", "do", "map.alt", "free", "'di"], ["diff"]),
            (["altctl", "do", "--strict", str(self.prefix / "incl")], [str(self.prefix / "include")]),
        )
        for words, due in cases:
            self.assertEqual(due, run("bash", "-c", COMPLETED, "bash", file, *words).split("\n")[:-1], words)

    def test_pip_installs_the_client(self):
        how = {"stdout": subprocess.DEVNULL, "stderr": subprocess.DEVNULL}
        if subprocess.run([sys.executable, "-m", "venv", self.folder / "venv"], **how).returncode:
            self.skipTest("venv is not installed")
        pip = self.folder / "venv/bin/pip"
        run(pip, "install", "--no-index", "--disable-pip-version-check", "--quiet", TOP / "clients/python")
        told = run(self.folder / "venv/bin/python", "-c", "import altctl; print(altctl.__file__)", cwd=self.folder)
        self.assertIn("site-packages", told)
        self.assertEqual((TOP / "clients/python/altctl.py").read_bytes(), Path(told.strip()).read_bytes())


@unittest.skipUnless(is_built(), "the program of these sources is not built: tools/build.sh does it")
@unittest.skipUnless(is_there("dpkg-deb", "cc", "git"), "dpkg-deb, a C compiler or git is not installed")
@unittest.skipUnless(os.geteuid() == 0, "only root can boot a Debian of its own")
@unittest.skipUnless(is_there("systemd-nspawn", "nsenter"), "systemd-nspawn (systemd-container) is not installed")
class RootTests(unittest.TestCase):
    """The package in a small Debian that is booted."""

    @classmethod
    def setUpClass(cls):
        cls.temporary = tempfile.TemporaryDirectory()
        cls.addClassCleanup(cls.temporary.cleanup)
        cls.folder = Path(cls.temporary.name)
        cls.root = cls.folder / "root"
        cls.make_root()
        cls.deb, _ = built(cls.folder / "first")
        shutil.copy(cls.deb, cls.root / "first.deb")
        run("dpkg-deb", "-R", cls.deb, cls.folder / "second")
        control = cls.folder / "second/DEBIAN/control"
        control.write_text(re.sub("(?m)^Version: .*", "Version: 99.0", control.read_text()))
        run("dpkg-deb", "--root-owner-group", "--build", cls.folder / "second", cls.root / "second.deb")
        cls.boot()

    @classmethod
    def make_root(cls):
        if ROOT is not None:
            run("cp", "-a", ROOT, cls.root)
            return
        if not is_there("debootstrap"):
            raise unittest.SkipTest("no ROOT is given, and debootstrap is not installed")
        words = ["debootstrap", "--variant=minbase", f"--include={','.join(IN_ROOT)}", "bookworm", str(cls.root)]
        ran = subprocess.run(words, stdout=subprocess.PIPE, stderr=subprocess.STDOUT, text=True, timeout=900)
        if ran.returncode:
            raise unittest.SkipTest(f"debootstrap made no root: {ran.stdout.strip().splitlines()[-1]}")

    @classmethod
    def boot(cls):
        words = [
            "systemd-nspawn", "--quiet", "--register=no", "--keep-unit", "--private-network", "-D", str(cls.root),
            "--boot",
        ]
        how = {"stdin": subprocess.DEVNULL, "stdout": subprocess.DEVNULL, "stderr": subprocess.DEVNULL}
        cls.machine = subprocess.Popen(words, start_new_session=True, **how)
        cls.addClassCleanup(cls.halt)
        late = time.monotonic() + 120
        while True:
            found = Path(f"/proc/{cls.machine.pid}/task/{cls.machine.pid}/children").read_text().split()
            cls.enter = ["nsenter", "-t", *found[:1], "-m", "-u", "-i", "-n", "-p", "-C", "env", *IN_ROOT_ENV]
            asked = [*cls.enter, "systemctl", "is-active", "--quiet", "multi-user.target"]
            if found and subprocess.run(asked, **how).returncode == 0:
                return
            if cls.machine.poll() is not None or time.monotonic() > late:
                raise unittest.SkipTest("the root cannot be booted here")
            time.sleep(0.5)

    @classmethod
    def halt(cls):
        """All of its processes end with the first one, so that nothing writes there any more."""
        for it in Path(f"/proc/{cls.machine.pid}/task/{cls.machine.pid}/children").read_text().split():
            os.kill(int(it), signal.SIGKILL)
        try:
            cls.machine.wait(60)
        except subprocess.TimeoutExpired:
            cls.machine.kill()
            cls.machine.wait()

    def said(self, *words, input=None, status=0):
        ran = subprocess.run(
            [*self.enter, *words], input=input, stdout=subprocess.PIPE, stderr=subprocess.STDOUT, text=True, timeout=300
        )
        self.assertEqual(status, ran.returncode, ran.stdout)
        return ran.stdout

    def ask(self, who, *lines, status=0):
        """The answers that a user gets at the socket."""
        text = "".join(f"{it}\n" for it in lines)
        return self.said(
            "runuser", "-u", who, "--", "nc", "-N", "-U", "/run/altserve/map.sock", input=text, status=status
        ).splitlines()

    def test_from_the_first_day_to_the_removal(self):
        self.said("dpkg", "--install", "/first.deb")
        self.sessions_of_the_readme()
        self.first_start()
        self.store_in_use()
        self.upgrade()
        self.said("dpkg", "--remove", "zonegrater")
        self.assertFalse((self.root / "usr/bin/altctl").exists())
        self.assertIn("the stores in /var/lib/altserve are kept", self.said("dpkg", "--purge", "zonegrater"))
        self.said("systemctl", "is-active", "altserve@map.service", status=3)
        names = {it.name for it in (self.root / "var/lib/altserve").iterdir()}
        self.assertLessEqual(
            {"map.alt", "map.alt.journal", "map.alt.backups", "map.alt.archives", "map.alt.rules"}, names
        )
        # And installed again it goes on.
        self.said("dpkg", "--install", "/first.deb")
        self.said("systemctl", "start", "altserve@map.socket")
        self.assertEqual(["value c", "value b"], self.ask("anna", "get top 1 3", "get top 1 2"))

    def sessions_of_the_readme(self):
        sessions = InRoot(str(self.root), self.enter)
        text = (TOP / "README.md").read_text()
        blocks = [it[2] for it in documents.BLOCK.finditer(text) if it[1] == "console"]
        for block in blocks:
            sessions.session("README.md in the root", block)
        self.assertEqual((True, 0), (len(blocks) > 0, sessions.differences))

    def first_start(self):
        """What PLANNERS says of a service under systemd."""
        text = (TOP / "docs/PLANNERS.md").read_text()
        [commands] = [it[2] for it in documents.BLOCK.finditer(text) if it[1] == "text" and "systemctl enable" in it[2]]
        for name in "anna", "berta":
            self.said("useradd", "--create-home", name)
        for line in commands.splitlines():
            self.said("sh", "-c", line)
        (self.root / "var/lib/altserve/map.alt.rules").write_text(
            'backup = ["*"]\narchive = ["*"]\n[change]\n"*" = ["anna"]\n'
        )
        self.assertEqual(["ok", "ok"], [it[:2] for it in self.ask("anna", "put top 1 1 a", "backup one")])
        self.assertIn("Permission denied", self.ask("berta", "blocks", status=1)[0])
        processes = self.said(
            "sh",
            "-c",
            "cat /sys/fs/cgroup/systemd/system.slice/system-altserve.slice/*/cgroup.procs || "
            "cat /sys/fs/cgroup/system.slice/system-altserve.slice/*/cgroup.procs",
        ).split()
        owner = self.said("stat", "-c", "%U", *(f"/proc/{it}" for it in processes if it.isdigit()))
        self.assertEqual({"altserve"}, set(owner.split()))
        self.assertIn("altserve: ", self.said("journalctl", "-u", "altserve@map", "--no-pager"))
        self.assertEqual("blocks 4096", self.said("altserve", "status", "/run/altserve/map.sock").splitlines()[0])
        # Rules are read again, and a service that is killed comes back.
        (self.root / "var/lib/altserve/map.alt.rules").write_text('archive = ["*"]\n[change]\n"*" = []\n')
        self.said("systemctl", "reload", "altserve@map")
        self.assertEqual(["error 90 Denied change *"], self.ask("anna", "put top 1 1 a"))
        (self.root / "var/lib/altserve/map.alt.rules").write_text('archive = ["*"]\n[change]\n"*" = ["*"]\n')
        self.said("systemctl", "kill", "--signal=KILL", "--kill-who=main", "altserve@map")
        self.assertEqual(["ok", "ok 1"], [it[:4] for it in self.ask("anna", "put top 1 2 b", "archive old 1")])

    def store_in_use(self):
        """A service whose store somebody else has says so, though its unit shows it no list of locks."""
        file = "/var/lib/altserve/held.alt"
        self.said("runuser", "-u", "altserve", "--", "altctl", "create", file, "64")
        wait = f"flock --no-fork {file} sleep 300 & systemctl start altserve@held.service; kept=$!; count=0; "
        wait += "until journalctl -u altserve@held.service | grep 'in use by' || [ $count = 90 ]; do "
        wait += "sleep 1; count=$((count + 1)); done; kill $kept; systemctl stop altserve@held.service"
        said = self.said("sh", "-c", f"{wait} altserve@held.socket; journalctl --no-pager -u altserve@held.service")
        self.assertIn(f"{file}: another process has it", said)
        self.assertIn("it is in use by a process that is not seen from here", said)
        self.assertNotIn("Traceback", said)

    def upgrade(self):
        """A service that is at work goes on in the new version with all that it had."""
        before = self.said("systemctl", "show", "-P", "MainPID", "altserve@map")
        self.said("dpkg", "--install", "/second.deb")
        self.assertEqual(
            ["ok", "record 1 1 a", "record 1 2 b", "record 1 3 c", "end 3"],
            self.ask("anna", "put top 1 3 c", "list top"),
        )
        self.assertNotEqual(before, self.said("systemctl", "show", "-P", "MainPID", "altserve@map"))
        self.assertIn("entry 2 ", self.ask("anna", "log")[0])


QEMU = ("qemu-aarch64", "-L", "/usr/aarch64-linux-gnu")
# What one processor's program writes, and what the other's then answers.
WRITTEN = ["new north top", "put top 7 1 duct", "put north 7 1 pipe", "put north 7 2 " + 300 * "long", "commit"]
ASKED = ["list top", "list north", "changes top north", "conflicts north", "blocks"]


@unittest.skipUnless(is_there("dpkg-deb", "git", "rt"), "dpkg-deb, git or rt is not installed")
@unittest.skipUnless(is_there("qemu-aarch64"), "qemu-aarch64 (Debian's qemu-user) is not installed")
class Aarch64Tests(unittest.TestCase):
    """The packages for aarch64, whose program runs under qemu."""

    @classmethod
    def setUpClass(cls):
        if not all(
            any(TOP.glob(f"crates/{it}/out/rlib/stamp")) for it in run(TOP / "tools/sources.sh", "crates").split()[:-1]
        ):
            raise unittest.SkipTest("the libraries for aarch64 are not built: tools/build.sh does it")
        cls.temporary = tempfile.TemporaryDirectory()
        cls.addClassCleanup(cls.temporary.cleanup)
        cls.folder = Path(cls.temporary.name)
        words = [str(TOP / "tools/release/package.sh"), "--arch", "aarch64", str(cls.folder / "first")]
        ran = subprocess.run(words, stdout=subprocess.PIPE, stderr=subprocess.PIPE, text=True, timeout=1500)
        if ran.returncode and "is skipped" in ran.stderr:
            raise unittest.SkipTest(ran.stderr.strip())
        if ran.returncode:
            raise AssertionError(ran.stderr)
        cls.deb, cls.archive = map(Path, ran.stdout.split())
        with tarfile.open(cls.archive) as archive:
            archive.extractall(cls.folder / "unpacked")
        (cls.prefix,) = (cls.folder / "unpacked").iterdir()
        (cls.folder / "bin").mkdir()
        cls.program = cls.folder / "bin/altctl"
        cls.program.write_text(f"#!/bin/sh\nexec {' '.join(QEMU)} '{cls.prefix}/bin/altctl' \"$@\"\n")
        cls.program.chmod(0o755)

    def test_the_same_commit_gives_the_same_bytes(self):
        assert_same_bytes(self, (self.deb, self.archive), "--arch", "aarch64")

    def test_both_packages_have_the_files(self):
        def files(folder):
            return {str(it.relative_to(folder)).removesuffix(".gz") for it in folder.rglob("*") if not it.is_dir()}

        run("dpkg-deb", "-x", self.deb, self.folder / "deb")
        self.assertEqual(files(self.prefix), files(self.folder / "deb/usr"))
        self.assertEqual("arm64\n", run("dpkg-deb", "-f", self.deb, "Architecture"))
        python = "lib/python3/dist-packages/altctl.py"
        completion = "share/bash-completion/completions/altctl"
        due = {"bin/altctl", "share/man/man1/altctl.1", completion, "include/altctl.h", "lib/libaltctl.a", python}
        self.assertEqual(set(), due - files(self.prefix))
        for it in ("bin/altctl", "lib/libaltctl.so.0"):
            # The number of the processor in the head of a program: 183 is aarch64.
            self.assertEqual(183, int.from_bytes((self.prefix / it).read_bytes()[18:20], "little"), it)

    def test_the_sessions_of_the_readme_run(self):
        count, differences, _ = documents.run_blocks(TOP / "README.md", str(self.program))
        self.assertEqual((True, 0), (count > 0, differences))

    def test_both_processors_read_and_write_one_file(self):
        programs = {"here": TOP / "altctl", "aarch64": self.program}
        answers, images = [], []
        for first, second in (("here", "aarch64"), ("aarch64", "here")):
            file = self.folder / f"{first}.alt"
            run(programs[first], "create", file, 256)
            lines = "".join(f"{it}\n" for it in WRITTEN)
            self.assertEqual("ok\n" * len(WRITTEN), run(programs[first], "run", file, input=lines))
            lines = "".join(f"{it}\n" for it in ASKED)
            told = [run(programs[it], "run", file, input=lines) for it in (first, second)]
            self.assertEqual(told[0], told[1])
            self.assertIn("7 1 duct", told[0])
            self.assertEqual(*(run(programs[it], "check", file) for it in (first, second)))
            self.assertEqual("ok\nok\n", run(programs[second], "run", file, input="put top 9 9 more\ncommit\n"))
            self.assertEqual("value more\n", run(programs[first], "run", file, input="get top 9 9\n"))
            answers.append(told[0])
            images.append(file.read_bytes())
        self.assertEqual(answers[0], answers[1])
        self.assertEqual(images[0], images[1])

    @unittest.skipUnless(is_there("clang", "ld.lld"), "clang or lld is not installed")
    def test_a_program_in_c_runs(self):
        (self.folder / "c.c").write_text(PROGRAM_IN_C)
        words = ["--target=aarch64-linux-gnu", "-fuse-ld=lld", "-I", self.prefix / "include", "-o", "c", "c.c"]
        run("clang", *words, self.prefix / "lib/libaltctl.a", "-pthread", cwd=self.folder)
        found = {**os.environ, "PATH": f"{self.program.parent}{os.pathsep}{os.environ['PATH']}"}
        self.assertEqual("ok\n", run(*QEMU, self.folder / "c", cwd=self.folder, env=found))


if __name__ == "__main__":
    unittest.main()
