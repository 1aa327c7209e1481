"""Tests of the desk: one for many, behind a web server that says who they are."""
import contextlib
import http.client
import http.server
import json
import os
import pwd
import socket
import stat
import subprocess
import sys
import threading
import time
from pathlib import Path

from desk_tests.support import ALTCTL, DESK, LONGEST_WAIT, DeskTest

ME = pwd.getpwuid(os.geteuid()).pw_name
RULES = f"""act = ["{ME}"]
[change]
"*" = ["anna", "{ME}"]
south = ["berta"]
".designs" = ["*"]
"""


class UnixConnection(http.client.HTTPConnection):
    """A connection of HTTP to a socket."""

    def __init__(self, path):
        super().__init__("localhost", timeout=60)
        self.path = path

    def connect(self):
        self.sock = socket.socket(socket.AF_UNIX)
        self.sock.connect(self.path)


class WebServer(http.server.ThreadingHTTPServer):
    """A web server of a person: it passes on what is below /desk/, with a name of its own making."""

    daemon_threads = True

    def __init__(self, path, name):
        self.path, self.name = path, name
        super().__init__(("127.0.0.1", 0), Passing)
        threading.Thread(target=self.serve_forever, daemon=True).start()

    def url(self, rest=""):
        return f"http://127.0.0.1:{self.server_port}/desk/{rest}"


class Passing(http.server.BaseHTTPRequestHandler):
    protocol_version = "HTTP/1.1"

    def pass_on(self):
        body = self.rfile.read(int(self.headers.get("Content-Length", 0)))
        headers = {
            name: it
            for name, it in self.headers.items()
            if name.lower() not in ("x-desk-person", "connection", "accept-encoding")
        }
        with contextlib.closing(UnixConnection(self.server.path)) as there, contextlib.suppress(
            OSError
        ):  # The desk has ended.
            there.request(
                self.command, self.path.removeprefix("/desk"), body, {**headers, "X-Desk-Person": self.server.name}
            )
            answer = there.getresponse()
            text = answer.read()
            self.send_response(answer.status)
            for name in ("Content-Type", "Content-Security-Policy"):
                self.send_header(name, answer.headers[name])
            self.send_header("Content-Length", str(len(text)))
            self.end_headers()
            self.wfile.write(text)

    do_GET = do_POST = pass_on

    def log_message(self, *_):
        pass


class BehindTests(DeskTest):
    def setUp(self):
        super().setUp()
        Path(f"{self.file}.rules").write_text(RULES)
        self.path = os.path.join(self.folder, "desk.sock")
        words = [sys.executable, str(DESK / "altdesk"), "--program", ALTCTL, "--behind", self.path, self.file]
        self.started, _ = self.launch(words, "altdesk: behind a web server, at ")

    def ask(self, path, *names, body=None, **headers):
        """The status and the text of an answer to a request that the web server passes on."""
        given = {
            "Host": "desk.example",
            "X-Desk-Token": "behind",
            **{it.replace("_", "-"): text for it, text in headers.items()},
        }
        with contextlib.closing(UnixConnection(self.path)) as there:
            there.putrequest("GET" if body is None else "POST", path, skip_host=True)
            if body is not None:
                body = json.dumps(body).encode()
                given.update({"Content-Type": "application/json", "Content-Length": str(len(body))})
            for name, value in [*given.items(), *(("X-Desk-Person", it) for it in names)]:
                if value is not None:
                    there.putheader(name, value)
            there.endheaders(body)
            answer = there.getresponse()
            return answer.status, answer.read().decode()

    def do(self, who, **it):
        state = json.loads(self.ask("/api/state", who)[1])
        return self.ask("/api/batch", who, body={"at": "north", "epoch": state["epoch"], "seen": state["batch"], **it})

    def test_who_gets_in(self):
        self.assertEqual(0o600, stat.S_IMODE(os.stat(self.path).st_mode))
        several = ("anna", "berta")
        for names in ((), ("",), several, ("@north",), ("1000",), (".service",), ("*",), ("a b",), ("x" * 65,)):
            for path in ("/", "/api/state", "/desk.js"):
                self.assertEqual((403, "The web server has not said who you are."), self.ask(path, *names), names)
        good = [{}, {"Origin": "https://desk.example"}, {"Sec_Fetch_Site": "same-origin"}]
        bad = [
            {"Origin": "https://elsewhere.example"},
            {"Origin": "null"},
            {"Sec_Fetch_Site": "cross-site"},
            {"X_Desk_Token": None},
        ]
        for due, some in ((200, good), (403, bad)):
            for headers in some:
                self.assertEqual(due, self.ask("/api/state", "anna", **headers)[0], headers)
        self.assertIn('class="behind"', self.ask("/", "anna", X_Desk_Token=None)[1])
        self.assertEqual(
            (404, 200), (self.ask("/api/office", "anna", body={"do": "pull"})[0], self.ask("/api/state", "anna")[0])
        )

    def test_the_service_is_told_for_whom_the_desk_acts(self):
        self.assertEqual(
            ["anna", "berta"], [json.loads(self.ask("/api/state", it)[1])["planner"] for it in ("anna", "berta")]
        )
        feature = json.loads(self.ask("/api/feature?at=north&table=7&number=5", "anna")[1])["now"]
        edit = {"do": "change", "features": [{"table": 7, "number": "5", "before": feature, "values": {"dn": "125"}}]}
        status, said = self.do("berta", **edit)
        self.assertEqual((409, "you may not do that here"), (status, json.loads(said)["fault"]))
        self.assertEqual(200, self.do("anna", **edit)[0])
        # Each has steps of their own to undo.
        steps = [json.loads(self.ask("/api/state", it)[1])["steps"]["undo"] for it in ("anna", "berta")]
        self.assertEqual([{"north": "changed ducts 5"}, {}], steps)
        self.assertEqual(409, self.do("berta", do="undo")[0])
        self.assertEqual(200, self.do("berta", at="south", do="describe", title="Station road")[0])
        self.assertEqual(200, self.do("anna", do="new", name="west")[0])
        found = [(it.planner, *it.line.split()[:2]) for it in self.store().log()]
        self.assertEqual(
            [
                ("anna", "put", "north"),
                ("berta", "new", ".designs"),
                ("berta", "put", ".designs"),
                ("anna", "new", "west"),
            ],
            found,
        )

    def test_the_service_may_end_and_come_again(self):
        self.assertEqual(200, self.do("anna", do="new", name="west")[0])
        children = Path(f"/proc/{self.started.pid}/task/{self.started.pid}/children").read_text().split()
        [service] = [it for it in children if b"altserve" in Path(f"/proc/{it}/cmdline").read_bytes()]
        os.kill(int(service), 15)
        with contextlib.suppress(ValueError, KeyError):
            while True:
                self.do("anna", do="new", name="east")
        self.serve()
        # A connection that the old service has still accepted is told to be gone once.
        late = time.monotonic() + LONGEST_WAIT
        while self.ask("/api/state", "anna")[0] != 200:
            self.assertLess(time.monotonic(), late)
        self.assertEqual(200, self.do("anna", do="new", name="far")[0])

    def test_two_people_in_two_browsers(self):
        servers = [WebServer(self.path, it) for it in ("anna", "berta")]
        for it in servers:
            self.addCleanup(it.server_close)
            self.addCleanup(it.shutdown)
        anna, berta = self.browser(), self.browser()
        for browser, server in zip((anna, berta), servers):
            browser.open(server.url("#design=north"))
        self.assertEqual(["as anna", "as berta"], [it.text("#planner") for it in (anna, berta)])
        anna.edit(5, dn=125)
        anna.confirm()
        anna.says("Changed ducts 5.")
        berta.says("anna: edited north", "#news")
        berta.edit(6, dn=125)
        berta.confirm()
        berta.says("you may not do that here")
        berta.choose_design("south")
        berta.edit(6, dn=160)
        berta.confirm()
        berta.says("Changed ducts 6.")
        self.assertEqual(
            [True, True],
            [it.driver.current_url.startswith(server.url("#")) for it, server in zip((anna, berta), servers)],
        )
        store = self.store()
        self.assertEqual(
            [("anna", "north"), ("berta", "south")], [(it.planner, it.line.split()[1]) for it in store.log()]
        )
        self.assertEqual([[], []], [anna.faults(), berta.faults()])


class NotBehindTests(DeskTest):
    def test_a_desk_that_may_not_act_for_others_says_so(self):
        Path(f"{self.file}.rules").write_text('[change]\n"*" = ["*"]\n')
        words = [sys.executable, str(DESK / "altdesk"), "--program", ALTCTL, "--behind", "desk.sock", "map.alt"]
        ran = subprocess.run(words, cwd=self.folder, capture_output=True, text=True, timeout=60)
        self.assertEqual((1, True), (ran.returncode, "no right `act`" in ran.stderr), ran.stderr)
        self.assertFalse(os.path.exists(f"{self.file}.sock"))

    def test_at_an_address_of_this_machine_the_header_says_nothing(self):
        port, token = self.desk()[1].split(":")[2].split("/#token=")
        with contextlib.closing(http.client.HTTPConnection("127.0.0.1", int(port))) as there:
            headers = {"X-Desk-Person": "anna", "X-Desk-Token": token, "Content-Type": "application/json"}
            there.request("GET", "/api/state", None, headers)
            state = json.loads(there.getresponse().read())
            there.request(
                "POST",
                "/api/batch",
                json.dumps({"at": "top", "do": "new", "name": "west", "epoch": state["epoch"], "seen": 0}),
                headers,
            )
            self.assertEqual(200, there.getresponse().status)
        self.assertEqual((ME, [ME]), (state["planner"], [it.planner for it in self.store().log()]))
