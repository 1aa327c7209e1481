"""Tests of the desk: who gets in, and to what."""
import http.server
import json
import os
import re
import signal
import subprocess
import sys
import threading
import time
from pathlib import Path

from desk_tests.support import ALTCTL, DESK, LONGEST_WAIT, AskingTest


class DoorTests(AskingTest):
    """Who gets in, and to what."""

    def test_the_token_lets_in(self):
        status, text = self.ask("/api/state", self.token)
        self.assertEqual((200, ["top", "north", "south"]), (status, [it["name"] for it in json.loads(text)["tree"]]))
        self.assertIn("default-src 'none'", self.headers["Content-Security-Policy"])

    def test_without_it_nothing_is_told_or_done(self):
        for token in (None, "", "x", self.token[:-1], self.token + "x", self.token.swapcase(), "%C3%A4", "\u00e4"):
            for path in ("/api/state", "/api/history?table=7&number=1", "/api/nothing", "/nothing"):
                self.assertEqual(403, self.ask(path, token)[0], (path, token))
                self.assertNotIn("north", self.ask(path, token)[1])
        self.assertEqual(403, self.ask(f"/api/state?token={self.token}")[0])
        # A cookie would be sent to each port of this machine, so none lets in.
        self.assertEqual(403, self.ask("/api/state", Cookie=f"altdesk-{self.port}={self.token}")[0])
        self.assertEqual(403, self.ask("/api/batch", "x", b'{"do":"drop","at":"north","seen":9}')[0])
        self.assertCountEqual(["top", "north", "south", ".service"], [it.name for it in self.store().alternatives()])

    def test_the_page_itself_has_no_secret(self):
        for path in ("/", "/desk.css", "/leaflet.js", f"/?token={self.token}"):
            status, text = self.ask(path)
            self.assertEqual((200, False, None), (status, self.token in text, self.headers["Set-Cookie"]), path)

    def test_the_token_stands_in_no_words_and_no_file_that_others_may_read(self):
        # A browser that leaves what it was given, and who may read it.
        seen = Path(self.folder, "seen")
        browser = Path(self.folder, "browser")
        browser.write_text(
            f"#!/bin/sh\nfile=${{1#file://}}\nstat -c %a $file $(dirname $file) >{seen}.part\n"
            f"cat $file >>{seen}.part; echo >>{seen}.part\n"
            f"echo $1 >>{seen}.part; mv {seen}.part {seen}; sleep 60\n"
        )
        browser.chmod(0o755)
        words = [sys.executable, str(DESK / "altdesk"), "--program", ALTCTL, "--open", self.socket]
        program, said = self.launch(words, "#token=", env={**os.environ, "BROWSER": f"{browser} %s"})
        token = re.search(r"#token=(\S+)", said)[1]
        late = time.monotonic() + LONGEST_WAIT
        while not seen.exists():
            self.assertLess(time.monotonic(), late)
            time.sleep(0.05)
        *modes, page, address = seen.read_text().split("\n")[:-1]
        self.assertEqual((["600", "700"], True, False), (modes, token in page, token in address))
        told = [
            Path(it, "cmdline").read_bytes()
            for it in map(str, Path("/proc").glob("[0-9]*"))
            if os.access(f"{it}/cmdline", os.R_OK)
        ]
        self.assertEqual([], [it for it in told if token.encode() in it])
        program.terminate()
        program.wait()
        self.assertFalse(os.path.exists(address.replace("file://", "")))

    def test_pages_from_elsewhere_get_nothing(self):
        drop = json.dumps({"do": "drop", "at": "north", "seen": 9, "epoch": self.epoch()}).encode()
        self.assertEqual(403, self.ask("/api/state", self.token, Host="evil.example")[0])
        self.assertEqual(403, self.ask("/api/state", self.token, Host="127.0.0.1.evil.example:80")[0])
        self.assertEqual(403, self.ask("/api/state", self.token, Host="")[0])
        self.assertEqual(200, self.ask("/api/state", self.token, Host="localhost:9000")[0])
        self.assertEqual(403, self.ask("/api/batch", self.token, drop, Origin="http://evil.example")[0])
        self.assertEqual(403, self.ask("/api/batch", self.token, drop, Origin="null")[0])
        self.assertEqual(403, self.ask("/api/batch", self.token, drop, Origin="http://127.0.0.1:1")[0])
        self.assertEqual(415, self.ask("/api/batch", self.token, drop, Content_Type="text/plain")[0])
        self.assertEqual(3 + 1, len(list(self.store().alternatives())))
        self.assertEqual(200, self.ask("/api/batch", self.token, drop, Origin=f"http://127.0.0.1:{self.port}")[0])
        self.assertEqual(2 + 1, len(list(self.store().alternatives())))

    def test_no_other_file_is_served(self):
        paths = (
            "/../altdesk", "/%2e%2e/altdesk", "/page/../altdesk", "//etc/passwd", "/desk.js/../../altdesk",
            "/..%2faltdesk",
        )
        for path in (*paths, "/altdesk"):
            self.assertEqual(404, self.ask(path, self.token)[0], path)

    def test_what_is_no_question_is_refused(self):
        for path in (
            "feature?at=north&table=7&number=x",
            "design",
            "window?at=north&box=1,2",
            "window?at=north&box=a,b,c,d",
        ):
            self.assertEqual(400, self.ask(f"/api/{path}", self.token)[0], path)
        for path in ("design?at=nowhere", "feature?at=north&table=7&number=99"):
            self.assertEqual(409, self.ask(f"/api/{path}", self.token)[0], path)
        for body in (b"", b"{", b"[]", b"{}", b'{"do":"x","at":"north"}', b'{"do":"new","at":"north"}'):
            self.assertEqual(400, self.ask("/api/batch", self.token, body)[0], body)
        bad = b'{"do":"new","at":"north","name":"a b"}'
        self.assertIn(self.ask("/api/batch", self.token, bad)[0], (400, 409))
        self.assertEqual([], list(self.store().log()))

    def test_the_service_may_go_and_come_again(self):
        self.first.terminate()
        self.first.wait()
        service = self.serve()
        _, url = self.desk(self.socket)
        self.port, self.token = re.search(r":(\d+)/#token=(\S+)", url).groups()
        self.assertEqual(200, self.ask("/api/state", self.token)[0])
        for sent in (signal.SIGKILL, signal.SIGTERM):
            service.send_signal(sent)
            service.wait()
            status, text = self.ask("/api/state", self.token)
            self.assertEqual((503, True), (status, "The service is not there." in json.loads(text)["fault"]))
            service = self.serve()
            self.assertEqual(200, self.ask("/api/state", self.token)[0])

    def test_what_cannot_be_served_is_told(self):
        Path(self.folder, "text").write_text("no store")
        wrong = [(["none"], "No such file"), (["text"], "the service could not be started")]
        wrong += [(["map.alt", "--port", self.port], "in use")]
        for words, due in wrong:
            words = [sys.executable, str(DESK / "altdesk"), "--program", ALTCTL, *words]
            ran = subprocess.run(words, cwd=self.folder, capture_output=True, text=True, timeout=60)
            self.assertEqual((1, True), (ran.returncode, due in ran.stderr), ran.stderr)

    def test_a_browser_with_a_wrong_token_sees_nothing(self):
        browser = self.browser()
        browser.driver.get(f"http://127.0.0.1:{self.port}/#token=wrong")
        browser.says("Open the address that altdesk has printed: it has the token.")
        self.assertEqual([], browser.all("#tree tr"))

    def test_another_port_is_not_told_the_token(self):
        """A page of another port, which the browser holds for the same site, gets neither cookie nor header."""
        came = []

        class Other(http.server.BaseHTTPRequestHandler):
            def do_GET(self):
                came.append(str(self.headers))
                self.send_response(200)
                self.end_headers()
                self.wfile.write(b"<!doctype html><title>other</title>")

            def log_message(self, *_):
                pass

        with http.server.HTTPServer(("127.0.0.1", 0), Other) as server:
            threading.Thread(target=server.serve_forever, daemon=True).start()
            browser = self.browser()
            browser.open(f"http://127.0.0.1:{self.port}/#token={self.token}")
            self.assertEqual("", browser.run("return document.cookie"))
            browser.driver.get(f"http://127.0.0.1:{server.server_port}/")
            browser.until(lambda: browser.driver.title == "other")
            self.assertEqual(0, browser.run("return sessionStorage.length"))
            ask = (
                "return fetch(arguments[0], { headers: { 'X-Desk-Token': 'x' } })"
                ".then(() => 'answered', () => 'refused')"
            )
            self.assertEqual("refused", browser.run(ask, f"http://127.0.0.1:{self.port}/api/state"))
            server.shutdown()
        self.assertTrue(came)
        self.assertNotIn(self.token, "".join(came))
