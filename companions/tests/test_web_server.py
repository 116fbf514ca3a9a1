"""The server of the page: what it answers, and requests that are wrong."""
import json
import os
import signal
import time

from .helpers import EXAMPLES, PROGRAM, TOP, read
from .web_helpers import Served, WebTest
from lotos_companion.commands import make_parser
from lotos_companion.commands.web import COMMAND
from lotos_companion.web import presence
from lotos_companion.web.folder import BadName, Folder, IsThere
from lotos_companion.web.guard import MOST_BYTES, POLICY


class Requests(WebTest):
    """Requests, right and wrong, to one session."""

    with_examples = False

    @classmethod
    def setUpClass(cls):
        cls.served = Served(f"{EXAMPLES}/handshake.lotos")
        cls.path = f"/{cls.served.token}/"

    @classmethod
    def tearDownClass(cls):
        cls.served.end()

    def test_the_page_and_its_files(self):
        for name, kind in (("", "text/html"), ("index.html", "text/html"), ("main.js", "text/javascript"), ("page.css", "text/css")):
            status, answer, data = self.served.request("GET", self.path + name)
            self.assertEqual((status, answer.headers.get_content_type()), (200, kind))
            self.assertEqual(answer.headers["Content-Security-Policy"], POLICY)
            self.assertEqual(answer.headers["X-Content-Type-Options"], "nosniff")
            self.assertEqual(answer.headers["Cache-Control"], "no-store")
            self.assertTrue(data)
        self.assertNotIn("unsafe", POLICY)
        self.assertIn("default-src 'none'", POLICY)

    def test_it_listens_on_this_machine_alone(self):
        with open(f"/proc/{self.served.process.pid}/net/tcp", encoding="ascii") as table:
            rows = [line.split() for line in table]
        listening = [it[1] for it in rows[1:] if it[3] == "0A" and it[1].endswith(f":{self.served.port:04X}")]
        self.assertEqual(listening, [f"0100007F:{self.served.port:04X}"])

    def test_the_token(self):
        self.assertGreaterEqual(len(self.served.token), 32)
        token = self.served.token
        for path in ("/", "/index.html", "/main.js", f"/{token}", f"/{token[:-1]}/", f"/{token}x/", f"/{token.swapcase()}/",
                     "/%C3%A9/", f"/x/../{token}/", f"/?{token}/", "http://127.0.0.1/" + token):
            self.assertEqual(self.served.request("GET", path)[0], 403, path)
        self.assertEqual(self.served.request("POST", "/x/call/undo", b"{}", {
            "Origin": f"http://127.0.0.1:{self.served.port}", "Content-Type": "application/json", "Content-Length": "2"})[0], 403)

    def test_the_host(self):
        for host in (None, "localhost", f"localhost:{self.served.port}", "127.0.0.1", "evil.example", f"127.0.0.1:{self.served.port}.x",
                     f"127.0.0.1:{self.served.port + 1}"):
            self.assertEqual(self.served.request("GET", self.path, headers={"Host": host})[0], 421, host)
            self.assertEqual(self.served.post("undo", b"{}", Host=host)[0], 421, host)
        twice = [f"127.0.0.1:{self.served.port}", "evil.example"]
        self.assertEqual(self.served.request("GET", self.path, headers={"Host": twice})[0], 400)

    def test_the_origin(self):
        for origin in ("http://evil.example", "null", "", f"https://127.0.0.1:{self.served.port}", "http://127.0.0.1",
                       f"http://127.0.0.1:{self.served.port}/", f"http://localhost:{self.served.port}"):
            self.assertEqual(self.served.post("undo", b"{}", Origin=origin)[0], 403, origin)
            self.assertEqual(self.served.request("GET", self.path, headers={"Origin": origin})[0], 403, origin)
        self.assertEqual(self.served.post("undo", b"{}", Origin=None)[0], 403)
        for site in ("cross-site", "same-site"):
            first = {"Sec-Fetch-Site": site, "Sec-Fetch-Dest": "document"}
            self.assertEqual(self.served.request("GET", self.path, headers={"Sec-Fetch-Site": site})[0], 403)
            self.assertEqual(self.served.request("GET", self.path + "main.js", headers=first)[0], 403)
            self.assertEqual(self.served.post("undo", b"{}", Sec_Fetch_Site=site, Sec_Fetch_Dest="document")[0], 403)
            self.assertEqual(self.served.request("GET", self.path, headers=first)[0], 200)

    def test_paths(self):
        for path in ("../../etc/passwd", "..%2f..%2fetc/passwd", "%2e%2e/server.py", "static/main.js", "/etc/passwd", "main.js/",
                     "main.js%00", "..\\server.py", "alternating_bit.lotos", "call/open", "./main.js", "__init__.py"):
            self.assertEqual(self.served.request("GET", self.path + path)[0], 404, path)

    def test_bodies(self):
        post = self.served.post
        self.assertEqual(post("undo", b"{}", Content_Length=None)[0], 411)
        self.assertEqual(post("undo", b"{}", Content_Length="-1")[0], 411)
        self.assertEqual(post("undo", b"{}", Content_Length="1e3")[0], 411)
        self.assertEqual(post("undo", b"", Content_Length=str(MOST_BYTES + 1))[0], 413)
        self.assertEqual(post("undo", b"", Content_Length="9" * 30)[0], 413)
        self.assertEqual(post("undo", b"0\r\n\r\n", Content_Length=None, Transfer_Encoding="chunked")[0], 411)
        self.assertEqual(post("undo", b"{}", Content_Length=["2", "2"])[0], 400)
        for kind in ("text/plain", "application/x-www-form-urlencoded", "multipart/form-data", None):
            self.assertEqual(post("undo", b"{}", Content_Type=kind)[0], 415, kind)
        for body in (b"", b"{", b"[]", b"1", b"\xff", b"[" * 100_000, b'{"known": "x"}', b'{"known": -1}', b'{"known": true}',
                     b'{"epoch": 1e9}'):
            self.assertEqual(post("undo", body)[0], 400, body[:20])

    def test_calls_that_are_wrong(self):
        for name in ("", "x", "undo/", "__init__", "_undo", "open/../undo", "Undo"):
            self.assertEqual(self.served.post(name, b"{}")[0], 404, name)
        for name, given in (("step", {"number": "1"}), ("step", {"number": -1}), ("step", {"number": 1, "values": 0}),
                            ("go", {"place": 99}), ("go", {"place": 1.5}), ("walk", {"count": "9"}), ("values", {"number": 9}),
                            ("ask", {"word": "quit", "terms": ""}), ("ask", {"word": "save", "terms": "x"}),
                            ("ask", {"word": "normal", "terms": "0" * 1_100_000}), ("write", {"name": 1, "text": ""}),
                            ("write", {"name": "x.svg", "bytes": "?"}), ("load", {"text": []})):
            self.assertEqual(self.served.post(name, json.dumps(given).encode())[0], 400, (name, given))
        for method in ("PUT", "DELETE", "OPTIONS", "PATCH", "TRACE"):
            self.assertEqual(self.served.request(method, self.path)[0], 501, method)
        self.assertEqual(self.served.call("undo", known=0, epoch=0)["at"], 0)

    def test_a_line_feed_makes_no_second_line(self):
        answer = self.served.call("ask", word="normal", terms="0\nsave stolen\n")
        self.assertTrue(answer["said"][0].startswith("refused 804"), answer)
        answer = self.served.call("step", number=1, values="0\r\nsave stolen", known=0, epoch=0)
        self.assertFalse(answer["taken"])
        self.assertFalse(os.path.exists("stolen"))


class Files(WebTest):
    """What is written, and where."""

    def test_names_and_overwriting(self):
        os.mkdir("out")
        served = self.serve("--folder", "out", "lossy_line.lotos")
        served.call("step", number=1, values="true", known=0, epoch=0)
        for name in ("", ".", "..", "../x.trace", "a/x.trace", "/tmp/x.trace", "..\\x.trace", ".x.trace", "x", "x.lotos", "x.trace\n",
                     "x.trace\0", "x.py", "~/x.trace", "-x.trace", " x.trace", "x" * 300 + ".trace", "con:x.trace", "x.trace/", "$x.svg"):
            answer = served.call("save", name=name) if len(name) <= 200 else {"note": served.post(
                "save", json.dumps({"name": name}).encode())[2].decode()}
            self.assertNotIn("written", answer, name)
        self.assertEqual(os.listdir("out"), [])
        self.assertEqual(served.call("save", name="a b.trace"), {"written": os.path.realpath("out/a b.trace")})
        before = read("out/a b.trace")
        served.call("undo", known=0, epoch=0)
        self.assertEqual(served.call("save", name="a b.trace"), {"is_there": "a b.trace"})
        self.assertEqual(served.call("save", name="a b.trace", over="yes"), {"is_there": "a b.trace"})
        self.assertEqual(read("out/a b.trace"), before)
        self.assertIn("written", served.call("save", name="a b.trace", over=True))
        self.assertEqual(read("out/a b.trace"), "lotos-trace 2 Lossy_Line\n")
        self.assertEqual(os.listdir("out"), ["a b.trace"])

    def test_links_are_not_followed(self):
        os.mkdir("out")
        self.write("precious", "kept")
        os.symlink("../precious", "out/x.trace")
        os.symlink("nowhere", "out/y.trace")
        os.mkdir("out/z.trace")
        folder = Folder("out")
        for name in ("x.trace", "y.trace", "z.trace"):
            with self.assertRaises(BadName):
                folder.write(name, b"", True)
        self.assertEqual(read("precious"), "kept")
        folder.write("new.svg", b"<svg/>", False)
        with self.assertRaises(IsThere):
            folder.write("new.svg", b"", False)

    def test_the_folder(self):
        status, output, said = self.run_companion("lotos-web", "--no-browser", "--folder", "none", "lossy_line.lotos")
        self.assertEqual((status, output, said), (2, "", "lotos-web: none is no folder\n"))


class Ends(WebTest):
    """How a session begins and ends."""

    def test_words_and_specifications_that_are_refused(self):
        for words, status, line in (([], 2, "usage: lotos-web"), (["none.lotos"], 3, "cannot read none.lotos"),
                                    (["bad.lotos"], 1, "refused 301"), (["stop.lotos", "--beside", "bad.lotos"], 1, "refused 301")):
            self.write("bad.lotos", "specification S : noexit behaviour g; stop endspec")
            found, output, said = self.run_companion("lotos-web", "--no-browser", *words)
            self.assertEqual((found, output), (status, ""), words)
            self.assertTrue(said.startswith(line), said)

    def test_the_browser_is_led_by_a_file_for_this_user_alone(self):
        browser = self.write("browser", "#!/bin/sh\nprintf '%s\\n' \"$@\" > words\n")
        os.chmod(browser, 0o755)
        served = Served("lossy_line.lotos", opens=True, BROWSER=f"{browser} %s", DISPLAY=":0")
        self.addCleanup(served.end)
        while not os.path.exists("words") or not read("words").endswith("\n"):
            time.sleep(0.05)
        self.assertNotIn(served.token, read("words"))
        path = read("words").strip()[len("file://"):]
        self.assertIn(f"url={served.address}", read(path))
        self.assertEqual(os.stat(path).st_mode & 0o777, 0o600)
        served.process.terminate()
        served.process.wait(30)
        self.assertFalse(os.path.exists(path))

    def test_a_step_that_is_not_possible_any_more(self):
        served = self.serve("lossy_line.lotos")
        served.call("step", number=1, values="true", known=0, epoch=0)
        served.call("step", number=2, known=0, epoch=0)
        self.write("lossy_line.lotos", read("lossy_line.lotos").replace("passed; get !bit; stop", "passed; stop").replace("[] passed; stop", ""))
        os.kill(_children(served.process.pid)[0], signal.SIGKILL)
        answer = served.call("step", number=1, known=0, epoch=0)
        self.assertIn("and step 2 is not possible any more", answer["note"])
        self.assertEqual((answer["at"], answer["sides"][0]["steps"]), (1, 1))

    def test_a_port_that_is_taken(self):
        served = self.serve("stop.lotos")
        found, _, said = self.run_companion("lotos-web", "--no-browser", "--port", str(served.port), "stop.lotos")
        self.assertEqual(found, 70)
        self.assertIn("no server at port", said)

    def test_it_ends_a_while_after_its_page(self):
        options = make_parser(COMMAND).parse_args([])
        self.assertEqual(options.wait, 60)
        it = presence.Presence(0.3)
        it.enter()
        it.enter()
        it.leave()
        self.assertFalse(it.has_ended)
        begin = time.monotonic()
        it.leave()
        it.wait()
        self.assertGreaterEqual(time.monotonic() - begin, 0.29)
        self.assertTrue(it.has_ended)

    def test_a_signal_ends_the_program_too(self):
        served = self.serve("lossy_line.lotos")
        children = _children(served.process.pid)
        self.assertTrue(children)
        served.process.send_signal(signal.SIGTERM)
        self.assertEqual(served.process.wait(20), 128 + signal.SIGTERM)
        self.assertEqual([it for it in children if os.path.exists(f"/proc/{it}")], [])

    def test_a_program_that_is_ended_begins_again_with_its_steps(self):
        served = self.serve("lossy_line.lotos")
        served.call("step", number=1, values="true", known=0, epoch=0)
        served.call("step", number=2, known=0, epoch=0)
        os.kill(_children(served.process.pid)[0], signal.SIGKILL)
        answer = served.call("step", number=1, known=0, epoch=0)
        self.assertEqual(answer["note"], "the program ended by the signal 9. It was begun again with its 2 steps.")
        self.assertEqual((answer["at"], answer["sides"][0]["head"]), (2, "events 1"))
        self.assertEqual(served.call("step", number=1, known=0, epoch=0)["said"], ["did get !true"])

    def test_want_of_memory_is_said(self):
        text = ('#!/usr/bin/env python3\nimport subprocess, sys\n'
                f'it = subprocess.Popen([{PROGRAM!r}, *sys.argv[1:]], stdin=subprocess.PIPE)\n'
                'for line in sys.stdin.buffer:\n'
                '    if line.startswith(b"normal"):\n        it.kill()\n        sys.exit(6)\n'
                '    it.stdin.write(line)\n    it.stdin.flush()\n')
        served = self.serve("lossy_line.lotos", program=self.stand_in(text))
        served.call("step", number=1, values="true", known=0, epoch=0)
        answer = served.call("ask", word="normal", terms="true", known=0, epoch=0)
        self.assertEqual(answer["note"], "memory ran out. It was begun again with its 1 step.")
        self.assertEqual(answer["at"], 1)

    def test_files_that_are_refused_now(self):
        self.write("s.lotos", read(f"{TOP}/examples/lossy_line.lotos"))
        served = self.serve("s.lotos")
        served.call("step", number=1, values="true", known=0, epoch=0)
        self.write("s.lotos", "specification S : noexit behaviour g; stop endspec")
        answer = served.call("reload", known=0, epoch=0)
        self.assertEqual(answer["said"], ["refused 301 UnknownGate at s.lotos:1:36 g"])
        self.assertEqual((answer["note"], answer["at"]), ("the session stays as it was", 1))
        os.kill(_children(served.process.pid)[0], signal.SIGKILL)
        answer = served.call("step", number=1, known=0, epoch=0)
        self.assertIn("could not be begun again", answer["note"])
        self.write("s.lotos", read(f"{TOP}/examples/lossy_line.lotos"))
        answer = served.call("reload", known=0, epoch=0)
        self.assertEqual(answer["note"], "read anew; all 1 steps taken again")


def _children(process):
    """The processes that a process has begun."""
    found = []
    for name in os.listdir(f"/proc/{process}/task"):
        with open(f"/proc/{process}/task/{name}/children", encoding="ascii") as file:
            found += [int(it) for it in file.read().split()]
    return found
