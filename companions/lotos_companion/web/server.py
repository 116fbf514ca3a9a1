"""The server: files of the page, calls that the page makes, and a stream that tells whether the page is open."""
from __future__ import annotations

import json
import os
import select
import sys
from http.server import BaseHTTPRequestHandler, ThreadingHTTPServer
from typing import Any, Callable, Dict, Mapping, Tuple

from .guard import HEADERS, Guard, Refused
from .presence import Presence

STATIC = os.path.join(os.path.dirname(os.path.realpath(__file__)), "static")
TYPES = {".html": "text/html; charset=utf-8", ".js": "text/javascript; charset=utf-8", ".css": "text/css; charset=utf-8",
         ".svg": "image/svg+xml"}
# How often the stream looks whether the page is still there.
LOOK = 1.0
Calls = Callable[[str, Mapping[str, object]], Dict[str, object]]


def static_files() -> Dict[str, Tuple[str, bytes]]:
    """The files of the page by their names, each with its type: no other file is ever sent."""
    files = {}
    for name in sorted(os.listdir(STATIC)):
        kind = TYPES.get(os.path.splitext(name)[1])
        if kind:
            with open(os.path.join(STATIC, name), "rb") as file:
                files[name] = (kind, file.read())
    files[""] = files["index.html"]
    return files


class PageServer(ThreadingHTTPServer):
    """A server on 127.0.0.1, and what its requests are answered by."""

    daemon_threads = True

    def __init__(self, port: int, token: str, calls: Calls, presence: Presence):
        super().__init__(("127.0.0.1", port), Requests)
        self.guard = Guard(self.server_address[1], token)
        self.calls = calls
        self.presence = presence
        self.files = static_files()

    def handle_error(self, request: Any, client_address: Any) -> None:
        """A connection that broke is no matter; anything else is told on the error stream."""
        if not isinstance(sys.exc_info()[1], OSError):
            super().handle_error(request, client_address)


class Requests(BaseHTTPRequestHandler):
    """The requests of one connection."""

    server: PageServer
    protocol_version = "HTTP/1.1"
    server_version = "lotos-web"
    sys_version = ""
    timeout = 75

    def log_message(self, format: str, *args: object) -> None:
        """Nothing is written about requests."""

    def do_GET(self) -> None:
        """A file of the page, or the stream."""
        try:
            name = self.server.guard.path(self.path, self._headers(), False)
            if name == "open":
                self._stream()
                return
            if name not in self.server.files:
                raise Refused(404, "no such file")
            kind, data = self.server.files[name]
            self._send(200, kind, data)
        except Refused as refused:
            self._refuse(refused)

    def do_POST(self) -> None:
        """A call of the page."""
        try:
            name = self.server.guard.path(self.path, self._headers(), True)
            call, _, word = name.partition("/")
            if call != "call":
                raise Refused(404, "no such call")
            answer = self.server.calls(word, self._arguments())
            self._send(200, "application/json", json.dumps(answer, separators=(",", ":")).encode())
        except Refused as refused:
            self._refuse(refused)

    def _headers(self) -> Dict[str, str]:
        """The headers by their names in small letters. `Refused` where one stands twice."""
        names = [it.lower() for it in self.headers.keys()]
        if len(set(names)) < len(names):
            raise Refused(400, "a header stands twice")
        return dict(zip(names, self.headers.values()))

    def _arguments(self) -> Mapping[str, object]:
        """The arguments of a call from its body."""
        data = self.rfile.read(self.server.guard.length(self._headers()))
        try:
            given = json.loads(data)
        except (ValueError, RecursionError):
            raise Refused(400, "the body is no JSON") from None
        if not isinstance(given, dict):
            raise Refused(400, "the body is no object")
        return given

    def _send(self, status: int, kind: str, data: bytes) -> None:
        self._head(status, kind)
        self.send_header("Content-Length", str(len(data)))
        self.end_headers()
        self.wfile.write(data)

    def _head(self, status: int, kind: str) -> None:
        self.send_response(status)
        self.send_header("Content-Type", kind)
        for name, value in HEADERS.items():
            self.send_header(name, value)

    def _refuse(self, refused: Refused) -> None:
        """Says why, and ends the connection, since a body may be left on it."""
        self.close_connection = True
        self._head(refused.status, "text/plain; charset=utf-8")
        self.send_header("Connection", "close")
        self.send_header("Content-Length", str(len(refused.why) + 1))
        self.end_headers()
        self.wfile.write(f"{refused.why}\n".encode())

    def _stream(self) -> None:
        """Keeps the connection as long as the page does."""
        self.close_connection = True
        self._head(200, "text/event-stream")
        self.end_headers()
        presence = self.server.presence
        presence.enter()
        try:
            self.wfile.write(b"retry: 1000\n\n")
            while not presence.has_ended:
                ready, _, _ = select.select([self.connection], [], [], LOOK)
                if ready and not self.connection.recv(1024):
                    return
                self.wfile.write(b":\n\n")
        except OSError:
            pass
        finally:
            presence.leave()
