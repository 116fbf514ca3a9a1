"""An editor's side of the language server, for its tests."""
import json
import os
import queue
import subprocess
import threading
import time

from .helpers import COMPANIONS, PROGRAM


class Client:
    """A server that was started and initialised; it is asked as an editor does."""

    def __init__(self, folder, program=PROGRAM, words=None, encodings=("utf-8",)):
        command = [os.path.join(COMPANIONS, "lotos-language-server"), "--program", program]
        self._process = subprocess.Popen(command, stdin=subprocess.PIPE, stdout=subprocess.PIPE, stderr=subprocess.PIPE, cwd=folder)
        self._folder = folder
        self._number = 0
        self._answers = {}
        self.diagnostics = queue.Queue()
        self.said = []
        threading.Thread(target=self._read, daemon=True).start()
        self._errors = []
        threading.Thread(target=lambda: self._errors.extend(self._process.stderr), daemon=True).start()
        self.capabilities = self.ask("initialize", {
            "processId": None, "rootUri": None, "initializationOptions": {"words": words or {}},
            "capabilities": {"general": {"positionEncodings": list(encodings)}}})["capabilities"]
        self.tell("initialized", {})

    def uri(self, name):
        """The address of a file in the folder."""
        return "file://" + os.path.join(self._folder, name)

    def ask(self, method, params):
        """The result of a request."""
        answer = self.ask_raw(method, params)
        if "error" in answer:
            raise AssertionError(f"{method}: {answer['error']}")
        return answer["result"]

    def ask_raw(self, method, params):
        """The whole answer to a request."""
        self._number += 1
        answer = self._answers[self._number] = queue.Queue()
        self.send({"id": self._number, "method": method, "params": params})
        return answer.get(timeout=60)

    def tell(self, method, params):
        """Says what wants no answer."""
        self.send({"method": method, "params": params})

    def send(self, message):
        """Sends a message."""
        self.send_bytes(json.dumps({"jsonrpc": "2.0", **message}).encode())

    def send_bytes(self, body):
        """Sends what may be no message, in its frame."""
        self._process.stdin.write(b"Content-Length: %d\r\n\r\n" % len(body) + body)
        self._process.stdin.flush()

    def open(self, name, text, version=1):
        """Opens a text."""
        self.tell("textDocument/didOpen", {"textDocument": {"uri": self.uri(name), "languageId": "lotos", "version": version,
                                                            "text": text}})

    def change(self, name, version, *changes):
        """Changes a text."""
        self.tell("textDocument/didChange", {"textDocument": {"uri": self.uri(name), "version": version},
                                             "contentChanges": list(changes)})

    def at(self, method, name, line, character, **more):
        """What is asked at a place."""
        return self.ask(f"textDocument/{method}", {"textDocument": {"uri": self.uri(name)},
                                                   "position": {"line": line, "character": character}, **more})

    def shown(self, name, version, seconds=60):
        """The diagnostics of a version of a text. They come twice: with the answer, and once all was looked for that may help."""
        found, end = [], time.time() + seconds
        while len(found) < 2:
            params = self.diagnostics.get(timeout=max(end - time.time(), 0))
            if params["uri"] == self.uri(name) and params.get("version") == version:
                found.append(params["diagnostics"])
        return found[-1]

    def is_alive(self):
        """Whether the server runs."""
        return self._process.poll() is None

    @property
    def errors(self):
        """What the server wrote to its error stream."""
        return b"".join(self._errors).decode()

    def end(self):
        """Ends the server as an editor does: its status."""
        if self.is_alive():
            self.ask("shutdown", None)
            self.tell("exit", None)
        return self._process.wait(30)

    def kill(self):
        """Ends the server at once."""
        self._process.kill()
        self._process.wait()
        for stream in (self._process.stdin, self._process.stdout, self._process.stderr):
            stream.close()

    def _read(self):
        while True:
            length = None
            for line in iter(self._process.stdout.readline, b"\r\n"):
                if not line:
                    return
                length = int(line.partition(b":")[2])
            message = json.loads(self._process.stdout.read(length))
            if "method" not in message:
                if message["id"] in self._answers:
                    self._answers[message["id"]].put(message)
                else:
                    self.said.append(message)
            elif message["method"] == "textDocument/publishDiagnostics":
                self.diagnostics.put(message["params"])
            else:
                self.said.append(message)
