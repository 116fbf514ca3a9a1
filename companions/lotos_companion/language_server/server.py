"""The language server: it follows the texts of an editor, answers what the editor asks, and shows what the program says."""
from __future__ import annotations

import os
import sys
import traceback
from threading import Lock
from typing import Any, Callable, Dict, List, Mapping, Optional, Sequence
from urllib.parse import quote

from ..checking.report import Report
from ..version import VERSION
from . import answers
from .diagnostics import Checks, diagnostics, quick_fixes
from .documents import Document, path_of
from .layout import laid_out
from .messages import (INTERNAL_ERROR, INVALID_PARAMS, INVALID_REQUEST, METHOD_NOT_FOUND, NOT_INITIALISED, PARSE_ERROR, Broken,
                       Channel, Message)
from .reading import Reader
from .things import Thing

Json = Dict[str, Any]
INCREMENTAL = 2
# The kinds of messages to the editor's user.
ERROR_MESSAGE = 1


class Server:
    """A server on one channel."""

    def __init__(self, channel: Channel, program: str):
        self._channel = channel
        self._program = program
        self._documents: Dict[str, Document] = {}
        self._reports: Dict[str, Report] = {}
        self._lock = Lock()
        self._encoding = "utf-16"
        self._words: Dict[str, Sequence[str]] = {}
        self._is_ready = self._is_shut = False
        self._reader = Reader(self._open_text)
        self._checks: Optional[Checks] = None
        self._requests: Mapping[str, Callable[[Json], Any]] = {
            "shutdown": self._shut, "textDocument/hover": self._hover, "textDocument/definition": self._definition,
            "textDocument/references": self._references, "textDocument/documentSymbol": self._symbols,
            "textDocument/completion": self._completion, "textDocument/formatting": self._formatting,
            "textDocument/codeAction": self._code_actions}
        self._notices: Mapping[str, Callable[[Json], None]] = {
            "textDocument/didOpen": self._opened, "textDocument/didChange": self._changed, "textDocument/didSave": self._saved,
            "textDocument/didClose": self._closed, "workspace/didChangeConfiguration": self._configured}

    def run(self) -> int:
        """Serves to the end: the status, 0 where the editor shut the server before."""
        try:
            while True:
                try:
                    message = self._channel.read()
                except Broken as fault:
                    self._channel.refuse(None, PARSE_ERROR, str(fault))
                    if fault.is_over:
                        return 1
                    continue
                if message is None or message.get("method") == "exit":
                    return 0 if self._is_shut else 1
                self._serve(message)
        finally:
            if self._checks:
                self._checks.end()

    def _serve(self, message: Message) -> None:
        """Serves one message. A fault of the server's own is told, and ends nothing."""
        method, identity, params = message.get("method"), message.get("id"), message.get("params") or {}
        is_request = "id" in message
        if not isinstance(method, str):
            if is_request and "result" not in message and "error" not in message:
                self._channel.refuse(identity, INVALID_REQUEST, "a request without a method")
            return
        try:
            if is_request:
                self._answer(method, identity, params)
            elif self._is_ready and method in self._notices:
                self._notices[method](params)
        except (KeyError, TypeError, ValueError, IndexError, AttributeError) as fault:
            if is_request:
                self._channel.refuse(identity, INVALID_PARAMS, f"{method}: {type(fault).__name__}: {fault}")
            self._note()
        except Exception as fault:  # pylint: disable=broad-except  (an editor's server goes on)
            if is_request:
                self._channel.refuse(identity, INTERNAL_ERROR, f"{method}: {type(fault).__name__}: {fault}")
            self._note()

    def _answer(self, method: str, identity: object, params: Json) -> None:
        if method == "initialize":
            self._channel.answer(identity, self._initialise(params))
        elif not self._is_ready:
            self._channel.refuse(identity, NOT_INITIALISED, "the server is not initialised")
        elif self._is_shut:
            self._channel.refuse(identity, INVALID_REQUEST, "the server is shut")
        elif method in self._requests:
            self._channel.answer(identity, self._requests[method](params))
        else:
            self._channel.refuse(identity, METHOD_NOT_FOUND, f"there is no {method}")

    def _note(self) -> None:
        """Writes a fault of the server to the error stream."""
        traceback.print_exc(file=sys.stderr)

    # ---- Begin and end ----

    def _initialise(self, params: Json) -> Json:
        encodings = params.get("capabilities", {}).get("general", {}).get("positionEncodings") or ["utf-16"]
        self._encoding = "utf-8" if "utf-8" in encodings else "utf-16"
        self._configure(params.get("initializationOptions") or {})
        if not self._checks:
            self._checks = Checks(self._program, self._words, self._current, self._texts, self._say, self._failed)
        self._is_ready = True
        return {
            "capabilities": {
                "positionEncoding": self._encoding,
                "textDocumentSync": {"openClose": True, "change": INCREMENTAL, "save": True},
                "hoverProvider": True, "definitionProvider": True, "referencesProvider": True, "documentSymbolProvider": True,
                "completionProvider": {"triggerCharacters": ["[", "!", "?", ":"]}, "documentFormattingProvider": True,
                "codeActionProvider": {"codeActionKinds": ["quickfix"]}},
            "serverInfo": {"name": "lotos-language-server", "version": VERSION}}

    def _shut(self, _params: Json) -> None:
        self._is_shut = True

    def _configured(self, params: Json) -> None:
        settings = params.get("settings") or {}
        self._configure(settings.get("lotos", settings))
        for uri in list(self._documents):
            self._ask(uri)

    def _configure(self, settings: Json) -> None:
        """Takes the words that stand behind the names of specifications: an order file, `with` and values."""
        words = settings.get("words") or {}
        self._words.clear()
        self._words.update({str(name): [str(it) for it in given] for name, given in words.items()})

    # ---- The texts ----

    def _opened(self, params: Json) -> None:
        given = params["textDocument"]
        self._put(Document(given["uri"], int(given.get("version") or 0), str(given["text"]), self._encoding))

    def _changed(self, params: Json) -> None:
        given = params["textDocument"]
        self._put(self._documents[given["uri"]].changed(int(given.get("version") or 0), params["contentChanges"]))

    def _put(self, document: Document) -> None:
        with self._lock:
            self._documents[document.uri] = document
        self._reader.forget("" if document.path.endswith(".lib") else document.uri)
        self._ask(document.uri)

    def _saved(self, params: Json) -> None:
        """A text was saved: those beside it may mention it."""
        self._reader.forget()
        folder = os.path.dirname(path_of(params["textDocument"]["uri"]))
        for uri, document in list(self._documents.items()):
            if os.path.dirname(document.path) == folder:
                self._ask(uri)

    def _closed(self, params: Json) -> None:
        uri = params["textDocument"]["uri"]
        with self._lock:
            self._documents.pop(uri, None)
            self._reports.pop(uri, None)
        self._reader.forget(uri)
        self._channel.notify("textDocument/publishDiagnostics", {"uri": uri, "diagnostics": []})

    def _ask(self, uri: str) -> None:
        if self._checks:
            self._checks.ask(uri)

    def _current(self, uri: str) -> Optional[Document]:
        with self._lock:
            return self._documents.get(uri)

    def _texts(self) -> Mapping[str, bytes]:
        with self._lock:
            return {it.path: it.bytes for it in self._documents.values()}

    def _open_text(self, path: str) -> Optional[str]:
        return next((it.text for it in self._documents.values() if it.path == path), None)

    # ---- What the program says ----

    def _say(self, document: Document, report: Report) -> None:
        with self._lock:
            self._reports[document.uri] = report
        self._channel.notify("textDocument/publishDiagnostics", {
            "uri": document.uri, "version": document.version, "diagnostics": diagnostics(document, report)})

    def _failed(self, fault: Exception) -> None:
        self._note()
        self._channel.notify("window/showMessage", {"type": ERROR_MESSAGE, "message": f"lotos: {fault}"})

    def _code_actions(self, params: Json) -> List[Json]:
        document = self._document(params)
        with self._lock:
            report = self._reports.get(document.uri)
        is_current = report and report.sources.read(os.path.basename(document.path)) == document.bytes
        return quick_fixes(document, report) if report and is_current else []

    # ---- What the editor asks ----

    def _document(self, params: Json) -> Document:
        return self._documents[params["textDocument"]["uri"]]

    def _hover(self, params: Json) -> Optional[Json]:
        document = self._document(params)
        return answers.hover(document, self._reader.read(document), document.offset(params["position"]))

    def _definition(self, params: Json) -> List[Json]:
        document = self._document(params)
        found = answers.definitions(self._reader.read(document), document.offset(params["position"]))
        return [self._location(document, it) for it in found]

    def _location(self, document: Document, thing: Thing) -> Json:
        """Where a declaration stands."""
        if not thing.file:
            return {"uri": document.uri, "range": answers.range_of(document, thing.name.place)}
        uri = "file://" + quote(os.path.abspath(thing.file))
        place = thing.name.place
        begin = {"line": place.line - 1, "character": place.column - 1}
        return {"uri": uri, "range": {"start": begin, "end": {**begin, "character": begin["character"] + len(thing.name.text)}}}

    def _references(self, params: Json) -> List[Json]:
        document = self._document(params)
        wanted = bool((params.get("context") or {}).get("includeDeclaration", True))
        found = answers.references(self._reader.read(document), document.offset(params["position"]), wanted)
        return [{"uri": document.uri, "range": answers.range_of(document, it.place)} for it in found]

    def _symbols(self, params: Json) -> List[Json]:
        document = self._document(params)
        return answers.symbols(document, self._reader.read(document))

    def _completion(self, params: Json) -> Json:
        document = self._document(params)
        items = answers.completion(document, self._reader.read(document), document.offset(params["position"]))
        return {"isIncomplete": False, "items": items}

    def _formatting(self, params: Json) -> List[Json]:
        document = self._document(params)
        made = laid_out(document.text)
        if made is None or made == document.text:
            return []
        return [{"range": document.range(0, len(document.text)), "newText": made}]
