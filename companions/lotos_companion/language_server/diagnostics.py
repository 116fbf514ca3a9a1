"""What the program says of the texts that an editor has open, worked out beside what the editor asks."""
from __future__ import annotations

import os
from threading import Condition, Thread
from typing import Any, Callable, Dict, List, Mapping, Optional, Sequence

from ..checking.check import reports
from ..checking.desk import Stale
from ..checking.report import Report
from ..checking.sources import WITH
from ..program import Words, WrongWords
from .documents import Document
from .reading import is_library

# How long a text has to stand still before the program is asked, in seconds.
PAUSE = 0.15
ERROR, INFORMATION = 1, 3
# The name of the specification that mentions the library of a text, and what stands in it.
AROUND_LIBRARY = "library-alone.lotos"
LIBRARY_ALONE = "specification Library_Alone : noexit\n  library {} endlib\nbehaviour stop endspec\n"


class Checks:
    """A thread that has the program check texts as they change, the last version of each, and hands on the reports."""

    def __init__(self, program: str, words: Mapping[str, Sequence[str]], current: Callable[[str], Optional[Document]],
                 others: Callable[[], Mapping[str, bytes]], say: Callable[[Document, Report], None],
                 fail: Callable[[Exception], None]):
        self._program, self._words, self._current, self._others = program, words, current, others
        self._say, self._fail = say, fail
        self._waiting: List[str] = []
        self._changed = Condition()
        self._is_over = False
        self._thread = Thread(target=self._serve, daemon=True)
        self._thread.start()

    def ask(self, uri: str) -> None:
        """Has a text checked, once it stands still."""
        with self._changed:
            if uri in self._waiting:
                self._waiting.remove(uri)
            self._waiting.append(uri)
            self._changed.notify()

    def end(self) -> None:
        """Ends the thread, once the program has answered."""
        with self._changed:
            self._is_over = True
            self._changed.notify()
        self._thread.join(10)

    def _serve(self) -> None:
        while True:
            document = self._next()
            if self._is_over:
                return
            if document:
                self._check(document)

    def _next(self) -> Optional[Document]:
        """The next text, where none changed for a while; nothing where it was closed."""
        with self._changed:
            while not self._waiting and not self._is_over:
                self._changed.wait()
            while not self._is_over and self._changed.wait(PAUSE):
                continue
            return self._current(self._waiting.pop(0)) if self._waiting and not self._is_over else None

    def _check(self, document: Document) -> None:
        def is_stale() -> bool:
            return self._is_over or self._current(document.uri) is not document

        try:
            words, texts = words_for(document, self._words), dict(texts_for(document))
            folder = os.path.dirname(document.path) or "."
            for path, text in self._others().items():
                if os.path.dirname(path) == folder:
                    texts.setdefault(os.path.basename(path), text)
            for report in reports(self._program, words, texts, folder, is_stale):
                if not is_stale():
                    self._say(document, report)
        except Stale:
            self.ask(document.uri)
        except Exception as fault:  # pylint: disable=broad-except  (the editor is told, and further texts are checked)
            self._fail(fault)


def words_for(document: Document, given: Mapping[str, Sequence[str]]) -> Words:
    """The words behind `check` for a text: its name, and those that the editor's settings give for it."""
    name = os.path.basename(document.path)
    if is_library(document):
        return Words((AROUND_LIBRARY,))
    try:
        return Words.read([name, *given.get(name, ())])
    except WrongWords:
        return Words((name,))


def texts_for(document: Document) -> Mapping[str, bytes]:
    """The texts that the program is given in place of those of the disk."""
    name = os.path.basename(document.path)
    texts = {name: document.bytes}
    if is_library(document):
        texts[AROUND_LIBRARY] = LIBRARY_ALONE.format(os.path.splitext(name)[0]).encode()
    return texts


def diagnostics(document: Document, report: Report) -> List[Dict[str, Any]]:
    """What is shown of a report in a text: nothing where it is accepted, else the refusal at its place. What stands in another
    text is shown at the begin of this one, with the place in the message."""
    refusal = report.outcome.refusal
    if report.outcome.is_accepted:
        return []
    message = [report.outcome.first]
    if report.meaning:
        message.append(report.meaning.sentence)
    message += report.evidence
    message += [f"tried: {it.says}" for it in report.suggestions]
    shown: Dict[str, Any] = {"range": _range(document, report), "severity": ERROR, "source": "lotos", "message": "\n".join(message)}
    if refusal:
        shown["code"] = refusal.number
    return [shown]


def _range(document: Document, report: Report) -> Dict[str, Any]:
    span = report.span
    if span is None or span.begin.text == WITH or span.begin.text != os.path.basename(document.path):
        return dict(document.range(0, 0))
    begin = document.at_bytes(span.begin.line, span.begin.column)
    end = document.at_bytes(span.end.line, span.end.column)
    return dict(document.range(begin, end))


def quick_fixes(document: Document, report: Report) -> List[Dict[str, Any]]:
    """The changes of this text that were tried, as an editor takes them."""
    name = os.path.basename(document.path)
    fixes = []
    for it in report.suggestions:
        if all(edit.text == name for edit in it.edits):
            edits = [_text_edit(document, edit.begin, edit.end, edit.new) for edit in it.edits]
            fixes.append({"title": it.says, "kind": "quickfix", "edit": {"changes": {document.uri: edits}}})
    return fixes


def _text_edit(document: Document, begin: int, end: int, new: bytes) -> Dict[str, Any]:
    span = document.range(document.after_bytes(begin), document.after_bytes(end))
    return {"range": span, "newText": new.decode("utf-8", "replace")}
