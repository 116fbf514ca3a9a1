"""The calls that the page makes, by their names: each moves the session or asks it something, and tells what is then there."""
from __future__ import annotations

import base64
import binascii
import os
import shlex
from typing import Callable, Dict, Mapping, Optional

from ..answers import Entry
from ..fitting_values import Fitting
from ..play import Parted
from ..scenarios import BadScenario
from ..session import Ended
from ..traces import BadTrace
from .export import export_page
from .folder import BadName, Folder, IsThere
from .guard import Refused
from .page_session import PageSession
from .recording import record
from .server import STATIC
from .views import View, moving_view, whole_view

MOST_VALUES = 200
LONGEST = 1 << 20


class Calls:
    """The calls of one session."""

    def __init__(self, session: PageSession, folder: Folder):
        self._session = session
        self._folder = folder
        self._why_off: Optional[str] = None
        with open(os.path.join(STATIC, "picture.css"), encoding="utf-8") as file:
            self._style = file.read()
        self._moves: Dict[str, Callable[[Mapping[str, object]], View]] = {
            "step": self._step, "undo": self._undo, "redo": self._redo, "go": self._go, "walk": self._walk,
            "until": self._until, "load": self._load, "reload": self._reload, "numbers": self._switch_numbers, "open": self._open}
        self._questions: Dict[str, Callable[[Mapping[str, object]], View]] = {
            "values": self._values, "ask": self._ask, "save": self._save, "write": self._write,
            "export": self._export}

    def __call__(self, name: str, given: Mapping[str, object]) -> View:
        """Answers a call. `Refused` where there is none of this name, or its arguments are wrong."""
        if name == "stop":
            self._session.stop()
            return {}
        if name not in self._moves and name not in self._questions:
            raise Refused(404, "no such call")
        with self._session.lock:
            return self._answer(name, given)

    def _answer(self, name: str, given: Mapping[str, object]) -> View:
        """The answer of one call. Where the program ends meanwhile it is begun anew, and the answer says so."""
        call = self._moves.get(name) or self._questions[name]
        try:
            answer = call(given)
        except Ended as end:
            answer = self._begin_anew(end)
        except Parted as parted:
            now = parted.answer.first if parted.answer.label is None else f"it comes to {parted.answer.label}"
            answer = {"note": f"{parted.step.line} came to {parted.step.label} before: {now}"}
        except (BadTrace, BadScenario) as fault:
            answer = {"note": f"this is no {'trace' if isinstance(fault, BadTrace) else 'scenario'}: {fault}"}
        self._tell_names(answer)
        if name in self._moves or "lost" in answer:
            answer.update(moving_view(self._session, whole(given, "epoch", 0), whole(given, "known", 0)))
        return answer

    def _tell_names(self, answer: View) -> None:
        """Says once why hidden events have no names, where they have none any more."""
        why = self._session.play.why_off if self._session.with_names else None
        if why is not None and why != self._why_off:
            note = f"hidden events have no names: {why}"
            answer["note"] = f"{answer['note']}\n{note}" if "note" in answer else note
        self._why_off = why

    def _begin_anew(self, end: Ended) -> View:
        """Takes the session up again after the program has ended."""
        why = "memory ran out" if end.status == 6 else f"the program ended {end.how}"
        said = list(end.lines)
        try:
            self._session.restart()
        except Ended as again:
            return {"said": [*said, *again.lines], "lost": True,
                    "note": f"{why}, and could not be begun again: {again.how}. Mend the files, then read them anew."}
        except Parted as parted:
            why += f", and {parted.step.line} is not possible any more"
            self._session.lead.reading.look()
        count = len(self._session.play.done)
        return {"said": said, "lost": True, "note": f"{why}. It was begun again with its {count} step{'' if count == 1 else 's'}."}

    # ---- Moves ----

    def _open(self, _given: Mapping[str, object]) -> View:
        return whole_view(self._session, self._folder.path, self._style)

    def _step(self, given: Mapping[str, object]) -> View:
        values = self._typed(given, "values")
        answer = self._session.step(str(whole(given, "number", 0)), values)
        return {"said": list(answer.said), "taken": answer.label is not None}

    def _undo(self, _given: Mapping[str, object]) -> View:
        self._session.undo()
        return {}

    def _redo(self, _given: Mapping[str, object]) -> View:
        self._session.redo()
        return {}

    def _go(self, given: Mapping[str, object]) -> View:
        place = whole(given, "place", 0)
        if place >= len(self._session.places.all):
            raise Refused(400, "no such place")
        self._session.go(place)
        return {}

    def _walk(self, given: Mapping[str, object]) -> View:
        return {"note": self._session.walk(whole(given, "count", 1), text(given, "seed", 40).strip() or None)}

    def _until(self, given: Mapping[str, object]) -> View:
        return {"note": self._session.until(self._typed(given, "event"))}

    def _load(self, given: Mapping[str, object]) -> View:
        return {"note": self._session.load(text(given, "text", LONGEST * 12))}

    def _reload(self, _given: Mapping[str, object]) -> View:
        try:
            note = self._session.reload()
        except Ended as end:
            if self._session.play.is_open:
                return {"said": list(end.lines), "note": "the session stays as it was"}
            raise
        return {"note": note, **self._open({})}

    def _switch_numbers(self, given: Mapping[str, object]) -> View:
        self._session.with_numbers = bool(given.get("on"))
        self._session.epoch += 1
        return {}

    # ---- Questions ----

    def _values(self, given: Mapping[str, object]) -> View:
        number, most = str(whole(given, "number", 0)), min(whole(given, "most", 20), MOST_VALUES)
        line = next((it for it in self._session.play.menu.lines if it.startswith(f"{number}: ")), None)
        if line is None:
            raise Refused(400, "no such entry")
        search = Fitting(self._session.play, Entry.read(line), most)
        found = list(search)
        return {"values": [[self._session.shown(term) for term in it] for it in found], "is_all": len(found) < most,
                "why_ended": search.why_ended}

    def _ask(self, given: Mapping[str, object]) -> View:
        word = text(given, "word", 10)
        if word not in ("normal", "equal"):
            raise Refused(400, "no such word")
        answer = self._session.play.ask(f"{word} {self._typed(given, 'terms')}")
        return {"said": [self._session.shown(it) for it in answer.lines]}

    def _save(self, given: Mapping[str, object]) -> View:
        if text(given, "name", 200).endswith(".scenario"):
            return self._put(given, self._session.scenario().encode("utf-8", "surrogateescape"))
        lines = self._session.play.ask("trace").lines
        data = "".join(f"{it}\n" for it in lines).encode("utf-8", "surrogateescape")
        return self._put(given, data)

    def _write(self, given: Mapping[str, object]) -> View:
        """Writes what the page made: a text, or bytes as base64."""
        if "bytes" in given:
            try:
                return self._put(given, base64.b64decode(text(given, "bytes", LONGEST * 16), validate=True))
            except binascii.Error:
                raise Refused(400, "these are no bytes") from None
        return self._put(given, text(given, "text", LONGEST * 16).encode("utf-8", "surrogatepass"))

    def _export(self, given: Mapping[str, object]) -> View:
        """Writes the scenario that led to the present state as a page that plays alone."""
        session = self._session
        steps = session.places.steps(session.places.at)
        scenario = record(session)
        lines = [shlex.join(["lotos", *session.lead.words.line("run")]), *(it.line for it in steps)]
        page = export_page(scenario, f"{session.name}: {len(steps)} steps", lines)
        return self._put(given, page.encode("utf-8", "surrogatepass"))

    def _put(self, given: Mapping[str, object], data: bytes) -> View:
        name = text(given, "name", 200)
        try:
            return {"written": self._folder.write(name, data, given.get("over") is True)}
        except IsThere:
            return {"is_there": name}
        except (BadName, OSError) as fault:
            return {"note": f"not written: {getattr(fault, 'strerror', None) or fault}"}

    # ---- Texts ----

    def _typed(self, given: Mapping[str, object], name: str) -> str:
        """A typed text, on one line, with numerals for decimal numbers where that is wanted."""
        typed = " ".join(text(given, name, LONGEST).split())
        return self._session.meant(typed)


def text(given: Mapping[str, object], name: str, most: int) -> str:
    """A text among the arguments, empty where there is none."""
    value = given.get(name, "")
    if not isinstance(value, str) or len(value) > most:
        raise Refused(400, f"{name} is no text of at most {most} signs")
    return value


def whole(given: Mapping[str, object], name: str, otherwise: int) -> int:
    """A number among the arguments, from 0 on."""
    value = given.get(name, otherwise)
    if isinstance(value, bool) or not isinstance(value, int) or not 0 <= value < 1 << 31:
        raise Refused(400, f"{name} is no number")
    return value

