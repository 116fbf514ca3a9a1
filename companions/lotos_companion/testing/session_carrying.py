"""The lines of a session carried over to an edited specification: each step is that of the event which it was before."""
from __future__ import annotations

from dataclasses import dataclass
from typing import Iterator, List, Optional, Sequence

from ..play import Play, read_step_line
from ..scenarios.called import Called
from ..scenarios.making import happened
from ..scenarios.matching import Matcher
from ..scenarios.renaming import Renamings
from ..scenarios.scenario import Happens
from ..traces import Step


class NotCarried(Exception):
    """A line cannot be carried over, and why."""


@dataclass(frozen=True)
class Line:
    """A line of a session, and the event of the step that it took if it took one."""

    text: str
    event: Optional[Happens] = None

    @property
    def word(self) -> str:
        """Its first word."""
        return self.text.split(" ")[0]


def read_lines(play: Play, texts: Sequence[str]) -> List[Line]:
    """The lines of a session with the events of their steps, as the specification before the edit takes them."""
    play.open()
    called = Called(play)
    return [_read_line(play, called, text.strip()) for text in texts]


def _read_line(play: Play, called: Called, text: str) -> Line:
    line = Line(text)
    if line.word in ("undo", "replay"):
        play.ask(text)
    if line.word != "step":
        return line
    before = called.entries()
    answer = play.ask(text)
    if answer.label is None:
        return line
    number, values = read_step_line(text)
    return Line(text, happened(called, before, Step(number, values, answer.label)))


def carried_lines(play: Play, lines: Sequence[Line], renamings: Renamings) -> List[str]:
    """The lines for the edited specification. `NotCarried` at the first that has none."""
    play.open()
    carrier = _Carrier(play, renamings)
    return [carrier.line(number, line) for number, line in enumerate(lines, 1)]


class _Carrier:
    """Takes the steps of a session by what they are called, one after the other."""

    def __init__(self, play: Play, renamings: Renamings):
        self._play = play
        self._renamings = renamings
        self._matcher = Matcher(play)

    def line(self, number: int, line: Line) -> str:
        """The line for the edited specification."""
        if line.event:
            return self._step(number, line.event)
        if line.word in ("step", "undo", "replay"):
            answer = self._play.ask(line.text)
            if line.word == "step" and answer.label is not None:
                raise NotCarried(f"line {number}: {line.text} is not refused any more")
            if line.word == "replay" and not answer.menu:
                raise NotCarried(f"line {number}: {line.text} is answered by {answer.first}")
        return line.text

    def _step(self, number: int, wanted: Happens) -> str:
        """The line that takes an event."""
        possible = self._matcher.possible()
        for text in self._tried(wanted):
            return text
        raise NotCarried(f"line {number}: {wanted.event} is not possible; possible: {'; '.join(possible) or 'nothing'}")

    def _tried(self, wanted: Happens) -> Iterator[str]:
        """The lines that take an event, each behind its step."""
        for candidate in wanted.in_order(self._matcher.candidates(wanted.event, self._renamings)):
            for chosen in self._matcher.chosen(candidate):
                answer = self._play.ask(chosen.line)
                if answer.label is None:
                    continue
                if self._matcher.is_event(wanted.event, answer.label):
                    self._renamings = chosen.renamings
                    yield chosen.line
                self._play.ask("undo")
