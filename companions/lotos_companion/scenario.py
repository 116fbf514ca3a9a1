"""A kept scenario with what the program says of it: the menu each step was chosen from, and the states."""
from __future__ import annotations

from dataclasses import dataclass, field, replace
from typing import Dict, List, Optional, Tuple

from .answers import Answer, Entry, Menu
from .naming import HiddenEvent, NamedPlay
from .play import Play
from .session import Ended
from .traces import BadTrace, Step, Trace, read_trace_text


class Unread(Exception):
    """A file cannot be read."""


# The names of the entries of a menu; none where hidden events have no names.
Names = Tuple[Optional[HiddenEvent], ...]


@dataclass(frozen=True)
class Moment:
    """A step with the menu that it was chosen from and the state before it; without a specification these are not known.
    Where hidden events have names, those of the menu and of the step are here too."""

    step: Step
    menu: Optional[Menu] = None
    state: Optional[str] = None
    names: Names = ()
    name: Optional[HiddenEvent] = None

    @property
    def label(self) -> str:
        """The label of the step, with its name."""
        return f"{self.step.label} ({self.name.text})" if self.name else self.step.label

    @property
    def short_label(self) -> str:
        """The label of the step, with its name as short as it may be."""
        return f"{self.step.label} ({self.name.short})" if self.name else self.step.label

    @property
    def not_taken(self) -> List[Entry]:
        """The other entries of its menu."""
        return [it for it in self.menu.entries if it.number != self.step.number] if self.menu else []


@dataclass
class Scenario:
    """The moments of a trace as far as its steps fit, the menu and the state behind them with the names of hidden events, and
    what the program says if one does not fit: its line, and the step. Where there are no names, why."""

    name: str
    moments: List[Moment] = field(default_factory=list)
    menu: Optional[Menu] = None
    state: Optional[str] = None
    refusal: Optional[str] = None
    refused: Optional[Step] = None
    names: Names = ()
    why_no_names: Optional[str] = None

    @property
    def has_menus(self) -> bool:
        """Whether a specification was there to ask for menus."""
        return self.menu is not None


def read_trace_file(path: str) -> Trace:
    """The trace in a file."""
    try:
        with open(path, "rb") as file:
            text = file.read().decode("utf-8", "surrogateescape")
    except (OSError, ValueError):
        raise Unread(path) from None
    return read_trace_text(text)


def without_specification(trace: Trace) -> Scenario:
    """A scenario that has what the trace has alone."""
    states: Tuple[Optional[str], ...] = (None, *(it.state for it in trace.steps))
    moments = [Moment(step, None, state) for step, state in zip(trace.steps, states)]
    return Scenario(trace.name or "", moments, None, states[-1])


def follow(play: Play, trace: Trace, path: str) -> Scenario:
    """Takes the steps of a trace one by one. `Ended` where the specification is not accepted."""
    opening = play.open()
    shared: Dict[Menu, Menu] = {}
    scenario = Scenario(opening.said[0][len("accepted "):], [], play.menu, _state(play), names=_names(play))
    if trace.name is not None and trace.name.lower() != scenario.name.lower():
        return _refused(scenario, play, path, None, f"the trace is of the specification {trace.name}")
    for step in trace.steps:
        before = Moment(step, scenario.menu, scenario.state, scenario.names)
        answer = play.ask(step.line)
        if answer.label != step.label:
            return _refused(scenario, play, path, step, _difference(step, answer))
        state = _state(play)
        if step.state not in (None, state):
            return _refused(scenario, play, path, step, f"line {step.place + 1} has another state: {state}")
        scenario.moments.append(replace(before, name=_step_name(play)))
        scenario.menu, scenario.state, scenario.names = shared.setdefault(play.menu, play.menu), state, _names(play)
    scenario.why_no_names = play.why_off if isinstance(play, NamedPlay) and _has_hidden(scenario) else None
    return scenario


def _names(play: Play) -> Names:
    return tuple(play.names) if isinstance(play, NamedPlay) and not play.why_off else ()


def _step_name(play: Play) -> Optional[HiddenEvent]:
    return play.step_names[-1] if isinstance(play, NamedPlay) and not play.why_off else None


def _has_hidden(scenario: Scenario) -> bool:
    """Whether an event of any menu is hidden."""
    menus = {it.menu for it in scenario.moments} | {scenario.menu}
    return any(": i" in line and Entry.read(line).label.is_internal for menu in menus if menu for line in menu.lines)


def _state(play: Play) -> str:
    return play.ask("show").first


def _difference(step: Step, answer: Answer) -> str:
    found = answer.first if answer.label is None else f"it comes to {answer.label}"
    return f"line {step.place}, {step.line} => {step.label}: {found}"


def _refused(scenario: Scenario, play: Play, path: str, step: Optional[Step], said: str) -> Scenario:
    """The scenario up to a step that does not fit, with the program's own line on it where it has one."""
    answer = ""
    if path.strip(" \t\r") == path and "\n" not in path:
        try:
            answer = play.another_answer(f"replay {path}")
        except Ended:  # The specification can be read once alone.
            pass
    scenario.refusal = answer if answer.startswith("refused 81") else said
    scenario.refused = step
    return scenario


__all__ = ["BadTrace", "Moment", "Scenario", "Unread", "follow", "read_trace_file", "without_specification"]
