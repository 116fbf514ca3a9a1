"""The text of a trace: its first line, and a line for each step, with a line for the state behind it in format 2."""
from __future__ import annotations

import re
from dataclasses import dataclass
from typing import List, Optional, Sequence, Tuple

HEAD = re.compile(r"lotos-trace (?:1|2 (?P<name>.+))")
NUMBER = re.compile(r"0|[1-9][0-9]{0,9}")


class BadTrace(Exception):
    """A text is no trace; the number of its first line that has not the form, from 1."""

    def __init__(self, line: int):
        super().__init__(f"line {line} is no line of a trace")
        self.line = line


@dataclass(frozen=True)
class Step:
    """A step: the number of its entry, its values as they were written, its label, and where format 2 tells it the state."""

    number: str
    values: str
    label: str
    state: Optional[str] = None
    place: int = 0

    @property
    def line(self) -> str:
        """The line of a session that takes it."""
        return f"step {self.number} {self.values}".rstrip()


@dataclass(frozen=True)
class Trace:
    """A trace: the name of its specification where format 2 tells it, and its steps."""

    name: Optional[str]
    steps: Tuple[Step, ...]


def read_trace(lines: Sequence[str]) -> Trace:
    """A trace from its lines, without their line feeds. The program alone knows whether its steps are possible."""
    head = HEAD.fullmatch(lines[0]) if lines else None
    if not head or "\r" in lines[0]:
        raise BadTrace(1)
    named = head["name"]
    step_lines = lines[1::2] if named else lines[1:]
    state_lines = lines[2::2] if named else []
    steps: List[Step] = []
    for count, line in enumerate(step_lines):
        place = 2 + count * (2 if named else 1)
        step = read_step(line, place)
        if named:
            step = _with_state(step, state_lines[count] if count < len(state_lines) else "", place + 1)
        steps.append(step)
    return Trace(named, tuple(steps))


def read_trace_text(text: str) -> Trace:
    """A trace from its whole text, whose last line may lack its line feed."""
    lines = text.split("\n")
    return read_trace(lines[:-1] if lines[-1] == "" else lines)


def read_step(line: str, place: int) -> Step:
    """A step from its line, which has this number in its text."""
    taken, arrow, label = line.partition(" => ")
    number, _, values = taken.partition(" ")
    if not arrow or not NUMBER.fullmatch(number) or "\r" in line:
        raise BadTrace(place)
    return Step(number, values, label, None, place)


def _with_state(step: Step, line: str, place: int) -> Step:
    if not line.startswith("at ") or "\r" in line:
        raise BadTrace(place)
    return Step(step.number, step.values, step.label, line[len("at "):], step.place)
