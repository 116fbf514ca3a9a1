"""The text of a scenario: it is read with the place of each fault, written, and written again under other names."""
from __future__ import annotations

import re
import shlex
from dataclasses import dataclass, replace
from typing import Callable, Dict, Iterable, List, Optional, Sequence, Tuple

from .events import BadEvent, read_event
from .scenario import Gap, Happens, Impossible, Item, Kind, Scenario

HEAD = "lotos-scenario 1"
SETTING = re.compile(r"(?P<key>[a-z]+) *:(?P<value>.*)")
NOT = re.compile(r"not +(?!!)(?P<event>\S.*)")
BOUND = re.compile(r"[1-9][0-9]{0,8}")


class BadScenario(Exception):
    """A text is no scenario: the number of the first line that has not the form, from 1, and what is wrong with it."""

    def __init__(self, line: int, why: str):
        super().__init__(f"line {line}: {why}")
        self.line = line
        self.why = why


@dataclass
class _Reading:
    """What was read so far."""

    items: List[Item]
    settings: Dict[str, int]
    scenario: Scenario


def read_scenario(text: str) -> Scenario:
    """A scenario from its text. `BadScenario` at the first line that has not the form."""
    lines = text.split("\n")
    if lines[0].strip() != HEAD:
        raise BadScenario(1, f"the first line is not {HEAD}")
    reading = _Reading([], {}, Scenario(()))
    for number, line in enumerate(lines[1:], 2):
        stripped = line.strip()
        if stripped and not stripped.startswith("#"):
            _read_line(reading, stripped, number)
    return replace(reading.scenario, items=tuple(reading.items))


def _read_line(reading: _Reading, text: str, line: int) -> None:
    """Reads a line that is neither empty nor a comment."""
    setting = SETTING.fullmatch(text)
    if setting:
        if reading.items:
            raise BadScenario(line, f"{setting['key']}: stands before the events")
        if setting["key"] in reading.settings:
            raise BadScenario(line, f"{setting['key']}: stands in line {reading.settings[setting['key']]} already")
        reading.settings[setting["key"]] = line
        reading.scenario = _set(reading.scenario, setting["key"], setting["value"].strip(), line)
    else:
        reading.items.append(_read_item(text, line))


def _set(scenario: Scenario, key: str, value: str, line: int) -> Scenario:
    """A scenario with one of its settings."""
    if key == "run":
        return replace(scenario, words=_read_words(value, line))
    if key == "possible":
        kinds = {it.value: it for it in Kind if it is not Kind.TAKEN}
        if value not in kinds:
            raise BadScenario(line, f"possible: is one of {', '.join(kinds)}")
        return replace(scenario, kind=kinds[value])
    if key == "states":
        if not BOUND.fullmatch(value):
            raise BadScenario(line, "states: is a number from 1 on")
        return replace(scenario, states=int(value))
    raise BadScenario(line, f"{key}: is none of run:, possible:, states:")


def _read_words(value: str, line: int) -> Tuple[str, ...]:
    """The words behind `run`."""
    try:
        words = tuple(shlex.split(value))
    except ValueError as fault:
        raise BadScenario(line, f"run: {str(fault).lower()}") from None
    if not words:
        raise BadScenario(line, "run: names a specification")
    return words


def _read_item(text: str, line: int) -> Item:
    """An item from its line."""
    if text == "..":
        return Gap(line)
    found = NOT.fullmatch(text)
    try:
        if found:
            return Impossible(read_event(found["event"]), line)
        return Happens(read_event(text), line)
    except BadEvent as fault:
        raise BadScenario(line, str(fault)) from None


def scenario_text(scenario: Scenario, comments: Iterable[str] = (), behind: Optional[Dict[int, str]] = None) -> str:
    """The text of a scenario. `comments` stand at its head, and `behind` has a comment for the line before an item by the
    item's number."""
    lines = [HEAD, *(f"# {it}".rstrip() for it in comments)]
    if scenario.words is not None:
        lines.append(f"run: {shlex.join(scenario.words)}")
    if scenario.kind is not Kind.TAKEN:
        lines.append(f"possible: {scenario.kind.value}")
    if scenario.states != Scenario(()).states:
        lines.append(f"states: {scenario.states}")
    lines.append("")
    for number, item in enumerate(scenario.items):
        if behind and number in behind:
            lines.append(f"# {behind[number]}")
        lines.append(str(item))
    return "\n".join(lines) + "\n"


def renamed_text(text: str, scenario: Scenario, gates: Callable[[str], str], processes: Callable[[str], str]) -> str:
    """The text of a scenario with other names of hidden gates and of processes; all else in it stays."""
    lines = text.split("\n")
    for item in scenario.items:
        if isinstance(item, Gap):
            continue
        new = replace(item, event=item.event.renamed(gates, processes))
        if new != item:
            lines[item.line - 1] = _indented(lines[item.line - 1], str(new))
    return "\n".join(lines)


def _indented(old: str, new: str) -> str:
    return old[:len(old) - len(old.lstrip())] + new


def listed(items: Sequence[Item]) -> str:
    """Items in one line."""
    return "; ".join(map(str, items))
