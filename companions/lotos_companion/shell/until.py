"""A shortest way to an event, which is looked for by breadth in sessions beside that of the shell."""
from __future__ import annotations

import re
from typing import Iterator, Optional, Tuple

from ..exploring import Found, Goal, Limits, Progress, Unexpected, shortest_way
from ..session import Ended
from ..traces import Step
from .desk import Desk, counted

# Where a search stops: states and seconds; and the size of values for open entries, which is larger where the values that are
# wanted are.
MOST_STATES = 20_000
MOST_SECONDS = 60
SIZE, LARGEST_SIZE = 3, 8

NAME = re.compile(r"[^\s(),!?]+")
GOAL = re.compile(r"([A-Za-z]\w*)((?:\s*[!?][^!?]*)*)")
PART = re.compile(r"([!?])\s*([^!?]*)")
WITHIN = re.compile(r"(.*?)\s+within\s+([0-9]{1,6})\s*")


class Until:
    """The search, and the steps to what it finds."""

    def __init__(self, desk: Desk):
        self._desk = desk
        self._size = SIZE

    def take(self, rest: str) -> None:
        """Takes a shortest way to the event of a line, or says why there is none."""
        within = WITHIN.fullmatch(rest)
        goal = GOAL.fullmatch((within[1] if within else rest).strip())
        if not goal:
            self._desk.usage("until GATE [!TERM|?..] [within N]")
            return
        wanted = Goal(goal[1], _values(goal[2]))
        limits = Limits(MOST_STATES, MOST_SECONDS, int(within[2]) - 1 if within and int(within[2]) else None)
        found = self._search(wanted, limits)
        if found and found.way:
            self._desk.say_moves(self._desk.play.take(Step(it.number, it.values, it.label)) for it in found.way)
            self._desk.own(f"{counted(len(found.way))}, a shortest way ({self._seen(found)})")
        elif found:
            self._desk.own(f"found no way: {self._why_none(found, within)}; the session stays where it is")

    def _search(self, goal: Goal, limits: Limits) -> Optional[Found]:
        """Looks for a way in sessions of their own."""
        play = self._desk.play
        fault = ""
        for values in self._readings(goal):
            self._size = min(max([SIZE, *(len(NAME.findall(it or "")) for it in values or ())]), LARGEST_SIZE)
            try:
                return shortest_way(play.program, play.words, Goal(goal.gate, values), steps=[it.line for it in play.done],
                                    limits=limits, values=self._size, watch=self._watch)
            except ValueError as wrong:
                fault = str(wrong)
            except (Ended, Unexpected):
                fault = "the specification cannot be read again"
        self._desk.own(fault)
        return None

    def _readings(self, goal: Goal) -> Iterator[Optional[Tuple[Optional[str], ...]]]:
        """The values of a goal, where numbers are decimal read as names of the data first."""
        if goal.values is None:
            yield None
            return
        for reading in self._desk.readings(" ! ".join(it or "?" for it in goal.values)):
            yield tuple(None if it.strip() == "?" else it.strip() for it in reading.split(" ! ")) if goal.values else ()

    def _watch(self, progress: Progress) -> None:
        self._desk.screen.progress(f"{progress.states} states, {progress.depth} steps far")

    def _seen(self, found: Found) -> str:
        """What was looked at."""
        return f"{counted(found.states, 'state')} looked at{self._with_values(found, ', values of at most ')}"

    def _with_values(self, found: Found, before: str) -> str:
        """How large the values were that were tried, where some were."""
        return f"{before}{counted(self._size, 'operation')}" if found.open_entries else ""

    def _why_none(self, found: Found, within: Optional[re.Match[str]]) -> str:
        """Why there is none, or none was found."""
        if found.cut:
            why = f"within {counted(int(within[2]))} there is none" if within and "steps" in found.cut else found.cut
            return f"{why} ({self._seen(found)})"
        values = self._with_values(found, " with values of at most ")
        return f"there is none{values} ({counted(found.states, 'state')}, all of them)"


def _values(text: str) -> Optional[Tuple[Optional[str], ...]]:
    """The values behind a gate: a term behind `!`, anything behind `?`; nothing is said where there are none."""
    parts = PART.findall(text)
    return tuple(term.strip() if sign == "!" else None for sign, term in parts) if parts else None
