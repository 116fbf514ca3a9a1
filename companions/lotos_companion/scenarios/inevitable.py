"""Whether a scenario happens on every way: a way is looked for on which it does not.

A tester offers the events one after the other, and the specification may take hidden steps whenever it can. The scenario must
happen if no way ends before its end, and none goes on for ever by hidden steps. Of an event that is impossible, no way may
come to a state where it is possible, until there are no hidden steps any more.
"""
from __future__ import annotations

from dataclasses import dataclass, field
from typing import Dict, Iterator, List, Optional, Set, Tuple

from ..play import Play
from ..traces import Step
from .matching import Chosen, Matcher
from .renaming import Renamings
from .results import Parting, Taken
from .scenario import Gap, Happens, Impossible, Scenario
from .search import TooMany, is_possible

State = Tuple[str, int]


@dataclass
class Frame:
    """A state on the present way: the item that is next, the step that led here, and the ways on that are left."""

    state: State
    taken: Optional[Taken]
    moves: Iterator[Tuple[Optional[Chosen], int, bool]]
    has_moved: bool = False


@dataclass
class Missed:
    """A way on which the scenario does not happen: its steps, the item that is wanted, what is possible, and why."""

    taken: Tuple[Taken, ...]
    item: int
    possible: Tuple[str, ...]
    why: str


@dataclass
class Inevitable:
    """What the search came to: a way on which the scenario does not happen if one was found, the first on which it does,
    whether something was left out, whether some of it were values of variables, and the number of states."""

    missed: Optional[Missed] = None
    way: Tuple[Taken, ...] = ()
    has_left_out: bool = False
    has_left_values: bool = False
    states: int = 0
    whole: Set[State] = field(default_factory=set)


class InevitableSearch:
    """A search in one session, which begins in its first state."""

    def __init__(self, play: Play, scenario: Scenario, renamings: Renamings):
        self._play = play
        self._scenario = scenario
        self._items = scenario.items
        self._renamings = renamings
        self._matcher = Matcher(play)
        self._found = Inevitable()
        self._stack: List[Frame] = []
        self._on_way: Dict[State, int] = {}

    def run(self) -> Inevitable:
        """Looks for a way on which the scenario does not happen."""
        try:
            self._push(0, None)
            while self._stack and not self._found.missed:
                self._go_on(self._stack[-1])
            self._found.has_left_out = self._matcher.has_left_out
        except TooMany:
            self._found.has_left_out = True
        self._found.has_left_values = self._matcher.has_left_out
        return self._found

    def _go_on(self, frame: Frame) -> None:
        """Takes the next way on from the last state, or goes back where none is left."""
        move = next(frame.moves, None)
        if self._found.missed:
            return
        if move is not None:
            self._go(frame, *move)
        elif frame.has_moved or self._matcher.has_left_out:
            self._pop(frame)
        else:
            self._miss("it is not possible, and there is no hidden step")

    def _go(self, frame: Frame, chosen: Optional[Chosen], position: int, is_item: bool) -> None:
        """Takes a way on, if it is one."""
        if chosen is None:
            frame.has_moved = True
            self._push(position, None)
            return
        if self._found.states >= self._scenario.states:
            raise TooMany
        answer = self._play.ask(chosen.line)
        if answer.label is None:
            return
        self._found.states += 1
        number = frame.state[1]
        item = self._items[number]
        is_event = isinstance(item, Happens) and self._matcher.is_event(item.event, answer.label)
        if is_item and not is_event:
            self._play.ask("undo")
            return
        frame.has_moved = True
        step = Step(chosen.entry.number, ", ".join(chosen.values), answer.label)
        called = str(self._matcher.step_called(answer.label))
        self._push(position, Taken(step, called, number if is_item else None))

    def _push(self, position: int, taken: Optional[Taken]) -> None:
        """Stands in a state, unless all ways from there were tried, or it closes a circle."""
        state = (self._play.ask("show").first, position)
        if position == len(self._items) or state in self._found.whole:
            if position == len(self._items) and not self._found.way:
                self._found.way = tuple(it for it in (*(frame.taken for frame in self._stack), taken) if it)
            self._undo(taken)
            return
        self._stack.append(Frame(state, taken, self._moves(position)))
        if state in self._on_way:
            self._miss("hidden steps can go on for ever")
        self._on_way[state] = len(self._stack)

    def _pop(self, frame: Frame) -> None:
        """Goes back from a state all of whose ways were tried."""
        self._stack.pop()
        del self._on_way[frame.state]
        self._found.whole.add(frame.state)
        self._undo(frame.taken)

    def _undo(self, taken: Optional[Taken]) -> None:
        if taken:
            self._play.ask("undo")

    def _miss(self, why: str) -> None:
        """Keeps the present way as one on which the scenario does not happen."""
        taken = tuple(it.taken for it in self._stack if it.taken)
        self._found.missed = Missed(taken, self._stack[-1].state[1], self._matcher.possible(), why)

    def _moves(self, position: int) -> Iterator[Tuple[Optional[Chosen], int, bool]]:
        """The ways on: a line or nothing, the item behind it, and whether the line is this item."""
        item = self._items[position]
        if isinstance(item, Gap):
            yield None, position + 1, False
            return
        if isinstance(item, Impossible) and is_possible(self._play, self._matcher, item, self._renamings):
            self._miss("it is possible")
            return
        hidden = self._matcher.hidden(self._renamings)
        events = self._matcher.candidates(item.event, self._renamings) if isinstance(item, Happens) else []
        taken = {it.entry.number for it in events if it.is_told}
        for candidate in events:
            for chosen in self._matcher.chosen(candidate):
                yield chosen, position + 1, True
        for candidate in hidden:
            if candidate.entry.number not in taken:
                for chosen in self._matcher.chosen(candidate):
                    yield chosen, position, False
        if isinstance(item, Impossible) and not hidden:
            yield None, position + 1, False

    def parting(self) -> Optional[Parting]:
        """Where the way ends on which the scenario does not happen."""
        missed = self._found.missed
        return Parting(missed.item, self._items[missed.item], missed.taken, missed.possible) if missed else None


__all__ = ["Inevitable", "InevitableSearch", "Missed"]
