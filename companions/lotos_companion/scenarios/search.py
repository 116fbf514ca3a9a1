"""Looks for a way through a specification on which a scenario happens: depth first over the menus, with all entries tried."""
from __future__ import annotations

from dataclasses import dataclass, field
from typing import Dict, Iterator, List, Optional, Set, Tuple

from ..answers import Answer
from ..play import Play
from ..traces import Step
from .matching import Candidate, Chosen, Matcher
from .renaming import Renamings
from .results import Parting, Taken
from .scenario import Gap, Happens, Impossible, Scenario

# How many hidden steps may follow one another: where these are too few, more are tried, until the states are used up.
RUNS = (8, 64, 512, 4096, 1 << 30)
MOST_POSSIBLE = 100


class TooMany(Exception):
    """More states than are allowed."""


@dataclass(frozen=True)
class Move:
    """A way on: a line that is taken, or none where no step is; the item behind it, and what the step is of the scenario."""

    chosen: Optional[Chosen]
    position: int
    item: Optional[int] = None
    choices: int = 1


@dataclass
class Frame:
    """A state on the present way: the item that is next, the hidden steps between that led here, the step that led here, and
    the ways on that are left."""

    position: int
    renamings: Renamings
    run: int
    taken: Optional[Taken]
    moves: Iterator[Move]


@dataclass
class Furthest:
    """The states that came furthest: their item, the steps that led to the nearest one, and what is possible in them."""

    position: int = -1
    taken: Tuple[Taken, ...] = ()
    possible: Dict[str, None] = field(default_factory=dict)


@dataclass
class Found:
    """What a search came to: the steps of the way if there is one, what stands for names, the state that came furthest,
    whether something was left out, whether some of it were values of variables, whether an event was taken for impossible of which not all values were tried, and the
    number of states."""

    way: Optional[Tuple[Taken, ...]] = None
    renamings: Renamings = field(default_factory=Renamings)
    furthest: Furthest = field(default_factory=Furthest)
    has_left_out: bool = False
    has_left_values: bool = False
    is_doubtful: bool = False
    states: int = 0


class Search:
    """A search in one session, which begins in its first state. Where a way is found, the session is left at its end."""

    def __init__(self, play: Play, scenario: Scenario, renamings: Renamings):
        self._play = play
        self._scenario = scenario
        self._items = scenario.items
        self._start = renamings
        self._matcher = Matcher(play)
        self._found = Found()
        self._stack: List[Frame] = []
        self._seen: Dict[Tuple[str, int, Renamings], int] = {}
        self._failed: Set[Tuple[str, int, Renamings]] = set()
        self._limit = RUNS[0]
        self._was_cut = False

    def run(self) -> Found:
        """Looks for a way."""
        try:
            for self._limit in RUNS:
                self._was_cut = False
                if self._pass():
                    self._found.way = tuple(it.taken for it in self._stack if it.taken)
                    self._found.renamings = self._stack[-1].renamings
                    break
                if not self._was_cut:
                    break
        except TooMany:
            self._was_cut = True
        self._found.has_left_values = self._matcher.has_left_out
        self._found.has_left_out = self._was_cut or self._found.has_left_values
        return self._found

    def _pass(self) -> bool:
        """Looks for a way with at most so many hidden steps behind one another: whether there is one."""
        self._seen.clear()
        self._failed.clear()
        self._stack = []
        self._push(0, self._start, 0, None)
        while self._stack:
            frame = self._stack[-1]
            if frame.position == len(self._items):
                return True
            move = next(frame.moves, None)
            if move is None:
                self._pop()
            else:
                self._go(frame, move)
        return False

    def _go(self, frame: Frame, move: Move) -> None:
        """Takes a way on, if it is one."""
        if move.chosen is None:
            self._push(move.position, frame.renamings, frame.run, None)
            return
        if self._found.states >= self._scenario.states:
            raise TooMany
        answer = self._play.ask(move.chosen.line)
        if answer.label is None:
            return
        self._found.states += 1
        if move.item is not None:
            item = self._items[move.item]
            assert isinstance(item, Happens)
            if not self._matcher.is_event(item.event, answer.label):
                self._play.ask("undo")
                return
        self._push(move.position, move.chosen.renamings, 0 if move.item is not None else frame.run + 1,
                   self._taken(move, answer))

    def _taken(self, move: Move, answer: Answer) -> Taken:
        """The account of a step."""
        assert move.chosen and answer.label is not None
        step = Step(move.chosen.entry.number, ", ".join(move.chosen.values), answer.label)
        called = self._matcher.step_called(answer.label)
        return Taken(step, str(called), move.item, move.choices)

    def _push(self, position: int, renamings: Renamings, run: int, taken: Optional[Taken]) -> None:
        """Stands in a state, unless nothing new is to be found there."""
        if self._is_known(position, renamings, run):
            if taken:
                self._play.ask("undo")
            return
        self._stack.append(Frame(position, renamings, run, taken, self._moves(position, renamings, run)))

    def _pop(self) -> None:
        """Goes back from a state in which nothing is left to try."""
        frame = self._stack[-1]
        self._keep_furthest(frame)
        if len(self._stack) > 1:
            self._failed.add((self._state(), frame.position, frame.renamings))
        self._stack.pop()
        if frame.taken:
            self._play.ask("undo")

    def _is_known(self, position: int, renamings: Renamings, run: int) -> bool:
        """Whether this state was looked at before with the same item next, and with as many hidden steps left."""
        if position == len(self._items):
            return False
        if not self._has_hidden_steps(position):
            # What follows an event does not depend on the hidden steps before it.
            is_event = isinstance(self._items[position], Happens)
            return is_event and bool(self._failed) and (self._state(), position, renamings) in self._failed
        key = (self._state(), position, renamings)
        if key in self._seen and self._seen[key] <= run:
            return True
        self._seen[key] = run
        return False

    def _has_hidden_steps(self, position: int) -> bool:
        """Whether hidden steps that are no event of the scenario may be taken before this item."""
        return self._scenario.kind.has_hidden_steps_between or isinstance(self._items[position], Gap)

    def _state(self) -> str:
        return self._play.ask("show").first

    def _keep_furthest(self, frame: Frame) -> None:
        """Keeps what is possible in a state from which there is no way on, if none came further."""
        best = self._found.furthest
        if frame.position < best.position:
            return
        taken = tuple(it.taken for it in self._stack if it.taken)
        if frame.position > best.position:
            best = self._found.furthest = Furthest(frame.position, taken)
        elif len(taken) < len(best.taken):
            best.taken = taken
        if len(best.possible) < MOST_POSSIBLE:
            best.possible.update(dict.fromkeys(self._matcher.possible()))

    def _moves(self, position: int, renamings: Renamings, run: int) -> Iterator[Move]:
        """The ways on from a state."""
        item = self._items[position] if position < len(self._items) else None
        if isinstance(item, Gap):
            yield Move(None, position + 1)
        elif isinstance(item, Happens):
            candidates = self._matcher.candidates(item.event, renamings)
            for candidate in item.in_order(candidates):
                yield from self._each(candidate, position + 1, position, len(candidates))
        elif isinstance(item, Impossible) and not self._is_possible(item, renamings):
            yield Move(None, position + 1)
        if item is not None and self._has_hidden_steps(position):
            if run >= self._limit:
                self._was_cut = self._was_cut or bool(self._matcher.hidden(renamings))
                return
            for candidate in self._matcher.hidden(renamings):
                yield from self._each(candidate, position, None, 1)

    def _each(self, candidate: Candidate, position: int, item: Optional[int], choices: int) -> Iterator[Move]:
        """The ways of one entry."""
        for chosen in self._matcher.chosen(candidate):
            yield Move(chosen, position, item, choices)

    def _is_possible(self, item: Impossible, renamings: Renamings) -> bool:
        """Whether an event is possible in the present state."""
        had_left_out, self._matcher.has_left_out = self._matcher.has_left_out, False
        is_so = is_possible(self._play, self._matcher, item, renamings)
        self._found.is_doubtful |= self._matcher.has_left_out and not is_so
        self._matcher.has_left_out |= had_left_out
        return is_so

    def parting(self) -> Optional[Parting]:
        """Where the way ends that came furthest."""
        best = self._found.furthest
        if best.position < 0:
            return None
        return Parting(best.position, self._items[best.position], best.taken, tuple(best.possible))


def is_possible(play: Play, matcher: Matcher, item: Impossible, renamings: Renamings) -> bool:
    """Whether an event is possible in the present state: entries with variables are tried and taken back."""
    for candidate in matcher.candidates(item.event, renamings):
        if not candidate.entry.variables:
            return True
        for chosen in matcher.chosen(candidate):
            answer = play.ask(chosen.line)
            if answer.label is None:
                continue
            is_event = matcher.is_event(item.event, answer.label)
            play.ask("undo")
            if is_event:
                return True
    return False
