"""Formulas of Hennessy and Milner that tell two states apart, and sequences of events that one of two can do alone."""
from __future__ import annotations

from collections import deque
from dataclasses import dataclass
from typing import Any, Deque, Dict, FrozenSet, List, Optional, Sequence, Set, Tuple

from ..exploring import StateGraph
from .refinement import Moves, Refinement, moves_of

MOST_PAIRS = 50_000


@dataclass(frozen=True)
class Formula:
    """`<label>(part and part ..)`: there is an event with this label behind which all parts hold; or its negation."""

    label: str
    parts: Tuple[Formula, ...] = ()
    negated: bool = False

    @property
    def text(self) -> str:
        """The formula as it is written: `<label>true` where there are no parts."""
        joined = " and ".join(it.text for it in self.parts) or "true"
        behind = f"({joined})" if len(self.parts) > 1 else joined
        return f"{'not ' if self.negated else ''}<{self.label}>{behind}"

    @property
    def depth(self) -> int:
        """How many events stand one behind another in it."""
        return 1 + max((it.depth for it in self.parts), default=0)

    @property
    def data(self) -> Dict[str, Any]:
        """The formula for scripts."""
        return {"not": self.negated, "label": self.label, "behind": [it.data for it in self.parts]}

    def turned(self) -> Formula:
        """Its negation."""
        return Formula(self.label, self.parts, not self.negated)


def sequence(labels: Sequence[str]) -> Formula:
    """The formula that says that these events are possible one behind another."""
    found = Formula(labels[-1])
    for label in reversed(labels[:-1]):
        found = Formula(label, (found,))
    return found


class Distinguisher:
    """Formulas of the least depth for states in two classes of a refinement."""

    def __init__(self, refinement: Refinement):
        self._refinement = refinement
        self._moves = refinement.moves
        self._found: Dict[Tuple[int, int], Formula] = {}
        self._holds: Dict[Tuple[Formula, int], bool] = {}

    def formula(self, state: int, other: int) -> Formula:
        """A formula that holds of a state, and not of another one."""
        if (state, other) not in self._found:
            self._found[state, other] = self._build(state, other)
        return self._found[state, other]

    def _build(self, state: int, other: int) -> Formula:
        before = self._refinement.parted_at(state, other) - 1
        found = [(answers, False, label, target) for label, target, answers in self._unanswered(state, other, before)]
        found += [(answers, True, label, target) for label, target, answers in self._unanswered(other, state, before)]
        answers, negated, label, target = min(found, key=lambda it: (len(it[0]), it[1]))
        parts: List[Formula] = []
        for answer in answers:
            if all(self.holds(it, answer) for it in parts):
                parts.append(self.formula(target, answer))
        return Formula(label, tuple(parts), negated)

    def _unanswered(self, state: int, other: int, before: int) -> List[Tuple[str, int, List[int]]]:
        """The events of a state that the other one has no answer to: the label, the state behind it, and those behind the
        events of the other one with this label, which are all told apart from it by then."""
        found = []
        for label, target in self._moves[state]:
            answers = [it for name, it in self._moves[other] if name == label]
            wanted = self._refinement.class_at(target, before)
            if all(self._refinement.class_at(it, before) != wanted for it in answers):
                found.append((label, target, answers))
        return found

    def holds(self, formula: Formula, state: int) -> bool:
        """Whether a formula holds of a state."""
        known = self._holds.get((formula, state))
        if known is None:
            found = any(label == formula.label and all(self.holds(it, target) for it in formula.parts)
                        for label, target in self._moves[state])
            known = self._holds[formula, state] = found != formula.negated
        return known


def events_of_one_alone(one: StateGraph, other: StateGraph) -> Optional[List[str]]:
    """A shortest sequence of events that the first can do and the second cannot, or nothing where none was found. Nothing is said
    of states of the second that were not looked at."""
    moves, answers = moves_of(one, 0), moves_of(other, 0)
    start = (0, frozenset((0,)))
    before: Dict[Tuple[int, FrozenSet[int]], Optional[Tuple[Tuple[int, FrozenSet[int]], str]]] = {start: None}
    waiting: Deque[Tuple[int, FrozenSet[int]]] = deque([start])
    while waiting and len(before) < MOST_PAIRS:
        here = waiting.popleft()
        if any(it >= other.expanded for it in here[1]):
            continue
        for label, target in moves[here[0]]:
            there = (target, _behind(answers, here[1], label))
            if not there[1]:
                return _labels(before, here, label)
            if there not in before:
                before[there] = (here, label)
                waiting.append(there)
    return None


def _behind(moves: Moves, states: FrozenSet[int], label: str) -> FrozenSet[int]:
    """The states behind an event with this label of one of these states."""
    found: Set[int] = set()
    for state in states:
        found.update(target for name, target in moves[state] if name == label)
    return frozenset(found)


def _labels(before: Dict[Tuple[int, FrozenSet[int]], Optional[Tuple[Tuple[int, FrozenSet[int]], str]]],
            place: Tuple[int, FrozenSet[int]], last: str) -> List[str]:
    """The labels on the way to a place, and the last one."""
    labels = [last]
    step = before[place]
    while step:
        labels.append(step[1])
        step = before[step[0]]
    return labels[::-1]
