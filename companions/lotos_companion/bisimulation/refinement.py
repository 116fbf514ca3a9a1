"""Refinement: the states of two graphs parted by what they can do, round by round, until nothing parts them any more.

Behind round r two states are in one class where no formula of depth r tells them apart. In each round only states with a transition
into a class that was parted are looked at, and the largest part keeps the number of its class, so that a state changes its number
few times.
"""
from __future__ import annotations

from bisect import bisect_right
from typing import Dict, FrozenSet, List, Sequence, Set, Tuple

from ..exploring import StateGraph

Moves = List[List[Tuple[str, int]]]


def moves_of(graph: StateGraph, offset: int) -> Moves:
    """For each state its labels, in small letters since names are the same in all, with the states behind them."""
    small = [it.lower() for it in graph.labels]
    moves: Moves = []
    for state in range(graph.states):
        places = range(graph.first[state], graph.first[state + 1]) if state < graph.expanded else range(0)
        moves.append([(small[graph.transition_labels[it]], graph.targets[it] + offset) for it in places])
    return moves


class Refinement:
    """The classes of the states of two graphs; those of the second one are numbered behind those of the first."""

    def __init__(self, left: StateGraph, right: StateGraph):
        self.offset = left.states
        self.moves = moves_of(left, 0) + moves_of(right, self.offset)
        self._classes = [0] * len(self.moves)
        self._members: Dict[int, Set[int]] = {0: set(range(len(self.moves)))}
        self._history: List[Tuple[List[int], List[int]]] = [([0], [0]) for _ in self.moves]
        self._before: List[List[int]] = [[] for _ in self.moves]
        for state, moves in enumerate(self.moves):
            for _, target in moves:
                self._before[target].append(state)
        self.rounds = 0
        changed: Set[int] = set(range(len(self.moves)))
        while changed:
            self.rounds += 1
            changed = self._part(changed)

    def are_one(self, state: int, other: int) -> bool:
        """Whether two states are in one class in the end."""
        return self._classes[state] == self._classes[other]

    def class_at(self, state: int, count: int) -> int:
        """The class of a state behind so many rounds."""
        rounds, classes = self._history[state]
        return classes[bisect_right(rounds, count) - 1]

    def parted_at(self, state: int, other: int) -> int:
        """The round that parts two states which are in two classes in the end: the least depth of a formula."""
        low, high = 1, self.rounds
        while low < high:
            middle = (low + high) // 2
            if self.class_at(state, middle) != self.class_at(other, middle):
                high = middle
            else:
                low = middle + 1
        return low

    def _signature(self, state: int) -> FrozenSet[Tuple[str, int]]:
        return frozenset((label, self._classes[target]) for label, target in self.moves[state])

    def _part(self, changed: Set[int]) -> Set[int]:
        """Parts the classes of the states that have a transition to one of these: the states with a new number."""
        looked_at = {it for state in changed for it in self._before[state]} if self.rounds > 1 else changed
        groups: Dict[int, Dict[FrozenSet[Tuple[str, int]], List[int]]] = {}
        for state in looked_at:
            groups.setdefault(self._classes[state], {}).setdefault(self._signature(state), []).append(state)
        moved: List[Sequence[int]] = []
        for number, parts in groups.items():
            moved += self._new_parts(number, list(parts.values()))
        for part in moved:
            self._rename(part)
        return {state for part in moved for state in part}

    def _new_parts(self, number: int, parts: List[List[int]]) -> List[Sequence[int]]:
        """The parts of a class that get a new number: all but the largest."""
        members = self._members[number]
        rest = len(members) - sum(map(len, parts))
        parts.sort(key=lambda it: (len(it), it[0]))
        if rest == 0:
            return list(parts[:-1])
        if rest >= len(parts[-1]):
            return list(parts)
        others = members.difference(*parts)
        return [*parts[:-1], sorted(others)]

    def _rename(self, part: Sequence[int]) -> None:
        """Gives the states of a part a new number from this round on."""
        number = len(self._members)
        self._members[self._classes[part[0]]].difference_update(part)
        self._members[number] = set(part)
        for state in part:
            self._classes[state] = number
            rounds, classes = self._history[state]
            rounds.append(self.rounds)
            classes.append(number)
