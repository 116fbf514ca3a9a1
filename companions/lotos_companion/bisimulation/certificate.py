"""A certificate of bisimulation, as the program's `bisim` checks it: states named by their ways, and pairs of them."""
from __future__ import annotations

import re
from typing import Dict, Iterator, List, Set, Tuple

from ..exploring import StateGraph
from .refinement import Refinement

Pair = Tuple[int, int]
UNMATCHED = re.compile(r"refused 907 Unmatched line (\d+) (left|right) (\d+)")


def find_pairs(refinement: Refinement) -> List[Pair]:
    """Pairs of states of one class, that of the starts first, such that each event of one of a pair is answered by the other one
    within the pairs. The right states have their own numbers here."""
    offset, moves = refinement.offset, refinement.moves
    pairs: List[Pair] = [(0, 0)]
    known: Set[Pair] = {(0, 0)}
    for i, j in pairs:
        rights = moves[j + offset]
        for label, target in moves[i]:
            _add(pairs, known, ((target, other - offset) for name, other in rights
                                if name == label and refinement.are_one(target, other)))
        for label, other in rights:
            _add(pairs, known, ((target, other - offset) for name, target in moves[i]
                                if name == label and refinement.are_one(target, other)))
    return pairs


def _add(pairs: List[Pair], known: Set[Pair], answers: Iterator[Pair]) -> None:
    """Adds the first of the answers, unless one of them is there."""
    found = list(answers)
    if found and not known.intersection(found):
        pairs.append(found[0])
        known.add(found[0])


class Named:
    """The names of one side: each state that has one, and for each name but the first that before it and its entry there."""

    def __init__(self, graph: StateGraph, wanted: Set[int]):
        needed = {0}
        for state in wanted:
            while state not in needed:
                needed.add(state)
                state = graph.parents[state]
        self.states = sorted(needed)
        self.numbers: Dict[int, int] = {state: number for number, state in enumerate(self.states)}
        self.entries = [(self.numbers[graph.parents[state]], graph.events[state] + 1) for state in self.states[1:]]

    def add(self, before: int, entry: int, state: int) -> int:
        """A further name, of the state behind an entry of one that has a name."""
        if (before, entry) in self.entries:
            return self.entries.index((before, entry)) + 1
        self.entries.append((before, entry))
        self.states.append(state)
        return len(self.entries)


class Certificate:
    """A certificate. Each menu is without variables, so that the events of a state are the entries of its menu, in their order."""

    def __init__(self, left: StateGraph, right: StateGraph, refinement: Refinement):
        self._refinement = refinement
        found = find_pairs(refinement)
        self._left, self._right = Named(left, {i for i, _ in found}), Named(right, {j for _, j in found})
        self._pairs = [(self._left.numbers[i], self._right.numbers[j]) for i, j in found]

    def lines(self) -> List[str]:
        """Its lines."""
        return [*(f"l {before} {entry}" for before, entry in self._left.entries),
                *(f"r {before} {entry}" for before, entry in self._right.entries), *(f"p {i} {j}" for i, j in self._pairs)]

    def mend(self, refusal: str) -> bool:
        """Adds names and a pair for the event that a refusal tells, if that is possible: `show` prints one text for behaviours
        whose variables are declared in two places, and the program takes them for two."""
        found = UNMATCHED.fullmatch(refusal)
        if not found:
            return False
        i, j = self._pairs[int(found[1]) - 1 - len(self._left.entries) - len(self._right.entries)]
        moves, offset = self._refinement.moves, self._refinement.offset
        lefts, rights = moves[self._left.states[i]], moves[self._right.states[j] + offset]
        here, there = (lefts, rights) if found[2] == "left" else (rights, lefts)
        entry = int(found[3]) - 1
        label, target = here[entry]
        answer = next((place for place, (name, other) in enumerate(there)
                       if name == label and self._refinement.are_one(target, other)), None)
        if answer is None:
            return False
        one, other = (entry, answer) if found[2] == "left" else (answer, entry)
        pair = (self._left.add(i, one + 1, lefts[one][1]), self._right.add(j, other + 1, rights[other][1] - offset))
        if pair in self._pairs:
            return False
        self._pairs.append(pair)
        return True
