"""How the two sides of a goal are brought together by lemmas and hypotheses: a search from both sides at once."""
from __future__ import annotations

import heapq
from typing import Dict, List, Optional, Tuple

from .cases import Case, Cases
from .certificate import Use
from .rewriting import TooLong, is_greater, is_later
from .terms import Sides, Term, size

# How much larger than the goal's sides the terms on the way may be.
ROOM = 8
MOST_SIMPLIFYING_USES = 80

Origin = Optional[Tuple[Term, Use]]


class _Side:
    """The terms that uses make of a side, each with the term and the use that it came from, the most promising ones first."""

    def __init__(self, name: str, term: Term):
        self.name = name
        self.origins: Dict[Term, Origin] = {term: None}
        self._waiting: List[Tuple[int, int, Term]] = [(0, 0, term)]
        self._depths = {term: 0}

    def next(self) -> Optional[Term]:
        """The next term to look at."""
        return heapq.heappop(self._waiting)[2] if self._waiting else None

    def add(self, term: Term, before: Term, use: Use) -> bool:
        """Adds a term, if it is new."""
        if term in self.origins:
            return False
        self.origins[term] = (before, use)
        self._depths[term] = self._depths[before] + 1
        heapq.heappush(self._waiting, (2 * self._depths[term] + size(term), len(self.origins), term))
        return True

    def way(self, term: Term) -> List[Use]:
        """The uses that lead to a term."""
        uses: List[Use] = []
        origin = self.origins[term]
        while origin is not None:
            uses.append(origin[1])
            origin = self.origins[origin[0]]
        return uses[::-1]


def close(cases: Cases, case: Case, budget: int) -> Optional[List[Use]]:
    """Uses that make both sides one, looked for among so many terms; nothing where none are found."""
    if case.is_same:
        return []
    left, right = _Side("left", case.goal[0]), _Side("right", case.goal[1])
    largest = max(map(size, case.goal)) + ROOM
    for turn in range(budget):
        side, other = (left, right) if turn % 2 == 0 else (right, left)
        term = side.next()
        if term is None:
            continue
        try:
            for use, new in cases.steps(case, side.name, term, largest):
                if side.add(new, term, use) and new in other.origins:
                    return left.way(new) + right.way(new)
        except TooLong:
            continue
    return None


def simplify(cases: Cases, case: Case, in_order: bool = False) -> Tuple[List[Use], Case]:
    """The case behind all uses of equations from their greater sides to their smaller ones, and these uses. With `in_order`
    equations that only change places are used too, where what they make comes before what was there."""
    uses: List[Use] = []
    while len(uses) < MOST_SIMPLIFYING_USES:
        use = _smaller(cases, case, in_order)
        after = cases.used(case, use) if use else None
        if use is None or after is None or after.goal == case.goal:
            break
        uses.append(use)
        case = after
    return uses, case


def _smaller(cases: Cases, case: Case, in_order: bool) -> Optional[Use]:
    """The first use that makes a side smaller."""
    for side, term in zip(("left", "right"), case.goal):
        for use, new in cases.steps(case, side, term, size(term) + 3 * ROOM):
            if is_later(term, new) if in_order else _is_turned(cases.sides_of(case, use), use.direction):
                return use
    return None


def _is_turned(sides: Sides, direction: str) -> bool:
    """Whether an equation makes terms smaller in this direction."""
    return is_greater(*sides) if direction == "forward" else is_greater(sides[1], sides[0])
