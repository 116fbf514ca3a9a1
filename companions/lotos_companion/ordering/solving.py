"""An order that meets the demands of all equations, where there is one, or some of them that conflict."""
from __future__ import annotations

from typing import Dict, List, Optional, Sequence, Tuple

from .demands import Above, Choices, Demand, Demands, Side
from .precedence import Precedence

MOST_BRANCHES = 20_000


class GivenUp(Exception):
    """The search took too long."""


class Search:
    """The search of an order of so many operations. Each part to be met has several sets of demands, of which one is met."""

    def __init__(self, count: int):
        self._count = count
        self._branches = 0

    def solve(self, parts: Sequence[Choices]) -> Optional[Precedence]:
        """An order that meets all parts, or nothing."""
        self._branches = 0
        return self._grown(Precedence(self._count), list(dict.fromkeys(parts)))

    def conflict(self, parts: Sequence[Choices], is_backward: bool = False) -> List[int]:
        """Some of the parts, by their numbers, that no order meets together, so that each of them is needed for it; earlier
        parts rather than later ones, or the other way round. (Ulrich Junker, QuickXplain: preferred explanations and relaxations
        for over-constrained problems.)"""
        numbers = range(len(parts))
        return sorted(self._explained([], list(reversed(numbers) if is_backward else numbers), False, parts))

    def _explained(self, kept: List[int], rest: List[int], is_grown: bool, parts: Sequence[Choices]) -> List[int]:
        if is_grown and self.solve([parts[it] for it in kept]) is None:
            return []
        if len(rest) == 1:
            return rest
        first, second = rest[:len(rest) // 2], rest[len(rest) // 2:]
        of_second = self._explained(kept + first, second, bool(first), parts)
        of_first = self._explained(kept + of_second, first, bool(of_second), parts)
        return of_first + of_second

    def _grown(self, order: Precedence, parts: List[Choices]) -> Optional[Precedence]:
        """The order with what the parts force, and then with a choice for the part that leaves the fewest."""
        parts_left = propagate(order, parts)
        if parts_left is None or not parts_left:
            return order if parts_left is not None else None
        part = min(parts_left, key=len)
        for choice in sorted(part, key=_strangeness):
            self._branches += 1
            if self._branches > MOST_BRANCHES:
                raise GivenUp
            other = order.copy()
            if other.add_all(choice):
                found = self._grown(other, parts_left)
                if found is not None:
                    return found
        return None


def propagate(order: Precedence, parts: List[Choices]) -> Optional[List[Choices]]:
    """Meets all that is forced: the parts that leave a choice, or nothing where one of them can no longer be met."""
    is_changed = True
    while is_changed:
        is_changed = False
        waiting: List[Choices] = []
        for part in parts:
            left = _possible(order, part)
            if left is None:
                continue
            if not left:
                return None
            forced = frozenset.intersection(*left)
            if forced:
                is_changed = True
                if not order.add_all(forced):
                    return None
            if len(left) > 1:
                waiting.append(left)
        parts = waiting
    return parts


def _possible(order: Precedence, part: Choices) -> Optional[Choices]:
    """What is left of the sets of demands that can be met, or nothing where one of them is met."""
    found: Dict[Demands, None] = {}
    for choice in part:
        if not any(order.excludes(it) for it in choice):
            left = order.left(choice)
            if not left:
                return None
            found[left] = None
    return tuple(found)


def _strangeness(choice: Demands) -> Tuple[int, int, List[Tuple[int, int]]]:
    """How far demands are from the order of declarations: so that what is declared later stands above, and arguments are
    compared from the left, as far as that is possible."""
    against = [it for it in choice if _is_against(it)]
    return len(against), len(choice), sorted((it.upper, it.lower) for it in choice if isinstance(it, Above))


def _is_against(demand: Demand) -> bool:
    return demand.upper < demand.lower if isinstance(demand, Above) else demand.side is Side.RIGHT
