"""Of the sets of parts that no order meets together, one with the fewest parts, as far as a bound of time allows.

Sets of parts are collected that an order leaves out when it meets all others and can meet none of them besides. Each set that
conflicts has a part of each of these; so a smallest set with a part of each, where it conflicts, is a smallest one that does.
(Alexey Ignatiev and others, Smallest MUS extraction with minimal hitting set dualization.)
"""
from __future__ import annotations

import time
from collections import Counter
from dataclasses import dataclass
from typing import FrozenSet, Iterable, List, Optional, Sequence, Set

from .demands import Choices
from .solving import GivenUp, Search

SECONDS = 5.0
Numbers = FrozenSet[int]


class OutOfTime(Exception):
    """The bound is reached."""


@dataclass(frozen=True)
class Conflict:
    """Parts, by their numbers, that no order meets together. Each of them is needed for that; whether no fewer parts conflict is
    known where `is_smallest` says so."""

    parts: Sequence[int]
    is_smallest: bool


def smallest_conflict(search: Search, parts: Sequence[Choices], seconds: float = SECONDS) -> Conflict:
    """A smallest conflict of parts that no order meets together, or one that cannot be reduced where the bound ends the search."""
    known = min((search.conflict(parts, is_backward) for is_backward in (False, True)), key=len)
    try:
        return Conflict(_Smaller(search, parts, len(known), time.monotonic() + seconds).found() or known, True)
    except (OutOfTime, GivenUp):
        return Conflict(known, False)


class _Smaller:
    """The search of a smallest conflict of fewer parts than `known`, up to the time `end`."""

    def __init__(self, search: Search, parts: Sequence[Choices], known: int, end: float):
        self._search = search
        self._parts = parts
        self._known = known
        self._end = end
        self._left_out: List[Numbers] = []
        # What is met by any order has no part in a conflict.
        self._needed = [number for number, it in enumerate(parts) if frozenset() not in it]

    def found(self) -> Optional[List[int]]:
        """The parts, or nothing where there are none."""
        for most in range(1, self._known):
            hitting = self._hitting(frozenset(), self._left_out, most)
            while hitting is not None:
                if not self._is_met(hitting):
                    return sorted(hitting)
                self._left_out.append(self._correction(hitting))
                hitting = self._hitting(frozenset(), self._left_out, most)
        return None

    def _hitting(self, chosen: Numbers, sets: Sequence[Numbers], most: int) -> Optional[Numbers]:
        """At most so many numbers more that all the sets have one of, or nothing."""
        self._look_at_the_clock()
        if not sets:
            return chosen
        if most == 0 or _disjoint(sets) > most:
            return None
        counts = Counter(it for one in sets for it in one)
        refused: Set[int] = set()
        least: Numbers = min(sets, key=len)
        for number in sorted(least, key=lambda it: (-counts[it], it)):
            rest = [it - refused for it in sets if number not in it]
            found = self._hitting(chosen | {number}, rest, most - 1) if all(rest) else None
            if found is not None:
                return found
            refused.add(number)
        return None

    def _is_met(self, numbers: Iterable[int]) -> bool:
        """Whether an order meets these parts together."""
        self._look_at_the_clock()
        return self._search.solve([self._parts[it] for it in sorted(numbers)]) is not None

    def _correction(self, met: Numbers) -> Numbers:
        """What an order leaves out that meets these parts and as many others as it can."""
        kept, left_out = set(met), set()
        waiting = [[it for it in self._needed if it not in met]]
        while waiting:
            some = waiting.pop()
            if self._is_met(kept.union(some)):
                kept.update(some)
            elif len(some) == 1:
                left_out.update(some)
            else:
                waiting += [some[len(some) // 2:], some[:len(some) // 2]]
        return frozenset(left_out)

    def _look_at_the_clock(self) -> None:
        if time.monotonic() > self._end:
            raise OutOfTime


def _disjoint(sets: Iterable[Numbers]) -> int:
    """How many of the sets have no number in common, at least."""
    seen: Set[int] = set()
    count = 0
    for it in sorted(sets, key=len):
        if not seen & it:
            seen |= it
            count += 1
    return count
