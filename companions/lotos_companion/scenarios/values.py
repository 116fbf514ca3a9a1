"""Whether two terms have one value: the program's `equal` says so."""
from __future__ import annotations

from typing import Dict, Sequence, Tuple

from ..play import Play


class Equality:
    """The program's `equal` for the terms of one session, asked once for each pair."""

    def __init__(self, play: Play):
        self._play = play
        self._known: Dict[Tuple[str, str], bool] = {}

    def same(self, one: str, other: str) -> bool:
        """Whether two terms have the same value. Two equal texts have; terms that the program does not take have not."""
        if one == other:
            return True
        pair = (one, other)
        if pair not in self._known:
            self._known[pair] = self._play.ask(f"equal {one}, {other}").first == "equal"
        return self._known[pair]

    def all_same(self, some: Sequence[str], others: Sequence[str]) -> bool:
        """Whether two lists of terms have the same values."""
        return len(some) == len(others) and all(self.same(one, other) for one, other in zip(some, others))
