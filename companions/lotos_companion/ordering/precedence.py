"""An order of operations that grows by demands: which stand above which, and from which side arguments are compared."""
from __future__ import annotations

from typing import Dict, Iterable, List

from .demands import Above, Compared, Demand, Demands, Side


class Precedence:
    """What is demanded so far, with all that follows. The operations below and above one are bits of a number."""

    def __init__(self, count: int):
        self.below: List[int] = [0] * count
        self.above: List[int] = [0] * count
        self.sides: Dict[int, Side] = {}

    def copy(self) -> Precedence:
        """One that grows by itself."""
        other = Precedence(0)
        other.below, other.above, other.sides = list(self.below), list(self.above), dict(self.sides)
        return other

    def holds(self, demand: Demand) -> bool:
        """Whether a demand is met."""
        if isinstance(demand, Above):
            return bool(self.below[demand.upper] >> demand.lower & 1)
        return self.sides.get(demand.operation) is demand.side

    def excludes(self, demand: Demand) -> bool:
        """Whether a demand can no longer be met."""
        if isinstance(demand, Above):
            return demand.upper == demand.lower or bool(self.below[demand.lower] >> demand.upper & 1)
        return self.sides.get(demand.operation, demand.side) is not demand.side

    def left(self, demands: Iterable[Demand]) -> Demands:
        """The demands that are not met yet."""
        return frozenset(it for it in demands if not self.holds(it))

    def add(self, demand: Demand) -> bool:
        """Meets a demand; whether that was possible."""
        if self.excludes(demand):
            return False
        if isinstance(demand, Compared):
            self.sides[demand.operation] = demand.side
        elif not self.holds(demand):
            uppers = self.above[demand.upper] | 1 << demand.upper
            lowers = self.below[demand.lower] | 1 << demand.lower
            for number in bits(uppers):
                self.below[number] |= lowers
            for number in bits(lowers):
                self.above[number] |= uppers
        return True

    def add_all(self, demands: Iterable[Demand]) -> bool:
        """Meets several demands; whether that was possible."""
        return all([self.add(it) for it in demands])


def bits(number: int) -> Iterable[int]:
    """The places of the bits of a number."""
    while number:
        lowest = number & -number
        yield lowest.bit_length() - 1
        number ^= lowest
