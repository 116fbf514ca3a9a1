"""The shortest order file for demands on an order, close to the order of declarations."""
from __future__ import annotations

from dataclasses import dataclass
from functools import lru_cache
from typing import List, Sequence, Tuple

from .data import Node, Signature, Term, Variable, variables_in
from .demands import Side
from .precedence import Precedence, bits


@dataclass(frozen=True)
class Listing:
    """The operations that an order file lists, the greatest first, and those whose arguments are compared from the right."""

    listed: Tuple[int, ...]
    from_right: Tuple[int, ...]

    def text(self, signature: Signature) -> str:
        """The order file."""
        return "".join(f"{self._item(signature, it)};\n" for it in self.listed)

    def _item(self, signature: Signature, number: int) -> str:
        operation = signature.operations[number]
        profile = operation.profile if signature.is_namesake(number) else ""
        return f"{operation.written}{profile}{' right' if number in self.from_right else ''}"


def listing(order: Precedence) -> Listing:
    """The operations that have to be listed. What is listed stands above all that is not, so all that stands above one that
    is listed is listed too; of two that are not listed the later declared stands above. So one is listed where it stands
    above a later one, or is compared from the right."""
    from_right = tuple(sorted(it for it, side in order.sides.items() if side is Side.RIGHT))
    listed = 0
    for number, below in enumerate(order.below):
        if below >> (number + 1) or number in from_right:
            listed |= 1 << number | order.above[number]
    return Listing(tuple(_sorted(order, list(bits(listed)))), from_right)


def _sorted(order: Precedence, numbers: List[int]) -> List[int]:
    """The operations, each behind those that stand above it, and else the later declared first."""
    found: List[int] = []
    left = sorted(numbers, reverse=True)
    wanted = sum(1 << it for it in numbers)
    while left:
        number = next(it for it in left if not order.above[it] & wanted)
        left.remove(number)
        wanted &= ~(1 << number)
        found.append(number)
    return found


class PathOrder:
    """The order that the program goes by with an order file: of two operations the one with the greater rank is above."""

    def __init__(self, count: int, by: Listing):
        self._ranks = list(range(count))
        for place, number in enumerate(reversed(by.listed)):
            self._ranks[number] = count + place
        self._from_right = frozenset(by.from_right)
        self._greater = lru_cache(None)(self._compared)

    def greater(self, left: Term, right: Term) -> bool:
        """Whether the left term is greater."""
        return self._greater(left, right)

    def _compared(self, left: Term, right: Term) -> bool:
        if isinstance(left, Variable) or left == right:
            return False
        if isinstance(right, Variable):
            return right in variables_in(left)
        if any(it == right or self.greater(it, right) for it in left.arguments):
            return True
        if not all(self.greater(left, it) for it in right.arguments):
            return False
        if left.operation != right.operation:
            return self._ranks[left.operation] > self._ranks[right.operation]
        return self._arguments_greater(left, right)

    def _arguments_greater(self, left: Node, right: Node) -> bool:
        pairs: Sequence[Tuple[Term, Term]] = [(it, other) for it, other in zip(left.arguments, right.arguments) if it != other]
        return bool(pairs) and self.greater(*pairs[-1 if left.operation in self._from_right else 0])
