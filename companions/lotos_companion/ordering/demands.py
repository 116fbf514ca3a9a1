"""What an order has to be like for one term to be greater than another one: the smallest sets of demands.

A demand is that one operation stands above another, or that the arguments of an operation are compared from one side. The
order is the recursive path order as the program has it: a term is greater than what is in it; and `f(..)` is greater than
`g(..)` where it is greater than each of its arguments, and `f` stands above `g`, or they are one and of their arguments the
first that differs, from the side of the operation, is greater.
"""
from __future__ import annotations

from dataclasses import dataclass
from enum import Enum
from typing import Dict, FrozenSet, Iterable, List, Tuple, Union

from .data import Node, Term, Variable, variables_in

MOST = 64


class Side(Enum):
    """From which side arguments are compared."""

    LEFT = "left"
    RIGHT = "right"


@dataclass(frozen=True)
class Above:
    """The first operation stands above the second one."""

    upper: int
    lower: int


@dataclass(frozen=True)
class Compared:
    """The arguments of an operation are compared from this side."""

    operation: int
    side: Side


Demand = Union[Above, Compared]
Demands = FrozenSet[Demand]
Choices = Tuple[Demands, ...]
NEVER: Choices = ()
ALWAYS: Choices = (frozenset(),)


class Comparisons:
    """Compares terms, each two of them once. `is_cut` is whether of very many sets of demands the longest were left out."""

    def __init__(self) -> None:
        self.is_cut = False
        self._known: Dict[Tuple[Term, Term], Choices] = {}

    def greater(self, left: Term, right: Term) -> Choices:
        """The smallest sets of demands under which the left term is greater, shorter ones first: none where it never is."""
        if isinstance(left, Variable) or left == right:
            return NEVER
        if isinstance(right, Variable):
            return ALWAYS if right in variables_in(left) else NEVER
        if (left, right) not in self._known:
            self._known[left, right] = self._compared(left, right)
        return self._known[left, right]

    def _compared(self, left: Node, right: Node) -> Choices:
        choices = [it for argument in left.arguments for it in self._reaches(argument, right)]
        if ALWAYS[0] in choices:
            return ALWAYS
        below = self._all_of([self.greater(left, it) for it in right.arguments])
        if below and left.operation != right.operation:
            choices += self._both(below, (frozenset((Above(left.operation, right.operation),)),))
        elif below:
            choices += self._both(below, self._arguments_greater(left, right))
        return self._smallest(choices)

    def _reaches(self, argument: Term, right: Term) -> Choices:
        """Where an argument is the term or greater."""
        return ALWAYS if argument == right else self.greater(argument, right)

    def _arguments_greater(self, left: Node, right: Node) -> Choices:
        """Where the first argument that differs, from the side of the operation, is greater."""
        differing = [(it, other) for it, other in zip(left.arguments, right.arguments) if it != other]
        if not differing or len(left.arguments) != len(right.arguments):
            return NEVER
        first, last = self.greater(*differing[0]), self.greater(*differing[-1])
        if len(differing) == 1:
            return first
        sides = (first, Side.LEFT), (last, Side.RIGHT)
        return self._smallest([it | {Compared(left.operation, side)} for choices, side in sides for it in choices])

    def _all_of(self, parts: List[Choices]) -> Choices:
        """Where all of several hold."""
        choices = ALWAYS
        for it in parts:
            choices = self._both(choices, it)
        return choices

    def _both(self, one: Choices, other: Choices) -> Choices:
        """Where both hold."""
        return self._smallest([a | b for a in one for b in other])

    def _smallest(self, choices: Iterable[Demands]) -> Choices:
        """The sets that no other one is in and that can be met, shorter ones first; of very many the shortest."""
        kept: List[Demands] = []
        for it in sorted(dict.fromkeys(choices), key=len):
            if len(kept) == MOST:
                self.is_cut = True
                break
            if not any(other <= it for other in kept) and not _is_contrary(it):
                kept.append(it)
        return tuple(kept)


def _is_contrary(demands: Demands) -> bool:
    """Whether two of the demands exclude one another."""
    return any(isinstance(it, Above) and Above(it.lower, it.upper) in demands
               or isinstance(it, Compared) and it.side is Side.LEFT and Compared(it.operation, Side.RIGHT) in demands
               for it in demands)
