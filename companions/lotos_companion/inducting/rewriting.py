"""The rules that equations become, as the program makes them: by the path order, in which what is declared later is greater."""
from __future__ import annotations

from functools import lru_cache
from typing import Dict, List, Tuple

from .data import Data
from .terms import Binding, Node, Sides, Term, Variable, match, substitute, variables_of


class TooLong(Exception):
    """A normal form takes more steps than are wanted."""


@lru_cache(1 << 17)
def is_greater(left: Term, right: Term) -> bool:
    """Whether the left term is greater in the path order, whose arguments are compared from the left."""
    if isinstance(left, Variable):
        return False
    if isinstance(right, Variable):
        return right in variables_of(left)
    if any(it == right or is_greater(it, right) for it in left.arguments):
        return True
    if left.operation is right.operation:
        for one, other in zip(left.arguments, right.arguments):
            if one != other:
                return is_greater(one, other) and all(is_greater(left, it) for it in right.arguments)
        return False
    return left.operation.number > right.operation.number and all(is_greater(left, it) for it in right.arguments)


@lru_cache(1 << 17)
def is_later(left: Term, right: Term) -> bool:
    """Whether the left term is greater in the path order once variables are taken for constants below all operations, by the
    order of their names. Of two different terms one is."""
    if isinstance(left, Variable):
        return isinstance(right, Variable) and left > right
    if isinstance(right, Variable) or any(it == right or is_later(it, right) for it in left.arguments):
        return True
    if left.operation is right.operation:
        for one, other in zip(left.arguments, right.arguments):
            if one != other:
                return is_later(one, other) and all(is_later(left, it) for it in right.arguments)
        return False
    return left.operation.number > right.operation.number and all(is_later(left, it) for it in right.arguments)


class Rules:
    """The rules of data, and normal forms by them."""

    # The rewriting steps that one normal form may take.
    MOST_STEPS = 20_000

    def __init__(self, data: Data):
        self.rules: Dict[int, List[Sides]] = {}
        self._normal: Dict[Term, Term] = {}
        self._steps = 0
        for left, right in data.equations:
            rule = (left, right) if is_greater(left, right) else (right, left)
            if left != right and isinstance(rule[0], Node):
                self.rules.setdefault(rule[0].operation.number, []).append(rule)

    def of(self, term: Node) -> List[Sides]:
        """The rules for the operation of a term."""
        return self.rules.get(term.operation.number, [])

    def normal(self, term: Term) -> Term:
        """The normal form. `TooLong` where it takes too many steps."""
        self._steps = 0
        return self._of(term)

    def normal_sides(self, sides: Sides) -> Sides:
        """The normal forms of both sides."""
        return self.normal(sides[0]), self.normal(sides[1])

    def _of(self, term: Term) -> Term:
        if isinstance(term, Variable):
            return term
        known = self._normal.get(term)
        if known is None:
            inner = Node(term.operation, tuple(map(self._of, term.arguments))) if term.arguments else term
            known = self._at_root(inner)
            if len(self._normal) > 200_000:
                self._normal.clear()
            self._normal[term] = known
        return known

    def _at_root(self, term: Node) -> Term:
        """The normal form of a term whose arguments are in theirs."""
        for left, right in self.of(term):
            binding: Binding = {}
            if match(left, term, binding):
                self._steps += 1
                if self._steps > self.MOST_STEPS:
                    raise TooLong
                return self._of(substitute(binding, right))
        return term


def wanted(pattern: Term, term: Term) -> Tuple[bool, List[Variable]]:
    """Whether a rule's left side could match the term once some of its variables are replaced by operations, and which."""
    if isinstance(pattern, Variable):
        return True, []
    if isinstance(term, Variable):
        return True, [term]
    if pattern.operation is not term.operation:
        return False, []
    found: List[Variable] = []
    for one, other in zip(pattern.arguments, term.arguments):
        fits, inner = wanted(one, other)
        if not fits:
            return False, []
        found += inner
    return True, found
