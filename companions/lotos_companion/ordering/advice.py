"""What to do about equations that no order turns, and what equations demand that conflict."""
from __future__ import annotations

from typing import Dict, Iterator, Optional

from .data import Node, Signature, Term, Variable, variables_in
from .demands import Above, Comparisons, Demand
from .equations import Equation


def advice(equation: Equation, signature: Signature) -> str:
    """Why no order turns an equation from left to right, and what to do."""
    left, right = equation.left, equation.right
    alone = sorted(it.name for it in variables_in(right) - variables_in(left))
    if isinstance(left, Variable):
        return "its left side is a variable: write it the other way round"
    if alone:
        return (f"{', '.join(alone)} {'stand' if len(alone) > 1 else 'stands'} on its right side alone: let the left side have "
                "each variable of the right one")
    if _is_swapped(left, right):
        return ("it only swaps: take it out where the other equations define the operation, since then it holds for all values; "
                "else keep what it swaps in one order by an operation that inserts (docs/REFUSALS.md, 601)")
    call = _call_of(left.operation, right)
    if call is not None:
        return (f"{signature.operations[left.operation].name} calls itself by {signature.written(call)}, where the first argument "
                "that changes is no part of what it was: let a new argument count down (docs/REFUSALS.md, 602)")
    return "its right side is greater by any order: write it the other way round"


def demand_lines(equation: Equation, signature: Signature) -> Iterator[str]:
    """What an equation wants of the order: the ways in which it is turned from left to right."""
    for choice in Comparisons().greater(equation.left, equation.right):
        yield " and ".join(sorted(_demand(it, signature) for it in choice)) or "nothing"


def _demand(demand: Demand, signature: Signature) -> str:
    """A demand in words."""
    if isinstance(demand, Above):
        return f"{signature.named(demand.upper)} above {signature.named(demand.lower)}"
    return f"{signature.named(demand.operation)} {demand.side.value}"


def _is_swapped(left: Term, right: Term) -> bool:
    """Whether the sides are one but for the names of their variables."""
    names: Dict[Variable, Variable] = {}
    backward: Dict[Variable, Variable] = {}

    def is_same(one: Term, other: Term) -> bool:
        if isinstance(one, Variable) and isinstance(other, Variable):
            return names.setdefault(one, other) == other and backward.setdefault(other, one) == one
        return (isinstance(one, Node) and isinstance(other, Node) and one.operation == other.operation
                and all(is_same(a, b) for a, b in zip(one.arguments, other.arguments)))

    return is_same(left, right)


def _call_of(operation: int, term: Term) -> Optional[Term]:
    """The first part of a term with an operation at its head."""
    if isinstance(term, Variable):
        return None
    if term.operation == operation:
        return term
    return next((found for it in term.arguments for found in [_call_of(operation, it)] if found is not None), None)
