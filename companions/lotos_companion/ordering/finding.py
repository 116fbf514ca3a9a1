"""The order file of a specification: computed from its equations, and then tried by the program."""
from __future__ import annotations

import sys
from dataclasses import dataclass, replace
from typing import Optional, Sequence, Tuple

from ..checking.desk import Desk
from ..checking.outcome import Outcome
from ..checking.sources import WITH, Sources
from ..program import Words
from .data import Signature
from .demands import Choices, Comparisons
from .equations import Data, Equation, read_data
from .order_file import Listing, PathOrder, listing
from .smallest import smallest_conflict
from .solving import GivenUp, Search

ORDER_NAME = "computed.order"
# Calls in one another for terms as deep as a text may have them.
DEEP = 20_000
START_VALUES = 701


@dataclass(frozen=True)
class Turned:
    """An equation with the side from which it is used, by the path order."""

    equation: Equation
    from_left: bool


@dataclass(frozen=True)
class Found:
    """What was found. `listing` is the order file, and nothing where none turns all equations; then `unturnable` are those
    that no order turns from left to right, and `conflict` is a set of others that no order turns together: one of the fewest
    equations where `is_smallest` says so, and else one of which none can be left out. `outcome` is the answer of the program to the texts with the order file. The search is given up where it
    takes too long, or where nothing was found among the shortest of very many ways to turn an equation."""

    data: Data
    listing: Optional[Listing] = None
    turned: Tuple[Turned, ...] = ()
    unturnable: Tuple[Equation, ...] = ()
    conflict: Tuple[Equation, ...] = ()
    is_smallest: bool = False
    outcome: Optional[Outcome] = None
    is_given_up: bool = False

    @property
    def signature(self) -> Signature:
        """The operations."""
        return self.data.signature

    @property
    def text(self) -> str:
        """The order file, if there is one."""
        return self.listing.text(self.signature) if self.listing else ""

    @property
    def is_accepted(self) -> bool:
        """Whether the program accepts the equations with the order file."""
        return self.outcome is not None and accepts_equations(self.outcome)

    @property
    def is_needed(self) -> bool:
        """Whether anything has to be listed."""
        return bool(self.listing and self.listing.listed)


def accepts_equations(outcome: Outcome) -> bool:
    """Whether an answer says nothing against the equations: start values are looked at behind them."""
    it = outcome.refusal
    return outcome.is_accepted or it is not None and (it.number == START_VALUES or it.at is not None and it.at.text == WITH)


def find_order(desk: Desk, sources: Sources) -> Found:
    """The order file of a specification. `Refused` where the program refuses more than its equations."""
    sys.setrecursionlimit(max(sys.getrecursionlimit(), DEEP))
    return _found(desk, sources, read_data(desk, sources))


def _found(desk: Desk, sources: Sources, data: Data) -> Found:
    equations = [it for it in data.equations if it.left != it.right]
    compared = Comparisons()
    choices = [compared.greater(it.left, it.right) for it in equations]
    unturnable = tuple(it for it, choice in zip(equations, choices) if not choice)
    found = Found(data, unturnable=unturnable)
    search = Search(len(data.signature.operations))
    try:
        solved = search.solve([*(it for it in choices if it), *(compared.greater(it.right, it.left) for it in unturnable)])
        if solved is None and compared.is_cut:
            raise GivenUp
        if solved is None:
            return _with_conflict(found, search, equations, choices)
    except GivenUp:
        return replace(found, is_given_up=True)
    return _tried(desk, sources, replace(found, listing=listing(solved)))


def _with_conflict(found: Found, search: Search, equations: Sequence[Equation], choices: Sequence[Choices]) -> Found:
    """What is found where no order turns all equations."""
    turnable = [number for number, choice in enumerate(choices) if choice]
    parts = [choices[it] for it in turnable]
    if search.solve(parts) is not None:
        return found
    conflict = smallest_conflict(search, parts)
    return replace(found, conflict=tuple(equations[turnable[it]] for it in conflict.parts), is_smallest=conflict.is_smallest)


def _tried(desk: Desk, sources: Sources, found: Found) -> Found:
    """What was found, with the answer of the program to it."""
    assert found.listing is not None
    order = PathOrder(len(found.signature.operations), found.listing)
    turned = tuple(Turned(it, order.greater(it.left, it.right)) for it in found.data.equations if it.left != it.right)
    given = {**sources.given, ORDER_NAME: found.text.encode("latin-1")}
    files = (sources.specification, ORDER_NAME) if found.is_needed else (sources.specification,)
    outcome = desk.check(Sources(Words(files, sources.words.values), given, sources.folder))
    return replace(found, turned=turned, outcome=outcome)
