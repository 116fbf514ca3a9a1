"""Values of a sort that are grown from those of other sorts, each sort by itself, where the program lists too few.

The program lists values by one size for all sorts, and no more than some of them. Here each sort has a list of its own, which
begins with what the program lists; then operations are put over values from the lists of their arguments, and `normal` says
whether that is a value.
"""
from __future__ import annotations

import re
from typing import Dict, Iterator, List, Sequence, Set, Tuple

from .answers import REFUSAL, Answer
from .data_names import Operation
from .play import Play
from .signature import Signature

# The values in the list of a sort at most; the largest sum of the places of arguments; and the sum behind which an operation
# is left out if it made no value so far, since it is one that the equations define.
MOST_OF_A_SORT = 64
LARGEST_SUM = 64
PATIENCE = 2

NAMES = re.compile(r" of [^ (),!]+|([^ (),]+)")

# What may differ between a term as it is made here and as the program prints it.
LOOSE = re.compile(r" of [^ (),!]+|[() ]")

Places = Tuple[int, ...]


class GrownValues:
    """Lists of values that grow, by their sorts in small letters. `size` is the largest that the program lists values of."""

    def __init__(self, play: Play, signature: Signature, size: int):
        self._play = play
        self._signature = signature
        self._size = size
        self._lists: Dict[str, List[str]] = {}
        self._left_out: Set[Operation] = set()
        self._made: Set[Operation] = set()
        self._tried: Set[Tuple[Operation, Places]] = set()

    def grow(self, sorts: Sequence[str]) -> Iterator[Dict[str, List[str]]]:
        """The lists of these sorts as they grow, from the constants on, to the largest ones."""
        needed = self._needed(sorts)
        self._begin(needed)
        wanted = [it.lower() for it in sorts]
        for total in range(LARGEST_SUM + 1):
            grown = [self._grow_sort(it, total) for it in needed]
            if any(grown):
                yield {it: list(self._lists[it]) for it in wanted}

    def _needed(self, sorts: Sequence[str]) -> List[str]:
        """These sorts and all that their values are made of, the innermost first."""
        found: List[str] = []
        waiting = [it.lower() for it in sorts]
        while waiting:
            sort = waiting.pop()
            if sort not in found:
                found.append(sort)
                waiting += [it.lower() for operation in self._signature.of_sort(sort) for it in operation.arguments]
        return found[::-1]

    def _begin(self, needed: Sequence[str]) -> None:
        """Begins the lists with what the program lists. An operation that is in none of the values of a sort, but would be in
        small ones, is one that the equations define."""
        smallest: Dict[str, int] = {}
        names: Dict[str, Set[str]] = {}
        for sort in needed:
            answer = self._play.ask(f"values {sort} {self._size}") if self._size else Answer(("values 0",))
            values = [] if REFUSAL.fullmatch(answer.first) else answer.lines[1:]
            self._lists[sort] = list(values[:MOST_OF_A_SORT])
            parts = [[it[1].lower() for it in NAMES.finditer(value) if it[1]] for value in values]
            smallest[sort] = min(map(len, parts), default=self._size + 1)
            names[sort] = {it for listed in parts for it in listed}
        for operation in (it for sort in needed for it in self._signature.of_sort(sort)):
            size = 1 + sum(smallest[it.lower()] for it in operation.arguments)
            if size <= self._size and (not operation.arguments or operation.name.lower() not in names[operation.result.lower()]):
                self._left_out.add(operation)

    def _grow_sort(self, sort: str, total: int) -> bool:
        """Puts each operation over values whose places have at most this sum; whether the list of its sort grew."""
        listed = self._lists[sort]
        before = len(listed)
        for operation in self._signature.of_sort(sort):
            if operation not in self._left_out and (operation.arguments or total == 0):
                self._apply(operation, total)
        return len(listed) > before

    def _apply(self, operation: Operation, total: int) -> None:
        """Puts an operation over all values whose places have at most a sum, as far as this was not done."""
        listed = self._lists[operation.result.lower()]
        lengths = [len(self._lists[it.lower()]) for it in operation.arguments]
        for places in [it for less in range(total + 1) for it in choices(lengths, less)]:
            if len(listed) >= MOST_OF_A_SORT:
                return
            if (operation, places) not in self._tried:
                self._tried.add((operation, places))
                self._try(operation, places)
        if total >= PATIENCE and operation not in self._made:
            self._left_out.add(operation)

    def _try(self, operation: Operation, places: Places) -> None:
        """Puts an operation over the values at these places, and keeps what is a value."""
        listed = self._lists[operation.result.lower()]
        term = _applied(operation, [self._lists[it.lower()][at] for it, at in zip(operation.arguments, places)])
        normal = self._play.ask(f"normal ({term} of {operation.result})").first
        if not REFUSAL.fullmatch(normal) and _loose(normal) == _loose(term):
            self._made.add(operation)
            if normal not in listed:
                listed.append(normal)


def choices(lengths: Sequence[int], total: int) -> Iterator[Places]:
    """All choices of a place in lists of these lengths, whose sum is this."""
    if not lengths:
        if total == 0:
            yield ()
        return
    behind = sum(it - 1 for it in lengths[1:])
    for place in range(max(0, total - behind), min(lengths[0] - 1, total) + 1):
        for rest in choices(lengths[1:], total - place):
            yield (place, *rest)


def _loose(term: str) -> str:
    """What is compared of a term."""
    return LOOSE.sub("", term).lower()


def _applied(operation: Operation, arguments: Sequence[str]) -> str:
    """The text of an operation over arguments. (Blanks keep a star from beginning or ending a comment.)"""
    if not arguments:
        return operation.name
    if operation.infix:
        return f"( {arguments[0]} ) {operation.name} ( {arguments[-1]} )"
    return f"{operation.name}( {', '.join(arguments)} )"
