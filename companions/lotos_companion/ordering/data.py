"""The data of a specification as `flatten` prints it: operations, and equations whose terms are read."""
from __future__ import annotations

from collections import Counter, defaultdict
from dataclasses import dataclass
from typing import Dict, FrozenSet, Iterator, List, Optional, Sequence, Tuple, Union

from ..language import tree


@dataclass(frozen=True)
class Operation:
    """An operation: its name as it was declared, its form, and its sorts."""

    name: str
    is_infix: bool
    arguments: Tuple[str, ...]
    result: str

    @property
    def written(self) -> str:
        """The operation as an item of an order file names it, without its sorts."""
        return f"_{self.name}_" if self.is_infix else self.name

    @property
    def profile(self) -> str:
        """Its sorts, as an item of an order file has them."""
        return f" : {', '.join(self.arguments)}{' ' if self.arguments else ''}-> {self.result}"


@dataclass(frozen=True)
class Variable:
    """A variable of an equation."""

    name: str


@dataclass(frozen=True)
class Node:
    """The operation with this number, with its arguments."""

    operation: int
    arguments: Tuple[Term, ...] = ()


Term = Union[Variable, Node]
Readings = Dict[str, Term]


class Unreadable(Exception):
    """A term has not one reading: the printed text is not as it was thought to be."""


class Signature:
    """The operations in the order of their declaration. Names are one in all cases of letters."""

    def __init__(self, operations: Sequence[Operation]):
        self.operations = tuple(operations)
        self._namesakes = Counter((it.name.lower(), it.is_infix) for it in self.operations)
        self._numbers: Dict[Tuple[str, bool, int], List[int]] = defaultdict(list)
        for number, it in enumerate(self.operations):
            self._numbers[it.name.lower(), it.is_infix, len(it.arguments)].append(number)

    def readings(self, term: tree.Term, variables: Dict[str, str]) -> Readings:
        """What a term can be read as, by its sort."""
        found: Readings = {}
        sort = variables.get(term.name.key)
        if sort is not None and not term.arguments:
            found[sort] = Variable(term.name.key)
        else:
            arguments = [self.readings(it, variables) for it in term.arguments]
            for number in self._numbers[term.name.key, term.is_infix, len(arguments)]:
                operation = self.operations[number]
                wanted = [it.lower() for it in operation.arguments]
                if all(sort in readings for sort, readings in zip(wanted, arguments)):
                    found[operation.result.lower()] = Node(number, tuple(
                        readings[sort] for sort, readings in zip(wanted, arguments)))
        marks = {it.key for it in term.marks}
        return {sort: it for sort, it in found.items() if marks <= {sort}}

    def is_namesake(self, number: int) -> bool:
        """Whether another operation has the name and the form of this one."""
        own = self.operations[number]
        return self._namesakes[own.name.lower(), own.is_infix] > 1

    def instance(self, term: Term) -> str:
        """The operation at the head of a term with its sorts, where another one has its name."""
        if isinstance(term, Variable) or not self.is_namesake(term.operation):
            return ""
        operation = self.operations[term.operation]
        return operation.written + operation.profile

    def named(self, number: int) -> str:
        """An operation, with its sorts where another one has its name."""
        operation = self.operations[number]
        return f"({operation.written}{operation.profile})" if self.is_namesake(number) else operation.written

    def written(self, term: Term) -> str:
        """A term as a text, infix operations with brackets around those that stand in them."""
        if isinstance(term, Variable):
            return term.name
        operation = self.operations[term.operation]
        parts = [self.written(it) for it in term.arguments]
        if not operation.is_infix:
            return operation.name + (f"({', '.join(parts)})" if parts else "")
        shown = [f"({text})" if self._is_infix(it) else text for it, text in zip(term.arguments, parts)]
        return f" {operation.name} ".join(shown)

    def _is_infix(self, term: Term) -> bool:
        return isinstance(term, Node) and self.operations[term.operation].is_infix


def variables_in(term: Term) -> FrozenSet[Variable]:
    """The variables of a term."""
    if isinstance(term, Variable):
        return frozenset((term,))
    return frozenset(it for argument in term.arguments for it in variables_in(argument))


def operations_of(sections: tree.Sections) -> Iterator[Operation]:
    """The operations of a printed type, in their order."""
    for line in sections.operations or ():
        for it in line.operations:
            yield Operation(it.name.text, it.is_infix, tuple(sort.text for sort in line.arguments), line.result.text)


def equations_of(sections: tree.Sections) -> Iterator[Tuple[tree.Equation, Dict[str, str]]]:
    """The equations of a printed type, each with its variables and their sorts."""
    equations: Optional[tree.Equations] = sections.equations
    for group in equations.groups if equations else ():
        declared = (*(equations.variables if equations else ()), *group.variables)
        variables = {it.name.key: it.sort.key for it in declared}
        for equation in group.equations:
            yield equation, variables
