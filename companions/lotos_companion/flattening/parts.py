"""Sorts, operations and equations in a form that is one for all ways to write them, and goes through renamings."""
from __future__ import annotations

from dataclasses import dataclass, field
from typing import Dict, Iterable, List, Optional, Tuple, Union

from ..language import tree

Sorts = Tuple[str, ...]
Form = Tuple[str, bool]


@dataclass(frozen=True)
class Sort:
    """A sort."""

    name: str


@dataclass(frozen=True)
class Operation:
    """An operation: its name, whether it stands between its arguments, and its sorts."""

    name: str
    is_infix: bool
    arguments: Sorts
    result: str


@dataclass(frozen=True)
class Variable:
    """A variable of an equation: its number by its first appearance, and its sort."""

    number: int
    sort: str


@dataclass(frozen=True)
class Applied:
    """An operation on arguments."""

    operation: Operation
    arguments: Tuple[Union[Variable, Applied], ...]


Term = Union[Variable, Applied]


@dataclass(frozen=True)
class Equation:
    """An equation: its sort, the sides of its premisses, and its own behind them."""

    sort: str
    sides: Tuple[Term, ...]


Part = Union[Sort, Operation, Equation]
TRUE = tree.Term(tree.Name("true"))


def operations_of(line: tree.OperationLine) -> Iterable[Tuple[tree.OperationName, Operation]]:
    """The operations of a line, with what is written of each."""
    for it in line.operations:
        yield it, Operation(it.name.key, it.is_infix, tuple(sort.key for sort in line.arguments), line.result.key)


class Reader:
    """Terms read by the operations that are known in a type. Names are one in all cases of letters."""

    def __init__(self, operations: Iterable[Operation]):
        self._operations: Dict[Tuple[str, bool, int], List[Operation]] = {}
        for it in operations:
            self._operations.setdefault((it.name, it.is_infix, len(it.arguments)), []).append(it)

    def equation(self, written: tree.Equation, group: tree.Group, declared: Iterable[tree.Variable]) -> Optional[Equation]:
        """An equation of a group, with the variables that are declared for all groups; nothing where it has no reading."""
        variables = {it.name.key: it.sort.key for it in (*declared, *group.variables)}
        pairs = [(it.left, TRUE if it.right is None else it.right, None) for it in written.premisses]
        numbers: Dict[str, int] = {}
        sides: List[Term] = []
        for left, right, sort in [*pairs, (written.left, written.right, group.sort.key)]:
            lefts, rights = (self._readings(it, variables, numbers) for it in (left, right))
            fitting = [it for it in lefts if it in rights and sort in (None, it)]
            if len(fitting) != 1:
                return None
            sides += [lefts[fitting[0]], rights[fitting[0]]]
        return Equation(group.sort.key, tuple(sides))

    def _readings(self, term: tree.Term, variables: Dict[str, str], numbers: Dict[str, int]) -> Dict[str, Term]:
        """What a term can be read as, by its sort."""
        found: Dict[str, Term] = {}
        if not term.arguments and term.name.key in variables:
            sort = variables[term.name.key]
            found[sort] = Variable(numbers.setdefault(term.name.key, len(numbers)), sort)
        else:
            arguments = [self._readings(it, variables, numbers) for it in term.arguments]
            for it in self._operations.get((term.name.key, term.is_infix, len(arguments)), []):
                if all(sort in readings for sort, readings in zip(it.arguments, arguments)):
                    parts = tuple(readings[sort] for sort, readings in zip(it.arguments, arguments))
                    found[it.result] = Applied(it, parts)
        marks = {it.key for it in term.marks}
        return {sort: it for sort, it in found.items() if marks <= {sort}}


@dataclass(frozen=True)
class Renaming:
    """New names for old ones: of sorts, and of operations by their names and forms."""

    sorts: Dict[str, str] = field(default_factory=dict)
    operations: Dict[Form, Form] = field(default_factory=dict)

    @classmethod
    def of(cls, renames: tree.Renames) -> Renaming:
        """The renaming that pairs say."""
        return cls({it.old.key: it.new.key for it in renames.sorts},
                   {(it.old.name.key, it.old.is_infix): (it.new.name.key, it.new.is_infix) for it in renames.operations})

    def sort(self, name: str) -> str:
        """The new name of a sort."""
        return self.sorts.get(name, name)

    def renamed(self, part: Part) -> Part:
        """A part under its new names."""
        if isinstance(part, Sort):
            return Sort(self.sort(part.name))
        if isinstance(part, Operation):
            return self._operation(part)
        return Equation(self.sort(part.sort), tuple(map(self._term, part.sides)))

    def _operation(self, it: Operation) -> Operation:
        name, is_infix = self.operations.get((it.name, it.is_infix), (it.name, it.is_infix))
        return Operation(name, is_infix, tuple(map(self.sort, it.arguments)), self.sort(it.result))

    def _term(self, term: Term) -> Term:
        if isinstance(term, Variable):
            return Variable(term.number, self.sort(term.sort))
        return Applied(self._operation(term.operation), tuple(map(self._term, term.arguments)))
