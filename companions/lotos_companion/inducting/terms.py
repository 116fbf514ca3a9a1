"""Terms of many-sorted data: operations on terms, and variables; their parts, substitution and matching."""
from __future__ import annotations

from dataclasses import dataclass
from typing import Dict, Iterator, List, NamedTuple, Optional, Tuple, Union

Path = Tuple[int, ...]


@dataclass(frozen=True, eq=False)
class Operation:
    """An operation: its name, whether it stands between its arguments, its sorts, and its place among those declared."""

    name: str
    is_infix: bool
    arguments: Tuple[str, ...]
    result: str
    number: int

    @property
    def item(self) -> str:
        """The operation as an item of an order file."""
        return f"_{self.name}_" if self.is_infix else self.name

    @property
    def with_sorts(self) -> str:
        """The item with its sorts, which tells it from others of its name."""
        return f"{self.item} : {', '.join(self.arguments)}{' ' if self.arguments else ''}-> {self.result}"


class Variable(NamedTuple):
    """A variable with its sort."""

    name: str
    sort: str


class Node:
    """An operation on terms. Its hash and its size are kept."""

    __slots__ = ("operation", "arguments", "size", "_hash")

    def __init__(self, operation: Operation, arguments: Tuple[Term, ...] = ()):
        self.operation = operation
        self.arguments = arguments
        self.size: int = 1 + sum(size(it) for it in arguments)
        self._hash = hash((operation, arguments))

    def __hash__(self) -> int:
        return self._hash

    def __eq__(self, other: object) -> bool:
        if self is other:
            return True
        return (isinstance(other, Node) and self._hash == other._hash and self.operation is other.operation
                and self.arguments == other.arguments)

    @property
    def sort(self) -> str:
        """The sort of the term."""
        return self.operation.result


Term = Union[Variable, Node]
Binding = Dict[Variable, Term]
Sides = Tuple[Term, Term]


def size(term: Term) -> int:
    """The number of operations and variables."""
    return term.size if isinstance(term, Node) else 1


def variables_of(term: Term) -> List[Variable]:
    """The variables in the order in which they first stand."""
    found: Dict[Variable, None] = {}
    waiting: List[Term] = [term]
    while waiting:
        part = waiting.pop()
        if isinstance(part, Variable):
            found[part] = None
        else:
            waiting += reversed(part.arguments)
    return list(found)


def variables_of_both(sides: Sides) -> List[Variable]:
    """The variables of two terms, those of the left one first."""
    return list(dict.fromkeys(variables_of(sides[0]) + variables_of(sides[1])))


def subterms(term: Term, path: Path = ()) -> Iterator[Tuple[Path, Term]]:
    """All parts of a term with their paths, the whole first."""
    yield path, term
    if isinstance(term, Node):
        for place, it in enumerate(term.arguments):
            yield from subterms(it, (*path, place))


def put_at(term: Term, path: Path, new: Term) -> Term:
    """The term with another one at a path."""
    if not path:
        return new
    assert isinstance(term, Node)
    arguments = list(term.arguments)
    arguments[path[0]] = put_at(arguments[path[0]], path[1:], new)
    return Node(term.operation, tuple(arguments))


def at(term: Term, path: Path) -> Optional[Term]:
    """The part at a path, or nothing where the path leaves the term."""
    for place in path:
        if not isinstance(term, Node) or place >= len(term.arguments):
            return None
        term = term.arguments[place]
    return term


def substitute(binding: Binding, term: Term) -> Term:
    """The term with terms for some of its variables."""
    if isinstance(term, Variable):
        return binding.get(term, term)
    if not term.arguments:
        return term
    return Node(term.operation, tuple(substitute(binding, it) for it in term.arguments))


def match(pattern: Term, term: Term, binding: Binding, fixed: bool = False) -> bool:
    """Whether terms for the variables of the pattern make it the term: they are added to the binding. Where `fixed` is asked
    for, variables that a split made stand for themselves."""
    if isinstance(pattern, Variable):
        if fixed and is_fixed(pattern):
            return pattern == term
        if pattern in binding:
            return binding[pattern] == term
        if pattern.sort != term.sort:
            return False
        binding[pattern] = term
        return True
    if not isinstance(term, Node) or pattern.operation is not term.operation:
        return False
    return all(match(one, other, binding, fixed) for one, other in zip(pattern.arguments, term.arguments))


def is_fixed(variable: Variable) -> bool:
    """Whether a split made this variable: only those have a point in their names."""
    return "." in variable.name
