"""Where the names of a text are declared and used, by the tree of the text."""
from __future__ import annotations

from dataclasses import dataclass
from enum import Enum
from typing import Any, Callable, Dict, Iterator, List, Optional, Tuple, Type

from ..language import tree
from ..language.tokens import Place
from ..language.walking import parts_below


class Kind(Enum):
    """What a name is of."""

    LIBRARY = "library"
    TYPE = "type"
    SORT = "sort"
    OPERATION = "operation"
    VARIABLE = "variable"
    GATE = "gate"
    PROCESS = "process"


@dataclass(frozen=True)
class Occurrence:
    """A name where it stands: what it is of, whether it is declared there, and the type or definition that it stands in. What
    stands in a term without arguments may be of a variable or of an operation. A pair of a renaming declares its new name."""

    kind: Kind
    name: str
    place: Place
    declares: bool
    scope: Place
    is_pair: bool = False

    @property
    def key(self) -> str:
        """The name without regard to the case of letters."""
        return self.name.lower()


Given = Iterator[Tuple[Kind, tree.Name, bool]]


def occurrences(root: Any) -> List[Occurrence]:
    """The names of a specification or of an item, in no order."""
    found: List[Occurrence] = []
    waiting: List[Tuple[Any, Place]] = [(root, root.place)]
    while waiting:
        part, scope = waiting.pop()
        scope = part.place if isinstance(part, (tree.Process, tree.Type, tree.Specification)) else scope
        for kind, name, declares in _names_of(part):
            if isinstance(root, tree.Specification) and name is root.heading.name:
                continue  # Nothing can call a specification.
            is_pair = isinstance(part, (tree.SortPair, tree.OperationPair))
            found.append(Occurrence(kind, name.text, name.place, declares, scope, is_pair))
        waiting += [(it, scope) for it in parts_below(part)]
    return found


def _names_of(part: Any) -> Given:
    """The names that stand in a part itself."""
    reader = READERS.get(type(part))
    return reader(part) if reader else iter(())


def _all(kind: Kind, names: Optional[tree.Names], declares: bool) -> Given:
    return ((kind, it, declares) for it in names or ())


def _heading(it: tree.Heading) -> Given:
    yield Kind.PROCESS, it.name, True
    yield from _all(Kind.GATE, it.gates, True)
    yield from _all(Kind.SORT, it.exit_sorts, False)


def _variable(it: tree.Variable) -> Given:
    yield Kind.VARIABLE, it.name, True
    yield Kind.SORT, it.sort, False


def _term(it: tree.Term) -> Given:
    yield Kind.OPERATION if it.arguments else Kind.VARIABLE, it.name, False
    yield from _all(Kind.SORT, it.marks, False)


def _call(it: tree.Call) -> Given:
    yield Kind.PROCESS, it.name, False
    yield from _all(Kind.GATE, it.gates, False)


def _asked(it: tree.Asked) -> Given:
    yield from _all(Kind.VARIABLE, it.names, True)
    yield Kind.SORT, it.sort, False


def _among(it: tree.Among) -> Given:
    yield from _all(Kind.GATE, it.names, True)
    yield from _all(Kind.GATE, it.gates, False)


def _sections(it: tree.Sections) -> Given:
    yield from _all(Kind.SORT, it.formal_sorts, True)
    yield from _all(Kind.SORT, it.sorts, True)


def _operation_line(it: tree.OperationLine) -> Given:
    yield from _all(Kind.OPERATION, tuple(one.name for one in it.operations), True)
    yield from _all(Kind.SORT, (*it.arguments, it.result), False)


def _sort_pair(it: tree.SortPair) -> Given:
    yield Kind.SORT, it.new, True
    yield Kind.SORT, it.old, False


def _operation_pair(it: tree.OperationPair) -> Given:
    yield Kind.OPERATION, it.new.name, True
    yield Kind.OPERATION, it.old.name, False


def _actualisation(it: tree.Actualisation) -> Given:
    return _all(Kind.TYPE, (it.base, *it.actuals), False)


READERS: Dict[Type[Any], Callable[[Any], Given]] = {
    tree.Heading: _heading,
    tree.Variable: _variable,
    tree.Term: _term,
    tree.Call: _call,
    tree.Action: lambda it: _all(Kind.GATE, (it.gate,), False),
    tree.Asked: _asked,
    tree.Hide: lambda it: _all(Kind.GATE, it.gates, True),
    tree.Among: _among,
    tree.Sign: lambda it: _all(Kind.GATE, it.gates, False),
    tree.AnyValue: lambda it: _all(Kind.SORT, (it.sort,), False),
    tree.Library: lambda it: _all(Kind.LIBRARY, it.names, False),
    tree.Type: lambda it: _all(Kind.TYPE, (it.name,), True),
    tree.Sections: _sections,
    tree.OperationLine: _operation_line,
    tree.Group: lambda it: _all(Kind.SORT, (it.sort,), False),
    tree.Extension: lambda it: _all(Kind.TYPE, it.bases, False),
    tree.SortPair: _sort_pair,
    tree.OperationPair: _operation_pair,
    tree.Renaming: lambda it: _all(Kind.TYPE, (it.base,), False),
    tree.Actualisation: _actualisation,
    tree.OrderItem: lambda it: _all(Kind.OPERATION, (it.operation.name,), False),
}
