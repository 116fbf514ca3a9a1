"""What names stand for: declarations, and the places where they are used.

This is a reading for people who write: it finds what a name can mean, also in a text that is not right yet. What a text means is
told by the program alone.
"""
from __future__ import annotations

from dataclasses import dataclass
from enum import Enum
from typing import Optional, Tuple

from ..language.tokens import Place
from ..language.tree import Name, Names, OperationLine, OperationName, Variables


class Kind(Enum):
    """What a name is the name of."""

    SPECIFICATION = "specification"
    LIBRARY = "library"
    TYPE = "type"
    SORT = "sort"
    OPERATION = "operation"
    PROCESS = "process"
    GATE = "gate"
    VARIABLE = "variable"


@dataclass(frozen=True)
class Thing:
    """A declaration: its kind and name, the place of the whole of it, what is told of it, and the file that it stands in (none:
    the text itself). An operation has a form and a number of arguments."""

    kind: Kind
    name: Name
    whole: Place
    detail: str = ""
    file: str = ""
    is_infix: bool = False
    arity: int = 0

    @property
    def line(self) -> str:
        """The declaration in a line."""
        shown = f"_{self.name.text}_" if self.is_infix else self.name.text
        return f"{self.kind.value} {shown}{self.detail}"


@dataclass(frozen=True)
class Use:
    """A name where it stands: its kind, and the declarations that it may be of. They are more than one where operations have one
    name, and none where nothing is declared so. A declaration is a use of itself."""

    name: Name
    kind: Kind
    things: Tuple[Thing, ...]

    @property
    def place(self) -> Place:
        """Where the name stands."""
        return self.name.place


def gate_list(gates: Names) -> str:
    """Gates as a heading has them."""
    return f" [{', '.join(it.text for it in gates)}]" if gates else ""


def variable_list(variables: Variables) -> str:
    """Variables with their sorts as a heading has them."""
    return f" ({', '.join(f'{it.name.text} : {it.sort.text}' for it in variables)})" if variables else ""


def functionality(sorts: Optional[Names]) -> str:
    """A functionality as a heading has it."""
    if sorts is None:
        return " : noexit"
    return f" : exit({', '.join(it.text for it in sorts)})" if sorts else " : exit"


def profile(line: OperationLine) -> str:
    """The profile of operations that are declared together."""
    arguments = ", ".join(it.text for it in line.arguments)
    return f" : {arguments}{' ' if arguments else ''}-> {line.result.text}"


def operation(name: OperationName, line: OperationLine, file: str) -> Thing:
    """An operation that is declared."""
    return Thing(Kind.OPERATION, name.name, line.place, profile(line), file, name.is_infix, len(line.arguments))
