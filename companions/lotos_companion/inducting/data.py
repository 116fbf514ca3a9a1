"""The data of a specification as the program flattens them: sorts, operations, equations; terms read and printed over them."""
from __future__ import annotations

import itertools
import subprocess
from dataclasses import dataclass, field
from typing import Dict, List, Optional, Sequence, Tuple

from ..language import NoTree, read_specification, read_terms
from ..language import tree as texts
from .terms import Node, Operation, Sides, Term, Variable

# The seconds that the program gets to flatten a specification.
SECONDS = 120


class Unreadable(Exception):
    """A specification or a term that is refused; the text says why."""


@dataclass
class Data:
    """Sorts by their names in small letters, operations in the order of their declarations, and equations in theirs."""

    sorts: Dict[str, str] = field(default_factory=dict)
    operations: List[Operation] = field(default_factory=list)
    equations: List[Sides] = field(default_factory=list)
    _named: Dict[Tuple[str, bool, int], List[Operation]] = field(default_factory=dict)

    def declare(self, name: str, is_infix: bool, arguments: Sequence[str], result: str) -> None:
        """Adds an operation."""
        operation = Operation(name, is_infix, tuple(map(self.sort, arguments)), self.sort(result), len(self.operations))
        self.operations.append(operation)
        self._named.setdefault((name.lower(), is_infix, len(arguments)), []).append(operation)

    def sort(self, name: str) -> str:
        """A sort as it was declared."""
        if name.lower() not in self.sorts:
            raise Unreadable(f"there is no sort {name}")
        return self.sorts[name.lower()]

    def of_sort(self, sort: str) -> List[Operation]:
        """The operations with results of a sort."""
        return [it for it in self.operations if it.result == sort]

    def namesakes(self, operation: Operation) -> List[Operation]:
        """The operations of the same name and form, whatever their sorts."""
        key = (operation.name.lower(), operation.is_infix)
        return [it for named, found in self._named.items() if named[:2] == key for it in found]

    def readings(self, text: texts.Term, scope: Dict[str, Variable]) -> List[Term]:
        """What a text can mean: each term with its sort."""
        found: List[Term]
        if not text.arguments and text.name.key in scope:
            found = [scope[text.name.key]]
        else:
            parts = [self.readings(it, scope) for it in text.arguments]
            found = [Node(operation, arguments)
                     for operation in self._named.get((text.name.key, text.is_infix, len(parts)), [])
                     for arguments in itertools.product(*parts)
                     if all(it.sort == sort for it, sort in zip(arguments, operation.arguments))]
        return [it for it in found if all(it.sort.lower() == mark.key for mark in text.marks)]

    def read_pair(self, left: str, right: str, variables: Sequence[Variable]) -> Sides:
        """The two sides of an equation, which have one pair of readings with one sort."""
        scope = {it.name.lower(): it for it in variables}
        try:
            (one,), (other,) = read_terms(left), read_terms(right)
        except NoTree as fault:
            raise Unreadable(f"no term: {fault}") from None
        except ValueError:
            raise Unreadable("one term is wanted on each side") from None
        return self._pair(one, other, scope)

    def _pair(self, left: texts.Term, right: texts.Term, scope: Dict[str, Variable]) -> Sides:
        pairs = [(one, other) for one in self.readings(left, scope) for other in self.readings(right, scope)
                 if one.sort == other.sort]
        if len(pairs) != 1:
            raise Unreadable("the two sides have no reading of one sort" if not pairs else "the two sides have several readings")
        return pairs[0]

    def add_equations(self, group: texts.Group) -> None:
        """Adds the equations of a group."""
        scope = {it.name.key: Variable(it.name.text, self.sort(it.sort.text)) for it in group.variables}
        self.equations += [self._pair(it.left, it.right, scope) for it in group.equations]

    def text(self, term: Term) -> str:
        """A term as the program reads it back. Where arguments leave the sort open, it is told by `of`."""
        if isinstance(term, Variable):
            return term.name
        operation, parts = term.operation, [self.text(it) for it in term.arguments]
        if operation.is_infix:
            found = " ".join((_bracketed(term.arguments[0], parts[0]), operation.name, _bracketed(term.arguments[1], parts[1])))
        else:
            found = operation.name + (f"({', '.join(parts)})" if parts else "")
        alike = self._named[operation.name.lower(), operation.is_infix, len(parts)]
        if sum(it.arguments == operation.arguments for it in alike) > 1:
            return f"({found} of {operation.result})"
        return found

    def pair_text(self, sides: Sides) -> str:
        """Two sides with a sign between them."""
        return f"{self.text(sides[0])} = {self.text(sides[1])}"


def _bracketed(term: Term, text: str) -> str:
    is_infix = isinstance(term, Node) and term.operation.is_infix and not text.startswith("(")
    return f"({text})" if is_infix or isinstance(term, Node) and term.operation.is_infix and not _is_closed(text) else text


def _is_closed(text: str) -> bool:
    """Whether the bracket that a text begins with is closed at its end."""
    depth = 0
    for place, letter in enumerate(text):
        depth += {"(": 1, ")": -1}.get(letter, 0)
        if depth == 0:
            return place == len(text) - 1
    return False


def read_data(program: str, spec: str) -> Data:
    """The data of a specification, as the program flattens them. `Unreadable` where it refuses."""
    done = subprocess.run([program, "flatten", spec], stdin=subprocess.DEVNULL, stdout=subprocess.PIPE, stderr=subprocess.DEVNULL,
                          timeout=SECONDS, check=False, start_new_session=True)
    flat = done.stdout.decode("utf-8", "surrogateescape")
    if done.returncode or not flat.startswith("specification "):
        raise Unreadable(flat.strip() or f"{spec}: the program ended with the status {done.returncode}")
    return data_of(flat)


def data_of(flat: str) -> Data:
    """The data of a flat text."""
    data = Data()
    found = next((it for it in read_specification(flat).items if isinstance(it, texts.Type)), None)
    sections: Optional[texts.Sections] = found.body.sections if found and isinstance(found.body, texts.Extension) else None
    if sections is None:
        return data
    data.sorts = {it.key: it.text for it in sections.sorts or ()}
    for line in sections.operations or ():
        for it in line.operations:
            data.declare(it.name.text, it.is_infix, [sort.text for sort in line.arguments], line.result.text)
    if sections.equations:
        for group in sections.equations.groups:
            data.add_equations(group)
    return data
