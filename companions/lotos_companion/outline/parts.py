"""What an outline has, read from the tree of a text."""
from __future__ import annotations

from dataclasses import dataclass
from typing import Dict, Iterable, Iterator, List, Optional, Set, Tuple, Union

from ..language import tree
from ..language.tree import Behaviour

Definition = Union[tree.Specification, tree.Process]


@dataclass(frozen=True)
class Call:
    """A call of a process: the number of the definition that it is of, or nothing where none has the name; its gates; its line."""

    name: str
    of: Optional[int]
    gates: Tuple[str, ...]
    line: int


@dataclass(frozen=True)
class Part:
    """A specification or a process: its name, gates, parameters and functionality, how deep it is nested, the gates that it hides,
    and its calls in the order of the text."""

    name: str
    gates: Tuple[str, ...]
    parameters: Tuple[str, ...]
    exits: str
    depth: int
    line: int
    hidden: Tuple[str, ...]
    calls: Tuple[Call, ...]


@dataclass(frozen=True)
class TypePart:
    """A type: what it is made of and how, its sorts, and how many operations and equations it declares."""

    name: str
    bases: Tuple[str, ...]
    how: str
    sorts: Tuple[str, ...]
    operations: int
    equations: int
    line: int


@dataclass(frozen=True)
class Outline:
    """The outline of a text. The first of the parts is the specification."""

    parts: Tuple[Part, ...]
    types: Tuple[TypePart, ...]
    libraries: Tuple[str, ...]


def read_outline(specification: tree.Specification) -> Outline:
    """The outline of a specification."""
    numbered = _definitions(specification)
    parts = tuple(_part(definition, depth, visible) for definition, depth, visible in numbered)
    items = [it for definition, _, _ in numbered for it in _items(definition)]
    formal = {name.key for it in items if isinstance(it, tree.Type) and isinstance(it.body, tree.Extension)
              for name in it.body.sections.formal_sorts or ()}
    types = tuple(_type(it, formal) for it in items if isinstance(it, tree.Type))
    libraries = tuple(name.text for it in items if isinstance(it, tree.Library) for name in it.names)
    return Outline(parts, types, libraries)


def _items(definition: Definition) -> Iterator[tree.Item]:
    if isinstance(definition, tree.Specification):
        yield from definition.items
    yield from (it for it in definition.inner if not isinstance(it, tree.Process))


def _definitions(top: tree.Specification) -> List[Tuple[Definition, int, Dict[str, int]]]:
    """All definitions in the order of the text, each with its depth and the processes that it sees, by their numbers."""
    found: List[Tuple[Definition, int, int]] = []
    waiting: List[Tuple[Definition, int, int]] = [(top, 0, -1)]
    while waiting:
        of, depth, around = waiting.pop()
        inner = [it for it in of.inner if isinstance(it, tree.Process)]
        waiting += [(it, depth + 1, len(found)) for it in reversed(inner)]
        found.append((of, depth, around))
    scopes: List[Dict[str, int]] = []
    for number, (_, _, around) in enumerate(found):
        own = {of.heading.name.key: at for at, (of, _, parent) in enumerate(found) if parent == number}
        scopes.append({**(scopes[around] if around >= 0 else {}), **own})
    return [(of, depth, scope) for (of, depth, _), scope in zip(found, scopes)]


def _part(of: Definition, depth: int, visible: Dict[str, int]) -> Part:
    heading = of.heading
    calls, hidden = [], []
    for behaviour in _behaviours(of.body):
        if isinstance(behaviour, tree.Call):
            gates = tuple(it.text for it in behaviour.gates)
            calls.append(Call(behaviour.name.text, visible.get(behaviour.name.key), gates, behaviour.place.line))
        elif isinstance(behaviour, tree.Hide):
            hidden += [it.text for it in behaviour.gates]
    exits = "noexit" if heading.exit_sorts is None else "exit"
    if heading.exit_sorts:
        exits = f"exit({', '.join(it.text for it in heading.exit_sorts)})"
    return Part(heading.name.text, tuple(it.text for it in heading.gates),
                tuple(f"{it.name.text} : {it.sort.text}" for it in heading.parameters), exits, depth, heading.name.place.line,
                tuple(hidden), tuple(calls))


def _behaviours(begin: Behaviour) -> Iterator[Behaviour]:
    """A behaviour and all within it, in the order of the text."""
    waiting = [begin]
    while waiting:
        of = waiting.pop()
        yield of
        waiting += reversed(list(_inside(of)))


def _inside(of: Behaviour) -> Iterator[Behaviour]:
    if isinstance(of, (tree.Action, tree.Inner, tree.Guard)):
        yield of.next
    elif isinstance(of, (tree.Choice, tree.Parallel, tree.Disable, tree.Enable)):
        yield of.left
        yield of.right
    elif isinstance(of, (tree.Hide, tree.Let, tree.ChooseValue, tree.ChooseGate, tree.ParGate, tree.Relabel)):
        yield of.body


def _type(of: tree.Type, formal: Set[str]) -> TypePart:
    """A type. What stands for a formal sort is no sort of its own."""
    body, line = of.body, of.name.place.line
    if isinstance(body, tree.Extension):
        sections = body.sections
        sorts = tuple(it.text for it in (*(sections.formal_sorts or ()), *(sections.sorts or ())))
        lines = (*(sections.formal_operations or ()), *(sections.operations or ()))
        equations = sum(len(group.equations) for it in (sections.formal_equations, sections.equations) if it for group in it.groups)
        is_formal = any(it is not None for it in (sections.formal_sorts, sections.formal_operations, sections.formal_equations))
        return TypePart(of.name.text, _texts(body.bases), "formal" if is_formal else "", sorts,
                        sum(len(it.operations) for it in lines), equations, line)
    actuals = body.actuals if isinstance(body, tree.Actualisation) else ()
    how = "actualised" if isinstance(body, tree.Actualisation) else "renamed"
    return TypePart(of.name.text, _texts((body.base, *actuals)), how, _texts(it.new for it in body.renames.sorts if it.old.key not in formal), 0,
                    0, line)


def _texts(names: Iterable[tree.Name]) -> Tuple[str, ...]:
    return tuple(it.text for it in names)
