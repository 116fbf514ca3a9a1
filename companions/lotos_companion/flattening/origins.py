"""Where the parts of the data come from: each type's own, and those that it takes from others, renamed or actualised.

It is a reading beside the program's: it follows names, and what it says is compared with what `flatten` prints.
"""
from __future__ import annotations

from dataclasses import dataclass, replace
from typing import Dict, Iterable, Iterator, List, Sequence, Tuple

from ..checking.sources import place_at
from ..checking.texts import Text
from ..language import text_of, tree
from .parts import Operation, Part, Reader, Renaming, Sort, operations_of


@dataclass(frozen=True)
class Step:
    """A type through which a part went and got other names there."""

    type_name: str
    file: str
    line: int
    is_actualisation: bool


@dataclass(frozen=True)
class Origin:
    """Where a part is written: its type, the file and the line, the text there, and the types that renamed it on its way."""

    type_name: str
    file: str
    line: int
    written: str
    is_formal: bool = False
    steps: Tuple[Step, ...] = ()


Parts = Dict[Part, Tuple[Origin, ...]]


class Origins:
    """The parts of all types of some texts."""

    def __init__(self, texts: Sequence[Text]):
        self._types: Dict[str, List[Tuple[Text, tree.Type]]] = {}
        for text in texts:
            for type_ in text.types:
                self._types.setdefault(type_.name.key, []).append((text, type_))
        self._known: Dict[str, Parts] = {}
        self._all = _joined(parts for parts in map(self.of, self._types) if not _has_formal(parts))

    def find(self, part: Part) -> Tuple[Origin, ...]:
        """The origins of a part, each with the fewest types on its way. None where its names lead nowhere."""
        found: Dict[Tuple[str, int, str], Origin] = {}
        for it in sorted(self._all.get(part, ()), key=lambda it: len(it.steps)):
            found.setdefault((it.file, it.line, it.type_name), it)
        return tuple(found.values())

    def of(self, name: str) -> Parts:
        """The parts of the types with a name: several where processes have types of one name."""
        if name not in self._known:
            self._known[name] = {}  # For types that mention one another in a circle, which the program refuses.
            self._known[name] = _joined([self._parts(text, type_) for text, type_ in self._types.get(name, [])])
        return self._known[name]

    def _parts(self, text: Text, type_: tree.Type) -> Parts:
        """The parts of a type."""
        body = type_.body
        if isinstance(body, tree.Extension):
            below = _joined(self.of(it.key) for it in body.bases)
            own = _grouped(_declared(text, type_, body.sections))
            reader = Reader(it for it in _joined([below, own]) if isinstance(it, Operation))
            return _joined([below, own, _grouped(_equations(text, type_, body.sections, reader))])
        is_actualisation = isinstance(body, tree.Actualisation)
        step = Step(type_.name.text, text.name, _line(text, type_.place.offset), is_actualisation)
        taken = _renamed(self.of(body.base.key), Renaming.of(body.renames), step)
        if isinstance(body, tree.Renaming):
            return taken
        kept = {part: origins for part, origins in taken.items() if not all(it.is_formal for it in origins)}
        return _joined([*(self.of(it.key) for it in body.actuals), kept])


def _has_formal(parts: Parts) -> bool:
    """Whether there are parts that are still to be filled: the data have none of such a type."""
    return any(it.is_formal for origins in parts.values() for it in origins)


def shown(part: object) -> str:
    """The text of a part in one line."""
    return " ".join(text_of(part).split()).rstrip("; ")


def _joined(all_parts: Iterable[Parts]) -> Parts:
    """The parts of several, each with all its origins."""
    found: Parts = {}
    for parts in all_parts:
        for part, origins in parts.items():
            found[part] = tuple(dict.fromkeys((*found.get(part, ()), *origins)))
    return found


def _grouped(pairs: Iterable[Tuple[Part, Origin]]) -> Parts:
    return _joined({part: (origin,)} for part, origin in pairs)


def _renamed(parts: Parts, renaming: Renaming, step: Step) -> Parts:
    """Parts under new names. Those that get other ones went through the type, and all that are actualised."""
    found: List[Parts] = []
    for part, origins in parts.items():
        new = renaming.renamed(part)
        is_same = new == part and not step.is_actualisation
        found.append({new: origins if is_same else tuple(replace(it, steps=(*it.steps, step)) for it in origins)})
    return _joined(found)


def _line(text: Text, offset: int) -> int:
    return place_at(text.name, text.text.encode("latin-1"), offset).line


def _origin(text: Text, type_: tree.Type, part: object, offset: int, is_formal: bool) -> Origin:
    return Origin(type_.name.text, text.name, _line(text, offset), shown(part), is_formal)


def _declared(text: Text, type_: tree.Type, sections: tree.Sections) -> Iterator[Tuple[Part, Origin]]:
    """The sorts and operations that a type declares itself."""
    for is_formal, sorts in ((True, sections.formal_sorts), (False, sections.sorts)):
        for name in sorts or ():
            yield Sort(name.key), _origin(text, type_, name, name.place.offset, is_formal)
    for is_formal, lines in ((True, sections.formal_operations), (False, sections.operations)):
        for line in lines or ():
            for it, operation in operations_of(line):
                yield operation, _origin(text, type_, replace(line, operations=(it,)), it.place.offset, is_formal)


def _equations(text: Text, type_: tree.Type, sections: tree.Sections, reader: Reader) -> Iterator[Tuple[Part, Origin]]:
    """The equations that a type declares itself."""
    for is_formal, equations in ((True, sections.formal_equations), (False, sections.equations)):
        for group in equations.groups if equations else ():
            for it in group.equations:
                part = reader.equation(it, group, equations.variables if equations else ())
                if part:
                    yield part, _origin(text, type_, it, it.place.offset, is_formal)
