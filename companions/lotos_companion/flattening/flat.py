"""The flat text with the origins of its sorts, operations and equations."""
from __future__ import annotations

from dataclasses import dataclass, replace
from typing import Any, Dict, Iterator, List, Tuple

from ..checking.sources import Sources
from ..checking.texts import read_texts
from ..language import read_specification, tree
from ..program import Words
from .origins import Origin, Origins, shown
from .parts import Reader, Sort, operations_of


@dataclass(frozen=True)
class FlatPart:
    """A sort, an operation or an equation of the flat text: what it is, its text there, the names in it, and where it came
    from."""

    kind: str
    text: str
    names: Tuple[str, ...]
    origins: Tuple[Origin, ...]

    @property
    def line(self) -> str:
        """It with where it came from."""
        return f"{self.kind} {self.text} <- {self.told}"

    @property
    def told(self) -> str:
        """Where it came from, in words."""
        return "; ".join(_told(it, self.text) for it in self.origins) or "not known"

    @property
    def data(self) -> Dict[str, Any]:
        """It for scripts."""
        return {"kind": self.kind, "text": self.text, "origins": [
            {"type": it.type_name, "file": it.file, "line": it.line, "written": it.written,
             "through": [{"type": step.type_name, "file": step.file, "line": step.line,
                          "actualised": step.is_actualisation} for step in it.steps]} for it in self.origins]}


def _told(origin: Origin, text: str) -> str:
    """Where a part with this text came from."""
    steps = "".join(f", {'actualised' if it.is_actualisation else 'renamed'} in {it.type_name} ({it.file}:{it.line})"
                    for it in origin.steps)
    written = f", written {origin.written}" if origin.steps and origin.written != text else ""
    return f"{origin.type_name} ({origin.file}:{origin.line}){written}{steps}"


def flat_parts(words: Words, flat: str) -> List[FlatPart]:
    """The parts of a flat text, in their order. `NoTree` where a text cannot be read."""
    sections = data_of(flat)
    origins = Origins(read_texts(Sources(words)))
    return list(_parts(sections, origins)) if sections else []


def data_of(flat: str) -> tree.Sections:
    """What the one type of a flat text has; nothing where it has none."""
    for it in read_specification(flat).items:
        if isinstance(it, tree.Type) and isinstance(it.body, tree.Extension):
            return it.body.sections
    return tree.Sections()


def _parts(sections: tree.Sections, origins: Origins) -> Iterator[FlatPart]:
    for name in sections.sorts or ():
        yield FlatPart("sort", name.text, (name.key,), origins.find(Sort(name.key)))
    for line in sections.operations or ():
        for it, operation in operations_of(line):
            yield FlatPart("operation", shown(replace(line, operations=(it,))), (it.name.key,), origins.find(operation))
    reader = Reader(operation for line in sections.operations or () for _, operation in operations_of(line))
    equations = sections.equations
    for group in equations.groups if equations else ():
        for equation in group.equations:
            declared = equations.variables if equations else ()
            variables = {it.name.key for it in (*declared, *group.variables)}
            names = {it.name.key for side in (equation.left, equation.right) for it in _terms(side)} - variables
            part = reader.equation(equation, group, declared)
            yield FlatPart("equation", shown(equation), tuple(sorted(names)), origins.find(part) if part else ())


def _terms(term: tree.Term) -> Iterator[tree.Term]:
    yield term
    for it in term.arguments:
        yield from _terms(it)


def with_comments(flat: str, parts: List[FlatPart]) -> str:
    """The flat text with a comment behind each part that says where it came from. It says the same as without them."""
    comments = iter([f" (* {it.told.replace('*)', '* )')} *)" for it in parts])
    lines: List[str] = []
    section = ""
    for line in flat.split("\n"):
        word = line.partition(" ")[0]
        if word in ("opns", "eqns", "endtype", "behaviour", "sorts"):
            section = word
        if word == "sorts":
            names = line[len("sorts "):].split(", ")
            ends = [","] * (len(names) - 1) + [""]
            lines += ["sorts", *(name + end + next(comments) for name, end in zip(names, ends))]
        else:
            is_part = section in ("opns", "eqns") and word != section
            lines.append(line + next(comments) if is_part else line)
    return "\n".join(lines)
