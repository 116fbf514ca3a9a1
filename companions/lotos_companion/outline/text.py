"""An outline as lines."""
from __future__ import annotations

from typing import Iterator

from .parts import Outline, Part, TypePart


def outline_lines(outline: Outline) -> Iterator[str]:
    """The lines of an outline: definitions as they are nested, with what each calls, and then the types."""
    for number, part in enumerate(outline.parts):
        yield from _part_lines(part, "process" if number else "specification")
    if outline.libraries:
        yield f"libraries {', '.join(outline.libraries)}"
    for it in outline.types:
        yield _type_line(it)


def _part_lines(part: Part, kind: str) -> Iterator[str]:
    indent = "  " * part.depth
    gates = f"[{', '.join(part.gates)}]" if part.gates else ""
    values = f"({', '.join(part.parameters)})" if part.parameters else ""
    yield f"{indent}{part.line}: {kind} {part.name}{gates}{values} : {part.exits}"
    if part.hidden:
        yield f"{indent}    hides {', '.join(part.hidden)}"
    shown = {f"{it.name}[{', '.join(it.gates)}]" if it.gates else it.name: it for it in part.calls}
    for call, it in shown.items():
        yield f"{indent}    calls {call}{'' if it.of is not None else ', which is not declared'}"


def _type_line(it: TypePart) -> str:
    what = {"": "is", "formal": "is", "actualised": "is actualised:", "renamed": "is renamed:"}[it.how]
    bases = f" {what} {', '.join(it.bases)}" if it.bases else ""
    counted = [f"sorts {', '.join(it.sorts)}"] if it.sorts else []
    counted += [f"{count} {name}{'' if count == 1 else 's'}"
                for count, name in ((it.operations, "operation"), (it.equations, "equation")) if count]
    return f"{it.line}: type {it.name}{bases}{' (formal)' if it.how == 'formal' else ''}{'; ' if counted else ''}{', '.join(counted)}"
