"""The names that the texts of a specification declare, for completion and for guesses at values.

It is a light reading, and nothing that it says is shown as true: the program alone knows what a text means.
"""
from __future__ import annotations

import os
import re
from dataclasses import dataclass, field
from typing import Dict, Iterator, List, Sequence, Set, Tuple

from .shipped import SHIPPED_BY_NAME

TOKEN = re.compile(r"\(\*.*?\*\)|[A-Za-z0-9](?:_*[A-Za-z0-9])*|[#%&*+\-./<=>@\\^~{}]+|[^\s]", re.S)
SECTIONS = {"formalsorts", "formalopns", "formaleqns", "sorts", "opns", "eqns", "sortnames", "opnnames", "using",
            "renamedby", "actualizedby"}


@dataclass(frozen=True)
class Operation:
    """An operation: its name, whether it stands between its arguments, and the sorts of its arguments and its result."""

    name: str
    infix: bool
    arguments: Tuple[str, ...]
    result: str


@dataclass
class TypeText:
    """What the text of one type declares."""

    imports: List[str] = field(default_factory=list)
    operations: List[Operation] = field(default_factory=list)
    sorts: Dict[str, str] = field(default_factory=dict)
    names: Dict[str, str] = field(default_factory=dict)


def read_data_names(path: str, folder: str = ".") -> List[Operation]:
    """The operations of a specification's text and of its libraries, each once. None where the text cannot be read."""
    types: Dict[str, TypeText] = {}
    waiting = [_read(path)]
    seen: Set[str] = set()
    while waiting:
        tokens = _tokens(waiting.pop())
        types.update(_types(tokens))
        for name in _libraries(tokens):
            if name.lower() not in seen and len(seen) < 64:
                seen.add(name.lower())
                waiting.append(SHIPPED_BY_NAME.get(name.lower()) or _read(os.path.join(folder, f"{name}.lib")))
    found: Dict[Operation, None] = {}
    for name in types:
        found.update(dict.fromkeys(_operations(types, name, ())))
    return list(found)


def operations_of(text: str) -> List[Operation]:
    """The operations that the types of one text declare themselves, as a flat text has them all."""
    return [operation for it in _types(_tokens(text)).values() for operation in it.operations]


def _read(path: str) -> str:
    if not os.path.isfile(path):  # A pipe can be read once, and that is for the program.
        return ""
    try:
        with open(path, encoding="utf-8", errors="replace") as text:
            return text.read(1 << 20)
    except (OSError, ValueError):
        return ""


def _tokens(text: str) -> List[str]:
    return [it[0] for it in TOKEN.finditer(text) if not it[0].startswith("(*")]


def _libraries(tokens: Sequence[str]) -> Iterator[str]:
    """The names between `library` and `endlib`."""
    inside = False
    for token in tokens:
        word = token.lower()
        inside = word == "library" or inside and word != "endlib"
        if inside and word != "library" and token != ",":
            yield token


def _types(tokens: Sequence[str]) -> Dict[str, TypeText]:
    """The types of a text by their names in small letters."""
    types: Dict[str, TypeText] = {}
    begins = [place for place, token in enumerate(tokens) if token.lower() == "type"]
    for begin in begins:
        body = []
        for token in tokens[begin + 3:]:
            if token.lower() == "endtype":
                break
            body.append(token)
        types[tokens[begin + 1].lower() if begin + 1 < len(tokens) else ""] = _type(body)
    return types


def _type(body: Sequence[str]) -> TypeText:
    """A type from the tokens between `is` and `endtype`."""
    parts: Dict[str, List[str]] = {"": []}
    section = ""
    for token in body:
        if token.lower() in SECTIONS:
            section = token.lower()
            parts.setdefault(section, [])
        else:
            parts[section].append(token)
    imports = parts[""] + parts.get("renamedby", []) + parts.get("actualizedby", [])
    return TypeText([it.lower() for it in imports if it != ","], list(_declared(parts.get("opns", []))),
                    _pairs(parts.get("sortnames", [])), _pairs(parts.get("opnnames", [])))


def _declared(tokens: Sequence[str]) -> Iterator[Operation]:
    """The operations of a section `opns`."""
    names: List[str] = []
    arguments: List[str] = []
    wanted = names
    for token in tokens:
        if token == ":":
            wanted = arguments = []
        elif token == "->":
            wanted = []
        elif wanted is names or wanted is arguments:
            wanted.append(token)
        else:
            yield from _listed(names, arguments, token)
            names, arguments = [], []
            wanted = names


def _listed(names: Sequence[str], arguments: Sequence[str], result: str) -> Iterator[Operation]:
    """An operation for each name of a list."""
    sorts = tuple(it for it in arguments if it != ",")
    for name in " ".join(names).split(","):
        bare = name.replace("_", " ").strip() if name.strip().startswith("_") else name.strip()
        if bare:
            yield Operation(bare, name.strip().startswith("_"), sorts, result)


def _pairs(tokens: Sequence[str]) -> Dict[str, str]:
    """The pairs `new for old` of a section, new names by old ones in small letters."""
    plain = [it for it in tokens if it not in (",", "_")]
    return {plain[at + 1].lower(): plain[at - 1] for at, it in enumerate(plain[:-1]) if it.lower() == "for" and at > 0}


def _operations(types: Dict[str, TypeText], name: str, above: Tuple[str, ...]) -> Iterator[Operation]:
    """The operations of a type and of those that it mentions, under its new names."""
    text = types.get(name)
    if text is None or name in above:
        return
    yield from text.operations
    for place, base in enumerate(text.imports):
        for it in _operations(types, base, (*above, name)):
            yield _renamed(it, text) if place == 0 else it


def _renamed(operation: Operation, text: TypeText) -> Operation:
    """An operation of the first type that a type mentions, under this type's new names."""
    def sort(old: str) -> str:
        return text.sorts.get(old.lower(), old)

    name = text.names.get(operation.name.lower(), operation.name)
    return Operation(name, operation.infix, tuple(map(sort, operation.arguments)), sort(operation.result))
