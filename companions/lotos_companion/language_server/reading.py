"""A text of an editor, read: its tree, mended where it has faults, the data that it declares, and the uses of its names."""
from __future__ import annotations

import os
from dataclasses import dataclass
from functools import lru_cache
from typing import Callable, Dict, List, Optional, Sequence, Tuple

from ..shipped import SHIPPED_BY_NAME
from ..language import tree
from ..language.recovery import known_tokens, read_mended
from .data import Data, Item, read_data
from .documents import Document
from .things import Kind, Thing, Use
from .uses import Uses

# How many bytes of a library's file are read: the program takes no longer text.
MOST_BYTES = 1 << 20
# What stands for the file of a library that comes with the program.
WITH_PROGRAM = "that comes with the program"


@dataclass(frozen=True)
class Reading:
    """What is read of a text: a specification, or the items of a library; their data, and the uses of names in their order."""

    specification: Optional[tree.Specification]
    items: Tuple[Item, ...]
    data: Data
    uses: Tuple[Use, ...]

    def use_at(self, offset: int) -> Optional[Use]:
        """The name that stands at an offset, or ends there."""
        found = [it for it in self.uses if it.place.offset <= offset <= it.place.end]
        return max(found, key=lambda it: it.place.offset) if found else None

    def uses_of(self, of: Use) -> List[Use]:
        """All uses that can be of what this one can be of, in the order of the text."""
        if not of.things:
            return [it for it in self.uses if it.kind is of.kind and it.name.key == of.name.key and not it.things]
        return [it for it in self.uses if set(it.things) & set(of.things)]


def is_library(document: Document) -> bool:
    """Whether a text is that of a library: by its name, or by its first word."""
    if document.path.endswith(".lib"):
        return True
    first = known_tokens(document.text[:4096])[:1]
    return bool(first) and first[0].key in ("type", "library")


class Reader:
    """Reads texts; what was read of a version of a text is kept."""

    def __init__(self, open_text: Callable[[str], Optional[str]]):
        self._open_text = open_text
        self._kept: Dict[str, Tuple[Document, Reading]] = {}

    def read(self, document: Document) -> Reading:
        """What is read of a text."""
        kept = self._kept.get(document.uri)
        if not kept or kept[0] is not document:
            kept = (document, self._read(document))
            self._kept[document.uri] = kept
        return kept[1]

    def forget(self, uri: str = "") -> None:
        """Forgets what was read of a text, or of all: what they mention has changed."""
        if uri:
            self._kept.pop(uri, None)
        else:
            self._kept.clear()

    def _read(self, document: Document) -> Reading:
        specification: Optional[tree.Specification] = None
        items: Tuple[Item, ...] = ()
        if is_library(document):
            items = _items(document.text)
        else:
            found = read_mended(document.text, "specification").tree
            specification = found if isinstance(found, tree.Specification) else None
        listed: Tuple[Item, ...] = (*specification.items, *specification.inner) if specification else items
        folder = os.path.dirname(document.path)
        data = read_data(listed, lambda name: self._library(folder, name))
        uses = Uses(data)
        found_uses = uses.of_specification(specification) if specification else uses.of_items(items)
        return Reading(specification, items, data, tuple(found_uses))

    def _library(self, folder: str, name: str) -> Optional[Tuple[str, Sequence[Item]]]:
        """The file of a library, and what stands in it."""
        if name.lower() in SHIPPED_BY_NAME:
            return f"library {name} {WITH_PROGRAM}", _items(SHIPPED_BY_NAME[name.lower()])
        path = os.path.join(folder, f"{name}.lib")
        text = self._open_text(path)
        if text is None:
            text = _file_text(path)
        return None if text is None else (path, _items(text))


@lru_cache(64)
def _items(text: str) -> Tuple[Item, ...]:
    return tuple(read_mended(text, "items").tree or ())


def _file_text(path: str) -> Optional[str]:
    """The text of a file, or nothing where it cannot be read."""
    try:
        with open(path, "rb") as file:
            return file.read(MOST_BYTES).decode("utf-8", "replace")
    except (OSError, ValueError):
        return None


def is_opened(thing: Thing) -> bool:
    """Whether the place of a declaration can be shown: it is none in a library that comes with the program."""
    return not thing.file.endswith(WITH_PROGRAM)


def scope_at(reading: Reading, offset: int) -> List[Thing]:
    """What can be named at a place: all types, sorts and operations, the processes, and the gates and variables that are declared
    before it in the definition around it. (Those of another branch of a choice may be among them.)"""
    definition = _definition_at(reading.specification, offset)
    found: Dict[Tuple[Kind, str, str], Thing] = {}
    for use in reading.uses:
        for thing in use.things:
            if thing.name.place != use.place or thing.file or thing.kind not in (Kind.PROCESS, Kind.GATE, Kind.VARIABLE):
                continue
            is_near = definition is not None and definition[0] <= use.place.offset < offset <= definition[1]
            if thing.kind is Kind.PROCESS or is_near:
                found[thing.kind, thing.name.key, ""] = thing
    for thing in reading.data.all():
        found[thing.kind, thing.name.key, thing.detail] = thing
    return list(found.values())


def _definition_at(of: Optional[tree.Specification], offset: int) -> Optional[Tuple[int, int]]:
    """Where the innermost definition around a place begins and ends."""
    if of is None:
        return None
    around, waiting = (of.place.offset, max(of.place.end, offset)), list(of.inner)
    while waiting:
        item = waiting.pop()
        if isinstance(item, tree.Process) and item.place.offset <= offset <= item.place.end:
            around, waiting = (item.place.offset, item.place.end), list(item.inner)
    return around
