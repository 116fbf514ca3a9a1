"""The types, sorts and operations that a text and its libraries declare, from one name to all that have it."""
from __future__ import annotations

import os
from dataclasses import replace
from typing import Callable, Dict, Iterable, Iterator, List, Optional, Sequence, Set, Tuple, Union

from ..language import tree
from ..language.tree import Name
from .things import Kind, Thing, operation

Item = Union[tree.Library, tree.Type, tree.Process]
# The items of the library of a name, with the name of its file, or nothing where it cannot be read.
FindLibrary = Callable[[str], Optional[Tuple[str, Sequence[Item]]]]
MOST_LIBRARIES = 64


class Data:
    """All types, sorts and operations, by their kinds and their names without regard to letter case."""

    def __init__(self) -> None:
        self._things: Dict[Tuple[Kind, str], List[Thing]] = {}

    def add(self, thing: Thing) -> bool:
        """Adds a declaration, if it is not there: whether it was added."""
        named = self._things.setdefault((thing.kind, thing.name.key), [])
        if thing in named:
            return False
        named.append(thing)
        return True

    def find(self, kind: Kind, name: Name) -> Tuple[Thing, ...]:
        """The declarations of a kind that have a name."""
        return tuple(self._things.get((kind, name.key), ()))

    def formed(self, name: Name, is_infix: bool) -> List[Thing]:
        """The operations of a name and form."""
        return [it for it in self.find(Kind.OPERATION, name) if it.is_infix == is_infix]

    def operations(self, name: Name, is_infix: bool, arity: int) -> Tuple[Thing, ...]:
        """The operations of a name and form: those with so many arguments, or all where there are none of these."""
        named = self.formed(name, is_infix)
        return tuple([it for it in named if it.arity == arity] or named)

    def all(self) -> Iterator[Thing]:
        """All declarations."""
        for things in self._things.values():
            yield from things


def items_within(items: Iterable[Item]) -> Iterator[Union[tree.Library, tree.Type]]:
    """The libraries and types among items, and among those of processes."""
    for item in items:
        if isinstance(item, tree.Process):
            yield from items_within(item.inner)
        else:
            yield item


def read_data(items: Iterable[Item], find_library: FindLibrary) -> Data:
    """The data of a text with these items, and of the libraries that it mentions."""
    data = Data()
    types = list(_types(items, find_library))
    for of, file in types:
        data.add(Thing(Kind.TYPE, of.name, of.place, _bases(of), file))
        if isinstance(of.body, tree.Extension):
            for thing in _declared(of.body.sections, file):
                data.add(thing)
    for _ in types:  # A renamed type may be renamed once more.
        added = [data.add(it) for of, file in types for it in list(_renamed(of, data, file))]
        if not any(added):
            break
    return data


def _types(items: Iterable[Item], find_library: FindLibrary) -> Iterator[Tuple[tree.Type, str]]:
    """All types, each with the name of its file; those of the text itself have none."""
    waiting: List[Tuple[str, Iterable[Item]]] = [("", items)]
    seen: Set[str] = set()
    while waiting:
        file, listed = waiting.pop()
        for item in items_within(listed):
            if isinstance(item, tree.Type):
                yield item, file
                continue
            for name in item.names:
                if name.key not in seen and len(seen) < MOST_LIBRARIES:
                    seen.add(name.key)
                    found = find_library(name.text)
                    if found:
                        waiting.append(found)


def _bases(of: tree.Type) -> str:
    """What is told of a type: what it is made of."""
    body = of.body
    if isinstance(body, tree.Extension):
        return f" is {', '.join(it.text for it in body.bases)}" if body.bases else ""
    if isinstance(body, tree.Renaming):
        return f" is {body.base.text} renamedby"
    return f" is {body.base.text} actualizedby {', '.join(it.text for it in body.actuals)}"


def _declared(sections: tree.Sections, file: str) -> Iterator[Thing]:
    for sorts in (sections.formal_sorts, sections.sorts):
        for sort in sorts or ():
            yield Thing(Kind.SORT, sort, sort.place, "", file)
    for lines in (sections.formal_operations, sections.operations):
        for line in lines or ():
            for name in line.operations:
                yield operation(name, line, file)


def _renamed(of: tree.Type, data: Data, file: str) -> Iterator[Thing]:
    """What the new names of a type are of. (A new name that stands for a formal one is declared where the actual types are.)"""
    if isinstance(of.body, tree.Extension):
        return
    renames = of.body.renames
    sorts = {it.old.key: it.new.text for it in renames.sorts}
    for sort in renames.sorts:
        if not data.find(Kind.SORT, sort.new):
            yield Thing(Kind.SORT, sort.new, sort.new.place, f", {sort.old.text} of {of.body.base.text}", file)
    for pair in renames.operations:
        there = data.formed(pair.new.name, pair.new.is_infix)
        if all(it.name.place == pair.new.name.place and it.file == file for it in there):
            for old in data.formed(pair.old.name, pair.old.is_infix):
                detail = " ".join(sorts.get(word.rstrip(",").lower(), word.rstrip(",")) + "," * word.endswith(",")
                                  for word in old.detail.split(" "))
                yield replace(old, name=pair.new.name, whole=pair.new.place, file=file, is_infix=pair.new.is_infix, detail=detail)
