"""The trees of the texts of a check, as far as they can be read, and what is declared and used in them."""
from __future__ import annotations

from dataclasses import dataclass
from functools import lru_cache
from typing import Any, Iterator, List, Optional, Tuple

from ..language import tree
from ..language.reading import NoGrammar, NoTree, read_specification
from ..language.walking import all_of
from .names import Kind, Occurrence, occurrences
from .sources import Sources
from .texts import Text, library_text, mentions


@dataclass(frozen=True)
class TextTree:
    """A text by the name that the program tells it by, its tree or those of its items, and the names in it."""

    text: str
    root: Any
    names: Tuple[Occurrence, ...]

    @property
    def lines(self) -> Iterator[tree.OperationLine]:
        """The lines that declare operations."""
        return (it for root in self.roots for it in all_of(tree.OperationLine, root))

    @property
    def variables(self) -> Iterator[tree.Variable]:
        """The variables that are declared, those of `?` among them."""
        for root in self.roots:
            yield from all_of(tree.Variable, root)
            for asked in all_of(tree.Asked, root):
                yield from (tree.Variable(it, asked.sort) for it in asked.names)

    @property
    def roots(self) -> Tuple[Any, ...]:
        return self.root if isinstance(self.root, tuple) else (self.root,)


@dataclass(frozen=True)
class Trees:
    """The tree of the specification, or nothing where it cannot be read, and the names of its text and of its libraries."""

    specification: Optional[tree.Specification]
    texts: Tuple[TextTree, ...]

    def declared(self, *kinds: Kind) -> Iterator[Tuple[str, Occurrence]]:
        """Where names of these kinds are declared, with the names of the texts."""
        for text in self.texts:
            for it in text.names:
                if it.declares and it.kind in kinds:
                    yield text.text, it

    def used(self, *kinds: Kind) -> Iterator[Tuple[str, Occurrence]]:
        """Where they are used."""
        for text in self.texts:
            for it in text.names:
                if not it.declares and it.kind in kinds:
                    yield text.text, it


def read_trees(sources: Sources) -> Trees:
    """The trees of the texts: a library that cannot be read has no names."""
    text = (sources.read(sources.specification) or b"").decode("latin-1")
    root = _specification(text)
    if root is None:
        return Trees(None, ())
    found = [TextTree(sources.specification, root, tuple(occurrences(root)))]
    waiting = [it.name for it in found[0].names if it.kind is Kind.LIBRARY]
    seen: List[str] = []
    while waiting:
        name = waiting.pop(0)
        if name.lower() not in seen:
            seen.append(name.lower())
            library = _library(sources, name)
            if library:
                found.append(TextTree(library.name, library.items, tuple(it for item in library.items for it in occurrences(item))))
                waiting += [it.text for it in mentions(library)]
    return Trees(root, tuple(found))


@lru_cache(8)
def _specification(text: str) -> Optional[tree.Specification]:
    try:
        return read_specification(text)
    except (NoTree, NoGrammar):
        return None


def _library(sources: Sources, name: str) -> Optional[Text]:
    try:
        return library_text(sources, tree.Name(name))
    except (NoTree, NoGrammar):
        return None
