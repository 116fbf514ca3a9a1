"""The texts that the data of a specification come from: its own and those of its libraries, read as trees."""
from __future__ import annotations

from dataclasses import dataclass
from typing import Dict, Iterable, Iterator, List, Optional, Tuple, Union

from ..shipped import SHIPPED
from .sources import LIBRARY_END, Sources
from ..language import tree
from ..language.reading import read_items, read_specification

SHIPPED_PREFIX = "library "
SHIPPED_KEYS = {it[len(SHIPPED_PREFIX):].lower(): it for it in SHIPPED}
Definitions = Iterable[Union[tree.Library, tree.Type, tree.Process]]


@dataclass(frozen=True)
class Text:
    """A text by the name that the program tells it by, and its types and mentions in their order. A character is a byte."""

    name: str
    text: str
    items: Tuple[tree.Item, ...]

    @property
    def types(self) -> List[tree.Type]:
        """The types of the text."""
        return [it for it in self.items if isinstance(it, tree.Type)]


def read_texts(sources: Sources) -> List[Text]:
    """The specification's text and those of all libraries. `NoTree` where one is not in the language."""
    text = (sources.read(sources.specification) or b"").decode("latin-1")
    specification = read_specification(text)
    texts = [Text(sources.specification, text, (*specification.items, *_items(specification.inner)))]
    seen: Dict[str, None] = {}
    for it in texts:  # The list grows while it is gone through.
        for name in mentions(it):
            if name.key not in seen:
                seen[name.key] = None
                found = library_text(sources, name)
                texts += [found] if found else []
    return texts


def mentions(text: Text) -> Iterator[tree.Name]:
    """The names of the libraries that a text mentions."""
    for it in text.items:
        if isinstance(it, tree.Library):
            yield from it.names


def library_text(sources: Sources, name: tree.Name) -> Optional[Text]:
    """The text of a library, or nothing where it cannot be read."""
    shown = SHIPPED_KEYS.get(name.key, name.text + LIBRARY_END)
    read = sources.read(shown)
    if read is None:
        return None
    text = read.decode("latin-1")
    return Text(shown, text, read_items(text))


def _items(definitions: Definitions) -> Iterator[tree.Item]:
    """The types and mentions behind `where`, and behind that of the processes there."""
    for it in definitions:
        if isinstance(it, tree.Process):
            yield from _items(it.inner)
        else:
            yield it
