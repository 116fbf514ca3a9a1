"""The marked text: the flat one in which each event tells what takes part in it."""
from __future__ import annotations

from dataclasses import dataclass, replace
from typing import Dict, List, Tuple, Union

from ..language import text_of, tokens, tree
from ..naming.deep_calls import deep_calls
from ..naming.definitions import SPECIFICATION, Definitions
from ..naming.source_places import read_definitions
from .marking import Marker, Words, added_type
from .occurrences import Occurrence


@dataclass(frozen=True)
class MarkedText:
    """The text, the letters that begin all words which were added, and what the marks stand for by their numbers."""

    text: str
    stem: str
    occurrences: Tuple[Occurrence, ...]


def marked_text(flat: str, source: str) -> MarkedText:
    """The marked text of a flat text, with places in the specification's own text. `NoTree` and `NoGrammar` as in reading."""
    definitions = read_definitions(flat, source)
    specification = definitions.specification
    with deep_calls():
        words = Words(_unused_stem(flat))
        made = _marked(definitions, words)
    types = tuple(it for it in specification.items if isinstance(it, tree.Type))
    top = made.pop(SPECIFICATION)
    assert isinstance(top, tree.Specification)
    inner = tuple(made[it.heading.name.key] if isinstance(it, tree.Process) else it for it in specification.inner)
    items = (*specification.items, added_type(words, bool(types)))
    return MarkedText(text_of(replace(top, items=items, inner=_no_specification(inner))), words.stem, tuple(words.occurrences))


def _no_specification(inner: Tuple[object, ...]) -> Tuple[Union[tree.Library, tree.Type, tree.Process], ...]:
    return tuple(it for it in inner if isinstance(it, (tree.Library, tree.Type, tree.Process)))


def _marked(definitions: Definitions, words: Words) -> Dict[str, Union[tree.Specification, tree.Process]]:
    """All definitions, marked."""
    made: Dict[str, Union[tree.Specification, tree.Process]] = {}
    gates = (words.word("I"), words.word("T"))
    own = tuple(tree.Variable(words.word(it), words.word(sort)) for it, sort in (("f", "Path"), ("p", "Path"), ("c", "Calls")))
    for name, it in definitions.by_name.items():
        is_top = name == SPECIFICATION
        first, path, calls = map(words.apply, ("top", "top", "none") if is_top else ("f", "p", "c"))
        body = Marker(words, definitions, name, (first, path), calls).behaviour(it.body, it.heading.gates)
        parameters = it.heading.parameters + (() if is_top else own)
        made[name] = replace(it, heading=replace(it.heading, gates=it.heading.gates + gates, parameters=parameters), body=body)
    return made


def _unused_stem(text: str) -> str:
    """Letters that begin no word of a text, without regard to case."""
    words: List[str] = [it.key for it in tokens(text)]
    stem = "q"
    while any(it.startswith(stem) for it in words):
        stem += "q"
    return stem
