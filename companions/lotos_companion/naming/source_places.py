"""Where the parts of a flat text's behaviours stand in the specification's own text.

The program flattens each definition by itself, and keeps its order and its parts. So the two texts have the same parts one
after the other; where they have not, no places are told.
"""
from __future__ import annotations

from functools import lru_cache
from typing import Dict, Iterator, List, Optional, Tuple

from ..language import read_specification, tree, walk
from ..language.tokens import Place
from .deep_calls import deep_calls
from .definitions import Definition, Definitions


def source_places(source: tree.Specification, flat: tree.Specification) -> Dict[int, Place]:
    """Places in the specification's own text by offsets in the flat one: of names, events, calls, hidden gates and signs."""
    places: Dict[int, Place] = {}
    for own, other in zip(_definitions(source), _definitions(flat)):
        places[other.heading.name.place.offset] = own.heading.name.place
        marks, others = list(_marks(own.body)), list(_marks(other.body))
        if [it for it, _ in marks] == [it for it, _ in others]:
            places.update((flat_place.offset, place) for (_, place), (_, flat_place) in zip(marks, others))
    return places


@lru_cache(2)
def read_definitions(flat: str, source: Optional[str]) -> Definitions:
    """The definitions of a flat text, with places in the specification's own text where that is there. `NoTree` and `NoGrammar`
    as in reading."""
    specification = read_specification(flat)
    with deep_calls():
        places = source_places(read_specification(source), specification) if source is not None else {}
        return Definitions(specification, places)


def _definitions(specification: tree.Specification) -> List[Definition]:
    """The specification and its processes, each before those within it."""
    found: List[Definition] = []
    waiting: List[Definition] = [specification]
    while waiting:
        it = waiting.pop()
        found.append(it)
        waiting.extend(reversed([inner for inner in it.inner if isinstance(inner, tree.Process)]))
    return found


def _marks(body: tree.Behaviour) -> Iterator[Tuple[Tuple[str, str], Place]]:
    """What is marked in a behaviour, by what it is and its name."""
    for part in walk(body):
        if isinstance(part, tree.Action):
            yield ("event", part.gate.key), part.head
        elif isinstance(part, tree.Inner):
            yield ("inner", ""), part.head
        elif isinstance(part, tree.Call):
            yield ("call", ""), part.place
        elif isinstance(part, tree.Hide):
            yield from ((("hide", it.key), it.place) for it in _once(part.gates))
        elif isinstance(part, tree.Enable):
            yield ("enable", ""), part.sign_place
        elif isinstance(part, (tree.Stop, tree.Exit)):
            yield (type(part).__name__, ""), part.place


def _once(gates: tree.Names) -> List[tree.Name]:
    return list({it.key: it for it in reversed(gates)}.values())[::-1]
