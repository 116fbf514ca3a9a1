"""The definitions of a flat text by their names, the calls between them, and what is said of their parts."""
from __future__ import annotations

from collections import Counter
from typing import Dict, List, Optional, Tuple, Union

from ..language import text_of, tree, walk
from ..language.tokens import Place
from .call_graph import circles
from .hidden_events import Kind, Origin

Definition = Union[tree.Specification, tree.Process]

# The name of the specification among the names of processes: no process is called so.
SPECIFICATION = ""
LONGEST_CALL = 60


class Definitions:
    """The specification of a flat text and its processes; `places` are those of the specification's own text."""

    def __init__(self, specification: tree.Specification, places: Dict[int, Place]):
        self.specification = specification
        self._places = places
        self.by_name: Dict[str, Definition] = {SPECIFICATION: specification}
        for it in specification.inner:
            if isinstance(it, tree.Process):
                self.by_name[it.heading.name.key] = it
        parts = {name: list(walk(it.body)) for name, it in self.by_name.items()}
        self._calls = {name: [it for it in listed if isinstance(it, tree.Call)] for name, listed in parts.items()}
        self._call_texts = {place: text for calls in self._calls.values() for place, text in _call_texts(calls)}
        self._alike = Counter((name, *it) for name, listed in parts.items() for part in listed for it in _hidden_by(part))

    def groups(self) -> List[Tuple[str, ...]]:
        """The names in groups that call each other, those that are called before those that call."""
        return circles({name: [it.name.key for it in calls] for name, calls in self._calls.items()})

    def written(self, name: str) -> str:
        """The name of a definition as it is written where it is defined."""
        return self.by_name[name].heading.name.text

    def call_text(self, call: tree.Call) -> str:
        """What tells a call from others of the same process in the same definition."""
        return self._call_texts[call.place.offset]

    def source_place(self, place: Place) -> Optional[Place]:
        """The place in the specification's own text of what stands at a place of the flat one."""
        return self._places.get(place.offset)

    def origin(self, kind: Kind, gate: str, name: str, place: Place) -> Origin:
        """What is hidden at a place of the flat text in a definition."""
        is_alone = self._alike[name, kind, gate.lower()] < 2
        return Origin(kind, gate, self.written(name), (), self.source_place(place), is_alone)


def _hidden_by(part: object) -> List[Tuple[Kind, str]]:
    """What a part of a behaviour hides."""
    if isinstance(part, tree.Hide):
        return [(Kind.HIDDEN, it.key) for it in part.gates]
    return [(Kind.INNER, "i")] if isinstance(part, tree.Inner) else [(Kind.ENDED, "exit")] if isinstance(part, tree.Enable) else []


def _call_texts(calls: List[tree.Call]) -> List[Tuple[int, str]]:
    """The calls of a definition by their places: the process alone where it is called once, with gates and values as far as
    they are wanted to tell calls apart, and with their number where that does not suffice."""
    by_name: Dict[str, List[tree.Call]] = {}
    for it in calls:
        by_name.setdefault(it.name.key, []).append(it)
    found: List[Tuple[int, str]] = []
    for alike in by_name.values():
        forms = ([it.name.text for it in alike], [text_of(tree.Call(it.name, it.gates)) for it in alike],
                 [text_of(it) for it in alike], [f"{it.name.text}, call {count}" for count, it in enumerate(alike, 1)])
        texts = next(it for it in forms if len(set(it)) == len(alike) and max(map(len, it)) <= LONGEST_CALL or it is forms[-1])
        found += zip((it.place.offset for it in alike), texts)
    return found
