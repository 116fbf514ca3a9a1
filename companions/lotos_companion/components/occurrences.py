"""What in a text can happen: its events, its `i;` and its ends before `>>`; and the calls by which one comes to them."""
from __future__ import annotations

from dataclasses import dataclass
from enum import Enum
from typing import Optional, Tuple

from ..language.tokens import Place

# Where a component stands in a state: 0 for the left side of a parallel and 1 for the right one, from the whole inwards. The path
# of what takes part in an event has a 2 too, where it stands behind a `[>` and nothing has happened there yet.
Path = Tuple[int, ...]


class Happening(Enum):
    """What an occurrence is."""

    EVENT = "an event at a gate"
    INNER = "an `i` that is written"
    ENDED = "an end before a `>>`"
    CALL = "a call"


@dataclass(frozen=True)
class Occurrence:
    """Something in the text that can happen: in which process, and where in the specification's own text, if that is known:
    at the event without what follows, at the `i`, at the sign `>>`, at the call. `is_first` is whether a process begins with it,
    so that nothing happens in the process before it."""

    happening: Happening
    process: str
    called: str
    place: Optional[Place]
    is_first: bool


@dataclass(frozen=True)
class Part:
    """A component's part in an event: what happens in it, where the component stands, and the calls by which it came to the
    process that this stands in, without anything between, the last one first."""

    occurrence: Occurrence
    path: Path
    calls: Tuple[Occurrence, ...] = ()

    @property
    def place(self) -> Optional[Place]:
        """Where it stands in the specification's own text."""
        return self.occurrence.place


Parts = Tuple[Part, ...]


def actions_of(parts: Parts) -> Tuple[Place, ...]:
    """Where that stands in the source which takes part in an event, in the order of the text."""
    return tuple(sorted({it.place for it in parts if it.place}, key=lambda it: it.offset))
