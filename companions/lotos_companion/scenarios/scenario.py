"""A scenario by what its events are called: its lines, and what is asked of them."""
from __future__ import annotations

from dataclasses import dataclass
from enum import Enum
from typing import Optional, Sequence, Tuple, TypeVar, Union

from .events import Event

STATES = 10_000
Found = TypeVar("Found")


class Kind(Enum):
    """What is asked of a scenario."""

    TAKEN = "taken"
    MAY = "may"
    MUST = "must"
    NEVER = "never"

    @property
    def has_hidden_steps_between(self) -> bool:
        """Whether hidden steps may stand anywhere between its events."""
        return self is not Kind.TAKEN


@dataclass(frozen=True)
class Happens:
    """An event that happens here; the number of its line; and which of the entries that are called so is tried first, from 0."""

    event: Event
    line: int = 0
    first: int = 0

    def in_order(self, found: Sequence[Found]) -> Tuple[Found, ...]:
        """Things that were found for it, the one first that is tried first."""
        place = self.first
        return (*found[place:place + 1], *found[:place], *found[place + 1:])

    def __str__(self) -> str:
        return str(self.event)


@dataclass(frozen=True)
class Impossible:
    """An event that is impossible here; the number of its line."""

    event: Event
    line: int = 0

    def __str__(self) -> str:
        return f"not {self.event}"


@dataclass(frozen=True)
class Gap:
    """Any hidden steps, or none; the number of its line."""

    line: int = 0

    def __str__(self) -> str:
        return ".."


Item = Union[Happens, Impossible, Gap]


@dataclass(frozen=True)
class Scenario:
    """The items of a scenario in their order, what is asked of them, the words behind `run` where they are told, and the
    number of states after which the search ends."""

    items: Tuple[Item, ...]
    kind: Kind = Kind.TAKEN
    words: Optional[Tuple[str, ...]] = None
    states: int = STATES

    @property
    def events(self) -> Tuple[Event, ...]:
        """The events that happen."""
        return tuple(it.event for it in self.items if isinstance(it, Happens))
