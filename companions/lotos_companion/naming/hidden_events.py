"""What an event `i` is: the gate at which it was hidden, an `i` of the text, or an end before a `>>`; and where."""
from __future__ import annotations

from dataclasses import dataclass, replace
from enum import Enum
from typing import Optional, Tuple

from ..language.tokens import Place


class Kind(Enum):
    """How an event comes to be an `i`."""

    HIDDEN = "at a gate of a `hide`"
    INNER = "an `i` that is written"
    ENDED = "an end before a `>>`"


@dataclass(frozen=True)
class Way:
    """A part of the way to an event: the call of a process, or a side of a `par` (then there is no process)."""

    process: str
    text: str


@dataclass(frozen=True)
class Origin:
    """What an event `i` comes from in the text.

    `gate` is that of the `hide`, and else `i` or `exit`. `process` is the process in whose text it stands (for the
    specification its name), and `ways` is how one comes to it, the nearest part first. `place` is that in the
    specification's own text, if it is known, and `is_alone` tells whether nothing else there is called the same.
    """

    kind: Kind
    gate: str
    process: str
    ways: Tuple[Way, ...] = ()
    place: Optional[Place] = None
    is_alone: bool = True

    def below(self, way: Way) -> Origin:
        """The same behind a part of the way more."""
        return replace(self, ways=(*self.ways, way))

    @property
    def parts(self) -> Tuple[str, ...]:
        """The process as it is called, and where that is, the nearest first."""
        texts = tuple(it.text for it in self.ways)
        return texts if self.ways and self.ways[0].process == self.process else (self.process, *texts)


@dataclass(frozen=True)
class HiddenEvent:
    """An event `i` with its name. The values of an entry with variables have these variables; they are `None` where they are
    not known."""

    origin: Origin
    values: Optional[Tuple[str, ...]] = ()

    @property
    def kind(self) -> Kind:
        """How it comes to be an `i`."""
        return self.origin.kind

    @property
    def gate(self) -> str:
        """The gate, or `i` or `exit`."""
        return self.origin.gate

    @property
    def process(self) -> str:
        """The process in whose text it is hidden."""
        return self.origin.process

    @property
    def where(self) -> Tuple[str, ...]:
        """Where that process is called, the nearest first."""
        return self.origin.parts[1:]

    @property
    def label(self) -> str:
        """What the event would be called if it were not hidden."""
        if self.kind is Kind.ENDED:
            return "exit" + (f"({', '.join(self.values)})" if self.values else "")
        return self.gate + "".join(f" !{it}" for it in self.values or ())

    @property
    def short(self) -> str:
        """The name for where there is little room."""
        if self.kind is Kind.INNER:
            return f"i of {self.process}"
        return self.label if self.kind is Kind.HIDDEN else f"{self.label} before >>"

    @property
    def text(self) -> str:
        """The name, with where it is hidden."""
        word = {Kind.HIDDEN: ", hidden in", Kind.INNER: " of", Kind.ENDED: " before >> in"}[self.kind]
        way = "".join(f" {'in' if place else 'at'} {it}" for place, it in enumerate(self.where))
        place = self.origin.place
        line = f", line {place.line}" if place and not self.origin.is_alone else ""
        return f"{self.label}{word} {self.origin.parts[0]}{way}{line}"

    def __str__(self) -> str:
        return self.text
