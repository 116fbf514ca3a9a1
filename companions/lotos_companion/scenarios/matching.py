"""Which entries of a menu are events of a wanted name: with the values of their variables, and with what is renamed."""
from __future__ import annotations

from dataclasses import dataclass
from itertools import product
from math import prod
from typing import Dict, Iterator, List, Optional, Tuple

from ..answers import Entry
from ..fitting_values import fitting
from ..play import Play
from .called import Called
from .events import Event
from .renaming import Renamings
from .values import Equality

# How many values are tried for the variables of an entry of which nothing is known.
MOST_VALUES = 32
# The most operations of a value of a sort of which all values are tried.
LARGEST_VALUE = 3


@dataclass(frozen=True)
class Candidate:
    """An entry that can be the wanted event: the values of its variables, or nothing where they have to be looked for; what
    stands for the names of the event then; and whether no other values can be meant."""

    entry: Entry
    values: Optional[Tuple[str, ...]]
    renamings: Renamings
    is_told: bool


@dataclass(frozen=True)
class Chosen:
    """A line that takes an entry with values, and what stands for the names of the event then."""

    entry: Entry
    values: Tuple[str, ...]
    renamings: Renamings

    @property
    def line(self) -> str:
        """The line of the session."""
        return f"step {self.entry.number} {', '.join(self.values)}".rstrip()


class Matcher:
    """Finds the entries for events in the menu that a session has."""

    def __init__(self, play: Play):
        self._play = play
        self._called = Called(play)
        self._equality = Equality(play)
        self._found: Dict[str, List[Tuple[str, ...]]] = {}
        self._values: Dict[str, Optional[Tuple[str, ...]]] = {}
        self.has_left_out = False

    def candidates(self, event: Event, renamings: Renamings) -> List[Candidate]:
        """The entries of the present menu that can be this event."""
        found = (self._candidate(entry, called, event, renamings) for entry, called in self._called.entries())
        return [it for it in found if it]

    def hidden(self, renamings: Renamings) -> List[Candidate]:
        """The hidden entries of the present menu."""
        return [Candidate(it, None if it.variables else (), renamings, not it.variables)
                for it in self._play.menu.entries if it.label.is_internal]

    def possible(self) -> Tuple[str, ...]:
        """What the entries of the present menu are called."""
        return tuple(f"{called}{_conditions(entry)}" for entry, called in self._called.entries())

    def chosen(self, candidate: Candidate) -> Iterator[Chosen]:
        """The lines that take an entry: one where its values are known, else one for each value that is found. Behind the
        last one of these `has_left_out` is true: there may be others."""
        if candidate.values is not None:
            yield Chosen(candidate.entry, candidate.values, candidate.renamings)
        if candidate.is_told:
            return
        for values in self._fitting(candidate.entry):
            if values != candidate.values:
                yield Chosen(candidate.entry, values, candidate.renamings)
        self.has_left_out = self.has_left_out or not self._are_all(candidate.entry)

    def is_event(self, event: Event, label: str) -> bool:
        """Whether the step that was taken last, which came to a label, is the wanted event."""
        came = self._called.last_step(label)
        if event.is_hidden != came.is_hidden:
            return False
        if not event.gate or not came.gate:
            return True
        return self._equality.all_same(event.values, came.values)

    def step_called(self, label: str) -> Event:
        """What the step that was taken last is called, which came to a label."""
        return self._called.last_step(label)

    @property
    def why_no_names(self) -> Optional[str]:
        """Why hidden events have no names here, if they have none."""
        return self._called.why_none

    def _fitting(self, entry: Entry) -> List[Tuple[str, ...]]:
        """Values with which an entry can be taken. They depend on its line alone."""
        if entry.line not in self._found:
            self._found[entry.line] = list(self._all_choices(entry) or fitting(self._play, entry, MOST_VALUES))
        return self._found[entry.line]

    def _are_all(self, entry: Entry) -> bool:
        """Whether there are no other values."""
        operations = [it for sort in entry.sorts for it in self._play.signature.of_sort(sort)]
        have_constants_alone = bool(operations) and not any(it.arguments for it in operations)
        return self._all_choices(entry) is not None or have_constants_alone and len(self._fitting(entry)) < MOST_VALUES

    def _all_choices(self, entry: Entry) -> Optional[List[Tuple[str, ...]]]:
        """All choices of values for the variables of an entry, where their sorts have few, whether or not they fit."""
        listed = [self._values_of(it) for it in entry.sorts]
        known = [it for it in listed if it is not None]
        return list(product(*known)) if len(known) == len(listed) and prod(map(len, known)) <= MOST_VALUES else None

    def _values_of(self, sort: str) -> Optional[Tuple[str, ...]]:
        """The values of a sort, where those up to a small size are all."""
        if sort not in self._values:
            from ..exploring.finite_sorts import FiniteSorts
            finite = FiniteSorts(self._play.program, self._play.words)
            try:
                self._values[sort] = finite.values(sort, LARGEST_VALUE)
            finally:
                finite.close()
        return self._values[sort]

    def _candidate(self, entry: Entry, called: Event, event: Event, renamings: Renamings) -> Optional[Candidate]:
        """An entry as a candidate for an event, or nothing if it cannot be it."""
        now = _renamed(called, event, renamings)
        if now is None:
            return None
        known: Optional[Dict[str, str]] = {}
        if called.gate and event.gate:
            known = self._unified(entry, called, event)
        if known is None:
            return None
        return Candidate(entry, _given(entry, event, known), now, all(it in known for it in entry.variables))

    def _unified(self, entry: Entry, called: Event, event: Event) -> Optional[Dict[str, str]]:
        """The values of variables that stand alone in an entry's label, or nothing if a value without variables differs."""
        known: Dict[str, str] = {}
        if called.is_hidden and called.gate == "exit" and not called.values:
            return known  # They may be told behind the step alone.
        if len(called.values) != len(event.values):
            return None
        for shown, wanted in zip(called.values, event.values):
            if shown in entry.variables:
                if not self._equality.same(known.setdefault(shown, wanted), wanted):
                    return None
            elif "$" not in shown and not self._equality.same(shown, wanted):
                return None
        return known


def _given(entry: Entry, event: Event, known: Dict[str, str]) -> Optional[Tuple[str, ...]]:
    """The values of all variables of an entry: those that its label tells, else those that are given with the event."""
    if all(it in known for it in entry.variables):
        return tuple(known[it] for it in entry.variables)
    if len(event.given) == len(entry.variables):
        return tuple(known.get(it, given) for it, given in zip(entry.variables, event.given))
    return None


def _renamed(called: Event, event: Event, renamings: Renamings) -> Optional[Renamings]:
    """What stands for the names of an event if it is what an entry is called, or nothing if it cannot be."""
    if called.is_hidden != event.is_hidden:
        return None
    if not event.is_hidden:
        return renamings if called.gate.lower() == event.gate.lower() else None
    if event.is_any_hidden or called.is_any_hidden:
        return renamings
    if bool(called.gate) != bool(event.gate) or (called.gate == "exit") != (event.gate == "exit"):
        return None
    gates = renamings.gates.met(event.gate, called.gate)
    if gates is None:
        return None
    met = Renamings(renamings.processes, gates)
    return met.at(event.process, event.where, called.process, called.where) if event.process and called.process else met


def _conditions(entry: Entry) -> str:
    """What stands behind the label of an entry."""
    _, word, behind = entry.line.partition(" for ")
    return word + behind
