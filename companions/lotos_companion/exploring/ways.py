"""A shortest way to an event."""
from __future__ import annotations

from dataclasses import dataclass
from typing import Callable, Dict, List, Optional, Sequence, Tuple

from ..answers import Entry, Label
from ..program import Words
from ..session import Session
from .explorer import Explorer
from .graph import MenuKind, WayStep, text
from .limits import Limits, Progress


@dataclass(frozen=True)
class Goal:
    """An event that is looked for: its gate (or `i`, or `exit`), and its values, of which nothing is said where there are none.
    A value of None stands for any. Gates are compared without regard to case, values by their normal forms."""

    gate: str
    values: Optional[Tuple[Optional[str], ...]] = None

    def fits(self, label: Label) -> bool:
        """Whether a label is one of those that are looked for. The values are normal forms here."""
        if label.gate.lower() != self.gate.lower():
            return False
        if self.values is None:
            return True
        return len(self.values) == len(label.values) and all(
            wanted is None or wanted.lower() == value.lower() for wanted, value in zip(self.values, label.values))

    def normal(self, session: Session) -> Goal:
        """The same with normal forms. `ValueError` with the program's refusal where a value is no term."""
        if self.values is None:
            return self
        found: List[Optional[str]] = []
        for value in self.values:
            said = None if value is None else session.ask(f"normal {value}").first
            if said is not None and said.startswith("refused "):
                raise ValueError(f"{value}: {said}")
            found.append(said)
        return Goal(self.gate, tuple(found))

    def given(self, entry: Entry) -> Optional[str]:
        """The values for the variables of an entry that the goal names, or nothing where it is no such event or does not name
        all."""
        if entry.label.gate.lower() != self.gate.lower() or len(entry.label.values) != len(self.values or ()):
            return None
        named = {slot: value for slot, value in zip(entry.label.values, self.values or ())}
        taken = [named.get(variable) for variable in entry.variables]
        return ", ".join(it for it in taken if it is not None) if None not in taken and taken else None


@dataclass(frozen=True)
class Found:
    """What was found: a way whose last step is the event, or None; why the search stopped before it had seen all, or None;
    how many states it has seen; and the entries of which some instances may not have been looked at, as they were printed."""

    way: Optional[List[WayStep]]
    cut: Optional[str]
    states: int
    open_entries: Tuple[str, ...]


class _Search:
    """A search underway: what an explorer asks of each layer."""

    def __init__(self, goal: Goal):
        self.goal = goal
        self.explorer: Explorer
        self.way: Optional[List[WayStep]] = None
        self._seen: Dict[int, Optional[WayStep]] = {}

    def look(self, layer: Sequence[int]) -> bool:
        """Whether a state of the layer has the event in its menu: then the way is found."""
        for state in layer:
            kind = self.explorer.graph.menus[state]
            if id(kind) not in self._seen:
                self._seen[id(kind)] = self._step(kind)
            step = self._seen[id(kind)]
            if step is not None:
                self.way = [*self.explorer.graph.way(state), step]
                return True
        return False

    def _step(self, kind: MenuKind) -> Optional[WayStep]:
        """The first step from a menu that is the event."""
        opens = dict(kind.opens)
        for line in kind.lines:
            entry = Entry.read(text(line))
            if entry.number not in opens:
                if self.goal.fits(entry.label):
                    return WayStep(entry.number, "", entry.label.text)
                continue
            for values, label in self.explorer.instances[opens[entry.number]]:
                if self.goal.fits(Label.read(label)):
                    return WayStep(entry.number, text(values), label)
        return None


def shortest_way(program: str, words: Words, goal: Goal, *, steps: Sequence[str] = (), limits: Limits = Limits(),
                 values: int = 3, jobs: int = 1, watch: Optional[Callable[[Progress], None]] = None) -> Found:
    """Looks for a shortest way, by the number of its steps, hidden ones among them, to an event of the goal, from the state
    behind some steps (lines of a session, from its beginning) on. Variables get the values that `instances` lists for them
    up to the size `values`, and those that the goal names. `limits.depth` is the number of steps before the event.

    `Ended` where the specification is not accepted, `ValueError` where a value of the goal is no term, `Unexpected` where a
    step is not possible. The sessions are its own: one that the caller has is not touched."""
    session = Session(program, words)
    try:
        session.opening()
        search = _Search(goal.normal(session))
    finally:
        session.kill()
    explorer = Explorer(program, words, limits=limits, values=values, jobs=jobs, steps=steps, watch=watch, goal=search.look,
                        given=search.goal.given)
    search.explorer = explorer
    explorer.run()
    cut = None if search.way else explorer.cut
    return Found(search.way, cut, explorer.graph.states, tuple(text(it) for it in explorer.instances))
