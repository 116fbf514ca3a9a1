"""A scenario made from steps: those of a trace, or those that the lines of a session take."""
from __future__ import annotations

from dataclasses import replace
from typing import Iterable, List, Sequence, Tuple

from ..answers import Entry, split_terms
from ..play import Parted, Play
from ..traces import Step
from .called import Called
from .events import Event
from .scenario import Gap, Happens, Item, Kind, Scenario


def steps_of_session(play: Play, lines: Iterable[str]) -> Tuple[Step, ...]:
    """The steps that stand behind the lines of a session. Traces are not saved."""
    play.open()
    for line in map(str.strip, lines):
        word = line.split(" ")[0]
        if word == "quit":
            break
        if word in ("step", "undo", "replay"):
            play.ask(line)
    return tuple(play.done)


def events_of_steps(play: Play, steps: Sequence[Step]) -> List[Happens]:
    """What the steps are called, which are taken from the first state on. `Parted` at the first that does not fit, or that
    leads to another state than the trace tells."""
    play.open()
    called = Called(play)
    return [_event(play, called, step) for step in steps]


def _event(play: Play, called: Called, step: Step) -> Happens:
    """What a step is called, which is taken."""
    before = called.entries()
    answer = play.take(step)
    state = play.ask("show") if step.state is not None else answer
    if answer.label is None or step.state not in (None, state.first):
        raise Parted(step, state)
    return happened(called, before, step)


def happened(called: Called, before: Sequence[Tuple[Entry, Event]], step: Step) -> Happens:
    """What the step is called that was taken last, by the entries before it. The values of its variables stand with it where
    the name does not have them."""
    entry, name = next((entry, name) for entry, name in before if entry.number == step.number)
    event = called.last_step(step.label)
    alike = [it.number for it, other in before if other == name]
    is_told = all(it in name.values for it in entry.variables)
    given = () if is_told else tuple(split_terms(step.values))
    return Happens(replace(event, given=given), first=alike.index(entry.number))


def scenario_of(events: Sequence[Happens], words: Sequence[str], visible_alone: bool = False) -> Scenario:
    """A scenario of events; with visible ones alone, hidden steps may stand between them."""
    items: List[Item] = []
    for it in events:
        if not it.event.is_hidden or not visible_alone:
            items.append(it)
        elif not items or not isinstance(items[-1], Gap):
            items.append(Gap())
    return Scenario(tuple(items), Kind.TAKEN, tuple(words))
