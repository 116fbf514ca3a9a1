"""A scenario as lines: each step with the menu that it was chosen from, and where a changed specification parts from it."""
from __future__ import annotations

from typing import Iterator, Optional, Union

from .answers import Menu
from .naming import named_lines
from .scenario import Moment, Names, Scenario
from .traces import Step


def menu_lines(menu: Menu, step: Optional[Step], names: Names = ()) -> Iterator[str]:
    """The entries of a menu with the names of hidden ones, with a mark at the one that a step takes, and its values behind it."""
    if not menu.lines:
        yield f"    {menu.head}"
    for line in named_lines(menu.lines, names) if names else menu.lines:
        is_taken = step is not None and line.startswith(f"{step.number}: ")
        values = f"  <- {step.values}" if is_taken and step and step.values else ""
        yield f"  {'>' if is_taken else ' '} {line}{values}"


def scenario_lines(scenario: Scenario, with_states: bool) -> Iterator[str]:
    """All steps, what is possible behind the last one, and what is said if a step does not fit."""
    for count, moment in enumerate(scenario.moments, 1):
        if with_states and moment.state is not None:
            yield f"    at {moment.state}"
        values = f"  <- {moment.step.values}" if moment.step.values and not moment.menu else ""
        yield f"step {count}: {moment.label}{values}"
        if moment.menu:
            yield from menu_lines(moment.menu, moment.step, moment.names)
    if with_states and scenario.state is not None:
        yield f"    at {scenario.state}"
    if scenario.refused:
        yield f"step {len(scenario.moments) + 1}: {scenario.refused.label}"
    elif scenario.menu and not scenario.refusal:
        yield "behind the last step"
    if scenario.menu:
        yield from menu_lines(scenario.menu, scenario.refused, scenario.names)
    if scenario.refusal:
        yield scenario.refusal


def _side(name: str, scenario: Scenario, place: int, step: Optional[Step]) -> Iterator[str]:
    """What one specification has before a step: the menu and the state."""
    yield f"{name}"
    is_behind = place == len(scenario.moments)
    there: Union[Scenario, Moment] = scenario if is_behind else scenario.moments[place]
    if there.menu:
        yield from menu_lines(there.menu, step, there.names)
    yield f"    at {there.state}"


def difference_lines(old_name: str, old: Scenario, new_name: str, new: Scenario) -> Iterator[str]:
    """Where the menus of the new specification differ first from the old ones, and where it parts from the scenario."""
    steps = [it.step for it in old.moments]
    count = len(steps)

    def both(place: int) -> Iterator[str]:
        step = steps[place] if place < count else None
        yield from _side(old_name, old, place, step)
        yield from _side(new_name, new, place, step)

    parts = len(new.moments) if new.refusal else None
    menus = [(one.menu, other.menu) for one, other in zip(old.moments, new.moments)] + [(new.menu, old.menu)] * (parts is None)
    differs = next((place for place, (one, other) in enumerate(menus) if one != other), None)
    if parts is None:
        yield f"all {count} steps fit" + (" and all menus are the same" if differs is None else "")
    if differs is not None:
        yield f"the menus differ first at step {differs + 1} of {count}: {old.moments[differs].label}" if differs < count \
            else "the menus differ behind the last step"
        yield from both(differs)
    if parts is not None:
        yield f"parts at step {parts + 1} of {count}: {old.moments[parts].label}" if new.refused else "parts before the first step"
        yield from both(parts)
        yield str(new.refusal)
