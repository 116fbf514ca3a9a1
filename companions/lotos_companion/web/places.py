"""The places that a session came to, numbered as they came, so that a page is told the new ones alone; where the session
stands among them, and the branch that redo goes along."""
from __future__ import annotations

from dataclasses import dataclass, field
from typing import Dict, List, Tuple

from ..traces import Step


@dataclass
class Place:
    """A state that was reached: the number of the place before it (that of the first state is -1), the step between, and
    the places that other steps led to from here."""

    parent: int
    step: Step
    depth: int
    behind: Dict[Tuple[str, str], int] = field(default_factory=dict)


class Places:
    """A tree of places, from the first state on, which is place 0."""

    def __init__(self) -> None:
        self.all = [Place(-1, Step("", "", ""), 0)]
        self.at = 0
        self.tip = 0

    def take(self, step: Step) -> int:
        """Goes along a step, on a new branch if it was not taken here before: the place behind it."""
        here = self.all[self.at]
        key = (step.line, step.label)
        if key not in here.behind:
            here.behind[key] = len(self.all)
            self.all.append(Place(self.at, step, here.depth + 1))
        is_ahead = self._is_on_branch(here.behind[key])
        self.at = here.behind[key]
        self.tip = self.tip if is_ahead else self.at
        return self.at

    def go(self, place: int) -> None:
        """Stands at a place. The branch to redo stays where the place lies on it."""
        if not self._is_on_branch(place):
            self.tip = place
        self.at = place

    def _is_on_branch(self, place: int) -> bool:
        """Whether a place lies on the branch that redo goes along."""
        on_branch = self.tip
        while self.all[on_branch].depth > self.all[place].depth:
            on_branch = self.all[on_branch].parent
        return on_branch == place

    def path(self, place: int) -> List[int]:
        """The places from behind the first step up to one."""
        found = []
        while place > 0:
            found.append(place)
            place = self.all[place].parent
        return found[::-1]

    def steps(self, place: int) -> List[Step]:
        """The steps that lead to a place."""
        return [self.all[it].step for it in self.path(place)]

    def ahead(self) -> List[int]:
        """The places that redo leads to, the next one first."""
        path = self.path(self.tip)
        return path[self.all[self.at].depth:]
