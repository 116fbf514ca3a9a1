"""What came of a scenario: each of its events with the step that is it, and where a specification parts from it."""
from __future__ import annotations

import re
from dataclasses import dataclass, field
from difflib import SequenceMatcher
from enum import Enum
from typing import Dict, Iterator, Optional, Sequence, Tuple

from ..traces import Step
from .renaming import Renamings
from .scenario import Item, Scenario

MOST_SHOWN = 12
# A word, blanks, or one sign: brackets are told apart, so that what stands in them is.
PART = re.compile(r"\w+|\s+|.")


class Verdict(Enum):
    """What is said of a scenario."""

    PASSED = "passed"
    FAILED = "failed"
    INCONCLUSIVE = "inconclusive"


@dataclass(frozen=True)
class Taken:
    """A step that was taken: what it is called, the item of the scenario that it is (or nothing for a hidden step between),
    and how many entries could have been that item."""

    step: Step
    called: str
    item: Optional[int]
    choices: int = 1


def marked(text: str, other: str) -> str:
    """A text with the parts in `{braces}` that another one has not."""
    parts, old = PART.findall(text), PART.findall(other)
    shown = []
    for kind, _, _, begin, end in SequenceMatcher(None, old, parts, False).get_opcodes():
        piece = "".join(parts[begin:end])
        shown.append(f"{{{piece}}}" if piece and kind != "equal" else piece)
    return "".join(shown)


@dataclass(frozen=True)
class Parting:
    """Where the specification does not go on as the scenario does: the number of the item, the item, the steps before it,
    what is possible there, and the nearest of that."""

    item: int
    wanted: Item
    taken: Tuple[Taken, ...]
    possible: Tuple[str, ...]

    @property
    def nearest(self) -> Optional[str]:
        """What is most like what was wanted, if anything is."""
        wanted = str(self.wanted)
        rated = [(SequenceMatcher(None, wanted, it, False).ratio(), it) for it in self.possible]
        best = max(rated, key=lambda it: it[0], default=(0.0, ""))
        return best[1] if best[0] > 0.3 else None

    @property
    def difference(self) -> Optional[Tuple[str, str]]:
        """What was wanted and the nearest, each with the parts in `{braces}` that the other has not."""
        if self.nearest is None:
            return None
        return marked(str(self.wanted), self.nearest), marked(self.nearest, str(self.wanted))


@dataclass(frozen=True)
class Result:
    """What came of a scenario: the verdict, the steps of the way that was found, where it parts, what is said besides, what
    stands for names of the scenario, the text of the trace where there is one, and the number of states looked at."""

    verdict: Verdict
    scenario: Scenario
    taken: Tuple[Taken, ...] = ()
    parting: Optional[Parting] = None
    said: Tuple[str, ...] = ()
    renamings: Renamings = field(default_factory=Renamings)
    trace: Tuple[str, ...] = ()
    states: int = 0

    @property
    def renamed(self) -> Dict[str, str]:
        """The new names by the old ones."""
        return self.renamings.told

    @property
    def passed(self) -> bool:
        """Whether what is asked of the scenario holds."""
        return self.verdict is Verdict.PASSED


def event_number(items: Sequence[Item], place: int) -> int:
    """The number of an item among those that are no `..`, from 1."""
    return 1 + sum(str(it) != ".." for it in items[:place])


def result_lines(result: Result) -> Iterator[str]:
    """What came of a scenario, in lines."""
    items = result.scenario.items
    count = event_number(items, len(items)) - 1
    for old, new in sorted(result.renamed.items()):
        yield f"{old} is {new} here"
    for taken in result.taken:
        if taken.item is not None and taken.choices > 1:
            yield f"step {event_number(items, taken.item)}: {taken.called}: one of {taken.choices}"
    yield from result.said
    if result.parting:
        yield from parting_lines(result.parting, items, count)


def parting_lines(parting: Parting, items: Sequence[Item], count: int) -> Iterator[str]:
    """Where a specification parts from a scenario."""
    yield f"parts at step {event_number(items, parting.item)} of {count}"
    difference = parting.difference
    yield f"  wanted:   {difference[0] if difference else parting.wanted}"
    for place, possible in enumerate(parting.possible[:MOST_SHOWN]):
        yield f"  {'possible:' if place == 0 else ' ' * 9} {possible}"
    if len(parting.possible) > MOST_SHOWN:
        yield f"  {' ' * 9} and {len(parting.possible) - MOST_SHOWN} more"
    if not parting.possible:
        yield "  possible: nothing"
    if difference:
        yield f"  nearest:  {difference[1]}"
