"""The states that were reached, with their menus, and the transitions between them."""
from __future__ import annotations

from array import array
from dataclasses import dataclass, field
from typing import Dict, Iterator, List, Optional, Tuple

from ..answers import Label


@dataclass(frozen=True)
class WayStep:
    """A step of a way: the number of its entry, its values as a session takes them, and its label."""

    number: str
    values: str
    label: str

    @property
    def line(self) -> str:
        """The line of a session that takes it."""
        return f"step {self.number} {self.values}".rstrip()

    @classmethod
    def read(cls, line: bytes, label: str) -> WayStep:
        """A step from its line."""
        _, number, *values = text(line).split(" ", 2)
        return cls(number, values[0] if values else "", label)


@dataclass
class MenuKind:
    """A menu, which many states may have: its lines, and the steps that are taken from it once they are known. `opens` are the
    entries that have variables or conditions, by their numbers, with their lines behind the number."""

    lines: Tuple[bytes, ...]
    opens: List[Tuple[str, bytes]] = field(default_factory=list)
    steps: Optional[List[bytes]] = None
    script: bytes = b""

    def __post_init__(self) -> None:
        for line in self.lines:
            number, _, rest = line.partition(b": ")
            if b" for " in rest or b" if " in rest:
                self.opens.append((number.decode(), rest))


class StateGraph:
    """States in the order in which they were reached, from 0 on, breadth first: two are one where `show` prints one text for
    them. The first `expanded` of them have all their transitions here, and the others none."""

    def __init__(self) -> None:
        self.numbers: Dict[bytes, int] = {}
        self.menus: List[MenuKind] = []
        self.parents, self.events, self.depths = array("l"), array("l"), array("l")
        self.labels: List[str] = []
        self.label_numbers: Dict[bytes, int] = {}
        self.first = array("l", [0])
        self.transition_labels, self.targets = array("l"), array("l")

    @property
    def states(self) -> int:
        """The number of states."""
        return len(self.menus)

    @property
    def transitions(self) -> int:
        """The number of transitions."""
        return len(self.targets)

    @property
    def expanded(self) -> int:
        """The number of states whose transitions are all here."""
        return len(self.first) - 1

    @property
    def depth(self) -> int:
        """The number of steps to the state that is farthest away."""
        return self.depths[-1] if self.depths else 0

    def texts(self) -> List[str]:
        """The texts of the states, as `show` prints them."""
        return [text(it) for it in self.numbers]

    def transitions_of(self, state: int) -> Iterator[Tuple[str, int]]:
        """The label and the target of each transition of an expanded state."""
        if state < self.expanded:
            for place in range(self.first[state], self.first[state + 1]):
                yield self.labels[self.transition_labels[place]], self.targets[place]

    def all_transitions(self) -> Iterator[Tuple[int, str, int]]:
        """All transitions: a state, a label, a state."""
        for state in range(self.expanded):
            for label, target in self.transitions_of(state):
                yield state, label, target

    def step(self, state: int, event: int) -> WayStep:
        """The step that takes an event of an expanded state."""
        steps = self.menus[state].steps
        assert steps is not None
        return WayStep.read(steps[event], self.labels[self.transition_labels[self.first[state] + event]])

    def way(self, state: int) -> List[WayStep]:
        """A shortest way to a state, from the first one on."""
        steps = []
        while state > 0:
            steps.append(self.step(self.parents[state], self.events[state]))
            state = self.parents[state]
        return steps[::-1]

    def deadlocks(self) -> Dict[int, List[WayStep]]:
        """The states whose menu is empty and that are not reached by `exit` alone, with a shortest way to each by another
        event."""
        dead = {state for state in range(self.states) if not self.menus[state].lines}
        found: Dict[int, List[WayStep]] = {0: []} if 0 in dead else {}
        for state in range(self.expanded if dead else 0):
            for event, (label, target) in enumerate(self.transitions_of(state)):
                if target in dead and target not in found and not is_exit(label):
                    found[target] = [*self.way(state), self.step(state, event)]
        return found

    def gates(self) -> Dict[str, int]:
        """The gates of the transitions, `i` and `exit` among them, each with the number of its transitions."""
        counts = [0] * len(self.labels)
        for label in self.transition_labels:
            counts[label] += 1
        gates: Dict[str, int] = {}
        for label_text, count in zip(self.labels, counts):
            if count:
                gate = Label.read(label_text).gate
                gates[gate] = gates.get(gate, 0) + count
        return gates


def is_exit(label: str) -> bool:
    """Whether this is the label of a successful end."""
    return label == "exit" or label.startswith("exit(")


def text(line: bytes) -> str:
    """The text of a line, with bytes that are no UTF-8 kept."""
    return line.decode("utf-8", "surrogateescape")
