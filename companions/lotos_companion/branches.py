"""The tree of the states that a session was in: each step that was taken leads to one, and steps from one state to others part
into branches. A state is named by its branch and by the number of steps to it: `2:5`."""
from __future__ import annotations

import re
from dataclasses import dataclass, field
from typing import Dict, Iterator, List, NamedTuple, Optional, Sequence

from .traces import Step

PLACE = re.compile(r"([1-9][0-9]{0,8}):([0-9]{0,9})")
MARK_NAME = re.compile(r"[A-Za-z_][\w.-]*")


@dataclass(eq=False)
class Node:
    """A state: the one before it and the step between them (none of the first), its branch, and how many steps lead to it.
    `called` is what a hidden step is called, where that is known."""

    parent: Optional[Node]
    step: Optional[Step]
    branch: int
    depth: int
    children: List[Node] = field(default_factory=list)
    called: Optional[str] = None

    @property
    def name(self) -> str:
        """What it is called."""
        return f"{self.branch}:{self.depth}"

    @property
    def path(self) -> List[Step]:
        """The steps that lead to it."""
        steps: List[Step] = []
        node: Optional[Node] = self
        while node and node.step:
            steps.append(node.step)
            node = node.parent
        return steps[::-1]

    @property
    def end(self) -> Node:
        """The last state of its branch."""
        node = self
        while node.children and node.children[0].branch == self.branch:
            node = node.children[0]
        return node


class Run(NamedTuple):
    """States one behind another in one branch, none but the last one of which has several behind it; and how deep in the tree
    they stand."""

    nodes: List[Node]
    level: int


class Branches:
    """The tree, the state that the session is in, and the marks by name."""

    def __init__(self) -> None:
        self.root = Node(None, None, 1, 0)
        self.here = self.root
        self.marks: Dict[str, Node] = {}
        self.count = 1

    def follow(self, done: Sequence[Step], undone: Sequence[Step] = ()) -> None:
        """Takes account of where the session is: the steps that led there, and those that can be taken again, the last one
        first."""
        self.here = self._walk(self.root, done)
        self._walk(self.here, undone[::-1])

    def call(self, names: Sequence[Optional[str]]) -> None:
        """Keeps what the steps are called that lead to the present state, in their order, as far as that is new."""
        node: Optional[Node] = self.here
        for name in reversed(names[:self.here.depth]):
            if node is None or node.called is not None:
                return
            node.called, node = name, node.parent

    def find(self, name: str) -> Optional[Node]:
        """The state with a mark, or that of a branch (the last one if no number of steps is told); nothing if there is none."""
        if name in self.marks:
            return self.marks[name]
        place = PLACE.fullmatch(name)
        last = next((it.end for it in self._all() if place and it.branch == int(place[1])), None)
        if not place or not last or not place[2]:
            return last
        node: Optional[Node] = last
        while node and node.depth > int(place[2]):
            node = node.parent
        return node if node and node.depth == int(place[2]) else None

    def runs(self) -> Iterator[Run]:
        """The whole tree, from the first state on, the older branches first."""
        waiting = [(self.root, 0)]
        while waiting:
            node, level = waiting.pop()
            nodes = [node]
            while len(node.children) == 1:
                node = node.children[0]
                nodes.append(node)
            yield Run(nodes, level)
            waiting += [(it, level + 1) for it in reversed(node.children)]

    def names_of(self, node: Node) -> List[str]:
        """The marks of a state."""
        return [name for name, it in self.marks.items() if it is node]

    def _all(self) -> Iterator[Node]:
        return (node for run in self.runs() for node in run.nodes)

    def _walk(self, node: Node, steps: Sequence[Step]) -> Node:
        """The state behind these steps, which is added where it is new."""
        for step in steps:
            node = self._child(node, step)
        return node

    def _child(self, node: Node, step: Step) -> Node:
        for child in node.children:
            if child.step and (child.step.line, child.step.label) == (step.line, step.label):
                return child
        branch = node.branch
        if node.children:
            self.count += 1
            branch = self.count
        child = Node(node, step, branch, node.depth + 1)
        node.children.append(child)
        return child
