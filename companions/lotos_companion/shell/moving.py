"""Commands that go back and forth among the states that the session was in."""
from __future__ import annotations

from typing import Dict, Iterator, List

from ..branches import MARK_NAME, PLACE, Node, Run
from .desk import Desk, decimal
from .table import Command

# How many labels of a run of steps are shown from its beginning, and from its end.
FIRST, LAST = 4, 2
LONGEST = 40
HERE = " <- here"


class Moving:
    """Back, forth, and from branch to branch."""

    def __init__(self, desk: Desk):
        self._desk = desk

    def commands(self) -> Dict[str, Command]:
        """The commands by their words."""
        return {
            "back": Command("[N]", "takes back N steps, one if N is not there", self._back),
            "redo": Command("[N]", "takes the steps again that were undone last", self._redo),
            "goto": Command("N|B:N|B:|NAME", "goes behind step N, to step N of branch B, its end, or a mark", self._goto),
            "branches": Command("", "the tree of the branches that were taken, with the marks", self._branches),
            "mark": Command("[NAME]", "gives the present state a name", self._mark),
        }

    def _back(self, rest: str) -> None:
        number = decimal(rest) if rest else 1
        if number is None:
            self._desk.usage("back [N]")
        else:
            self._move(len(self._desk.play.done) - number)

    def _redo(self, rest: str) -> None:
        number = decimal(rest) if rest else 1
        if number is None:
            self._desk.usage("redo [N]")
        elif not self._desk.play.undone:
            self._desk.own("nothing to redo")
        else:
            self._move(len(self._desk.play.done) + number)

    def _goto(self, rest: str) -> None:
        number = decimal(rest)
        self._desk.follow()
        node = self._desk.tree.find(rest)
        if number is not None:
            self._move(number)
        elif node:
            self._go(node)
        elif PLACE.fullmatch(rest) or MARK_NAME.fullmatch(rest):
            self._desk.own(f"there is no {rest}: branches shows what there is")
        else:
            self._desk.usage("goto N|B:N|B:|NAME")

    def _move(self, place: int) -> None:
        """Goes to the state behind so many steps of the present branch."""
        play = self._desk.play
        last = len(play.done) + len(play.undone)
        if not 0 <= place <= last:
            self._desk.own(f"there are the states 0 to {last}, and this is {len(play.done)}")
        elif place == len(play.done):
            self._desk.own(f"this is the state behind step {place}")
        else:
            self._desk.say_moves(play.move(place))

    def _go(self, node: Node) -> None:
        """Goes to a state of the tree. What its branch has behind it can be taken by `redo` then."""
        play = self._desk.play
        if node is self._desk.tree.here:
            self._desk.own("this is that state")
            return
        self._desk.say_moves(self._desk.take_way(node.path))
        play.undone = node.end.path[node.depth:][::-1]

    def _mark(self, rest: str) -> None:
        tree = self._desk.tree
        self._desk.follow()
        if not rest:
            for name, node in tree.marks.items():
                self._desk.own(f"{name} is {node.name}")
            self._desk.own("mark NAME gives the present state a name" if not tree.marks else f"this is {tree.here.name}")
        elif MARK_NAME.fullmatch(rest):
            tree.marks[rest] = tree.here
            self._desk.own(f"{rest} is {tree.here.name}")
        else:
            self._desk.own("the name of a mark begins with a letter, and has letters, digits and _.- behind it")

    def _branches(self, _rest: str) -> None:
        tree = self._desk.tree
        self._desk.follow()
        for run in tree.runs():
            for line in self._run_lines(run):
                self._desk.own_text(line, line.endswith(HERE))

    def _run_lines(self, run: Run) -> Iterator[str]:
        """The lines of states one behind another: those with a mark, and the present one, end a line."""
        part: List[Node] = []
        for node in run.nodes:
            part.append(node)
            word = self._word(node)
            if word or node is run.nodes[-1]:
                yield f"{'  ' * run.level}{_names(part)}{_labels(part)}{word}"
                part = []

    def _word(self, node: Node) -> str:
        """What is said of a state: its marks, and whether it is the present one."""
        marks = "".join(f" ({it})" for it in self._desk.tree.names_of(node))
        return f"{marks}{HERE if node is self._desk.tree.here else ''}"


def _names(nodes: List[Node]) -> str:
    """What states one behind another are called."""
    first, last = nodes[0], nodes[-1]
    return first.name if first is last else f"{first.name}-{last.depth}"


def _labels(nodes: List[Node]) -> str:
    """The labels of the steps to these states, or some of them."""
    labels = [_short(it) for it in nodes if it.step]
    if len(labels) > FIRST + LAST + 1:
        labels = [*labels[:FIRST], "..", *labels[-LAST:]]
    return f"  {', '.join(labels)}" if labels else "  the first state"


def _short(node: Node) -> str:
    """What the step to a state is called, cut where that is long."""
    assert node.step
    label = f"i ({node.called.partition(', hidden in ')[0]})" if node.called else node.step.label
    return label if len(label) <= LONGEST else f"{label[:LONGEST - 2]}.."
