"""A formula looked at step by step in a session of the program: what holds there, and by which steps."""
from __future__ import annotations

from dataclasses import dataclass
from typing import Any, Dict, List, Optional, Tuple

from ..answers import Answer, Entry, Label, Menu
from ..program import Words
from ..session import Session
from .formula import Formula


class Unknown(Exception):
    """Whether a formula holds is not known: an entry stands for more events than are looked at. Its line."""


@dataclass(frozen=True)
class Move:
    """A step that can be taken: its line, and its label."""

    line: str
    label: str


class Side:
    """One of the two specifications, as a session of it shows it. `is_whole` tells of a sort whether its values up to the size
    `values` are all."""

    def __init__(self, program: str, words: Words, values: int, whole: Dict[str, bool]):
        self.name = words.files[0]
        self._session = Session(program, words)
        self._values, self._whole = values, whole
        self.menu: Menu = self._session.opening().menu or Menu("events 0", ())
        self._known: Dict[Tuple[str, Formula], bool] = {}

    def close(self) -> None:
        """Ends the session."""
        self._session.kill()

    def take(self, move: Move) -> None:
        """Takes a step."""
        self._see(self._session.ask(move.line))

    def back(self) -> None:
        """Takes it back."""
        self._see(self._session.ask("undo"))

    def _see(self, answer: Answer) -> None:
        if answer.menu is None:
            raise ValueError(f"{self.name}: {answer.first}")
        self.menu = answer.menu

    def moves(self, label: str) -> List[Move]:
        """All steps with this label. `Unknown` where an entry may have it with values that are not looked at."""
        found: List[Move] = []
        for entry in self.menu.entries:
            if entry.label.gate.lower() == Label.read(label).gate.lower():
                found += self._moves_of(entry, label)
        return found

    def _moves_of(self, entry: Entry, label: str) -> List[Move]:
        """The steps of one entry with this label."""
        if not entry.variables and not entry.conditions:
            return [Move(f"step {entry.number}", entry.label.text)] if entry.label.text.lower() == label.lower() else []
        wanted = Label.read(label)
        if len(wanted.values) != len(entry.label.values):
            return []
        given = dict(zip(entry.label.values, wanted.values))
        if all(it in given for it in entry.variables):
            return self._tried(Move(f"step {entry.number} " + ", ".join(given[it] for it in entry.variables), label))
        answer = self._session.ask(f"instances {entry.number} {self._values}")
        if not all(self._whole.get(it) for it in entry.sorts) or not answer.first.startswith("instances "):
            raise Unknown(entry.line)
        events = [it.partition(" => ") for it in answer.said[1:]]
        return [Move(f"step {taken}", text) for taken, _, text in events if text.lower() == label.lower()]

    def _tried(self, move: Move) -> List[Move]:
        """A step, if it can be taken and has its label."""
        answer = self._session.ask(move.line)
        if answer.label is None:
            return []
        self._session.ask("undo")
        return [move] if answer.label.lower() == move.label.lower() else []

    def holds(self, formula: Formula) -> bool:
        """Whether a formula holds of the state of the session, which stands there again behind it."""
        key = (self._session.ask("show").first, formula)
        if key not in self._known:
            self._known[key] = (self.witness(formula) is not None) != formula.negated
        return self._known[key]

    def witness(self, formula: Formula) -> Optional[Move]:
        """A step with the label of a formula behind which all its parts hold."""
        for move in self.moves(formula.label):
            self.take(move)
            try:
                holds = all(self.holds(it) for it in formula.parts)
            finally:
                self.back()
            if holds:
                return move
        return None


class Replay:
    """A formula that holds of one side, and not of the other, looked at in both sessions, and told step by step."""

    def __init__(self, one: Side, other: Side):
        self._sides = (one, other)
        self.lines: List[str] = []
        self.steps: List[Dict[str, Any]] = []

    def shows(self, formula: Formula) -> bool:
        """Whether the formula holds of the first side and not of the second; then `lines` and `steps` tell why."""
        one, other = self._sides
        if not one.holds(formula) or other.holds(formula):
            return False
        self._tell(one, other, formula, "")
        return True

    def _tell(self, one: Side, other: Side, formula: Formula, indent: str) -> None:
        """Tells why a formula holds of the one side and not of the other."""
        if formula.negated:
            self._tell(other, one, formula.turned(), indent)
            return
        move = one.witness(formula)
        assert move
        self._say(one, move, indent)
        answers = other.moves(formula.label)
        if not answers:
            events = ", ".join(dict.fromkeys(it.label.text for it in other.menu.entries)) or "none"
            self.lines.append(f"{indent}{other.name}: it has no event {formula.label}; its events: {events}")
            self.steps.append({"side": other.name, "missing": formula.label})
            return
        one.take(move)
        for count, answer in enumerate(answers):
            if len(answers) > 1:
                self.lines.append(f"{indent}answer {count + 1} of {len(answers)}")
            deeper = indent + ("    " if len(answers) > 1 else "")
            self._say(other, answer, deeper)
            other.take(answer)
            part = next(it for it in formula.parts if not other.holds(it))
            self._tell(one, other, part, deeper)
            other.back()
        one.back()

    def _say(self, side: Side, move: Move, indent: str) -> None:
        self.lines.append(f"{indent}{side.name}: {move.line} => {move.label}")
        self.steps.append({"side": side.name, "line": move.line, "label": move.label})
