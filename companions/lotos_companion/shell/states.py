"""The present state as a tree: a line for each component, its values in normal form, and a mark at what moved last."""
from __future__ import annotations

from dataclasses import fields, is_dataclass, replace
from typing import Any, Dict, Iterator, Optional, Set, Tuple

from ..components import Actions, Component, Parts, Path, moved, participants, read_state
from ..language import NoGrammar, NoTree, read_behaviour, read_terms, text_of, tree, walk
from ..language.tokens import Place
from .desk import Desk

MOVED, STAYED = "> ", "  "
# Behind more steps than this what moved is told by the texts of the components alone, since others take too long.
MOST_STEPS = 1000
INTERLEAVED = "|||"


class States:
    """What shows the state."""

    def __init__(self, desk: Desk):
        self._desk = desk
        self._normal: Dict[str, str] = {}

    def show(self) -> None:
        """Shows the present state."""
        try:
            present = read_state(self._desk.play.ask("show").first)
            places = self._moved(present)
        except (NoGrammar, NoTree) as fault:
            self._desk.own(str(fault))
            return
        for level, it in _lines(present):
            is_moved = it.is_single and it.path in (places or ())
            text = self._reduced_text(it.text) if it.is_single else it.text
            self._desk.own_text(f"{MOVED if is_moved else STAYED}{'  ' * level}{text}", is_moved)
        if places is not None and not places:
            self._desk.own("each component is as it was before the last step")

    def _moved(self, present: Component) -> Optional[Set[Path]]:
        """Where components are that took part in the last step, or are not as they were before it; nothing in the first state.
        The session is where it was behind that."""
        play = self._desk.play
        if not play.done:
            return None
        parts = self._parts_of_last_step()
        self._desk.home = (list(play.done), list(play.undone))
        play.ask("undo")
        before = read_state(play.ask("show").first)
        play.take(play.undone[-1])
        begins = participants(parts, before)
        took_part = {it.path for it in present.singles() if any(it.path[:len(begin)] == begin for begin in begins)}
        return took_part | moved(before, present)

    def _parts_of_last_step(self) -> Parts:
        """What took part in the last step, as far as a session of a marked text tells it."""
        play = self._desk.play
        if len(play.done) > MOST_STEPS:
            return ()
        actions = Actions(play)
        try:
            return actions.steps()[-1]
        finally:
            actions.kill()

    # ---- Normal forms ----

    def _reduced_text(self, text: str) -> str:
        """The text of a component with the terms in it that have no variables in normal form."""
        try:
            behaviour = read_behaviour(text)
            return text_of(self._reduced(behaviour, _bound(behaviour)))
        except (NoTree, RecursionError):
            return text

    def _reduced(self, part: Any, bound: Set[str]) -> Any:
        """A part with the terms in it that have no variables in normal form."""
        if isinstance(part, tree.Term):
            return part if any(it.name.key in bound for it in walk(part) if isinstance(it, tree.Term)) else self._reduced_term(part)
        if isinstance(part, tuple):
            return tuple(self._reduced(it, bound) for it in part)
        if not is_dataclass(part) or isinstance(part, (Place, tree.Name)):
            return part
        changed = {it.name: self._reduced(getattr(part, it.name), bound) for it in fields(part)}
        return replace(part, **changed)

    def _reduced_term(self, term: tree.Term) -> tree.Term:
        """A term without variables in normal form, or as it is where the program does not say it."""
        text = text_of(term)
        if text not in self._normal:
            answer = self._desk.play.ask(f"normal {text}").first
            self._normal[text] = text if answer.startswith("refused ") else answer
        return term if self._normal[text] == text else read_terms(self._normal[text])[0]


def _bound(behaviour: tree.Behaviour) -> Set[str]:
    """The names of all variables that are bound somewhere in a behaviour."""
    found: Set[str] = set()
    for part in walk(behaviour):
        if isinstance(part, tree.Variable):
            found.add(part.name.key)
        elif isinstance(part, tree.Asked):
            found.update(it.key for it in part.names)
    return found


def _lines(state: Component) -> Iterator[Tuple[int, Component]]:
    """The parts one a line, each with how far it stands in. What `|||` joins one in another stands side by side."""
    waiting = [(0, state, "")]
    while waiting:
        level, it, above = waiting.pop()
        is_joined = it.text == above == INTERLEAVED and not it.is_single
        if not is_joined:
            yield level, it
        waiting.extend((level + (0 if is_joined else 1), part, it.text) for part in reversed(it.parts))
