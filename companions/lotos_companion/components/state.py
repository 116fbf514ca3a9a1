"""The components of a state, from its text: what stands beside one another in parallel, down to the single processes."""
from __future__ import annotations

import re
from dataclasses import dataclass, replace
from typing import Callable, Dict, FrozenSet, Iterator, List, Optional, Tuple

from ..language import read_behaviour, text_of, tree
from ..play import Play
from .actions import Actions
from .occurrences import Parts, Path

CONSTANT = re.compile(r"\w+")
WORD_FORMS = (tree.Hide, tree.Relabel)
OVER = 2


@dataclass(frozen=True)
class Component:
    """A part of a state.

    `path` tells where it stands: the sides of the parallels above it, 0 for the left one. `text` is its line: the sign of a
    parallel, `hide a in`, what stands behind a `>>` or a `[>`, or of a component by itself all that it stands at. Such a one has
    no `parts`. Where it is a call, `process`, `gates` and `values` are those of the call; where it stands within a process, that
    alone is known, and only where `state_of` was given the actions of the session. `can_be_ended` is whether its text is a `[>`
    with what would end it.
    """

    path: Path
    text: str
    parts: Tuple[Component, ...] = ()
    process: str = ""
    gates: Tuple[str, ...] = ()
    values: Tuple[str, ...] = ()
    can_be_ended: bool = False

    @property
    def is_single(self) -> bool:
        """Whether it is a component by itself."""
        return not self.parts

    def walk(self) -> Iterator[Component]:
        """This part and all parts in it, in the order of the text. (No call is made inside another: states may be deep.)"""
        waiting = [self]
        while waiting:
            it = waiting.pop()
            yield it
            waiting.extend(reversed(it.parts))

    def lines(self) -> Iterator[Tuple[int, Component]]:
        """The parts one a line, each with how far it stands in."""
        waiting: List[Tuple[int, Component]] = [(0, self)]
        while waiting:
            depth, it = waiting.pop()
            yield depth, it
            waiting.extend((depth + 1, part) for part in reversed(it.parts))

    def singles(self) -> List[Component]:
        """The components by themselves."""
        return [it for it in self.walk() if it.is_single]


def read_state(text: str) -> Component:
    """The components of a state, from the text that `show` prints. `NoTree` and `NoGrammar` as in reading."""
    return _component(read_behaviour(text))


def state_of(play: Play, actions: Optional[Actions] = None) -> Component:
    """The components of the state of a session, with the values of calls in normal form. The actions of the session tell in which
    process a component stands."""
    state = read_state(play.ask("show").first)
    return _with_normal_forms(_with_processes(state, actions) if actions else state, play)


def moved(before: Component, after: Component) -> FrozenSet[Path]:
    """Where components are in the second state that are not there in the first. A component that comes back to what it was before
    is not among them: `participants` tells that."""
    old = {(it.path, it.text) for it in before.singles()}
    return frozenset(it.path for it in after.singles() if (it.path, it.text) not in old)


def component_at(state: Component, path: Path) -> Component:
    """The component that stands at a place of a state, or the part that this place is in. What stands behind a `[>` that is still
    there has the whole as its part, with what it would end."""
    it = state
    while it.parts:
        is_over = path[:1] == (OVER,)
        if is_over and it.can_be_ended:
            return it
        if len(it.parts) == 1:
            it = it.parts[0]
        elif is_over:  # What it stood behind has ended.
            path = path[1:]
        elif path:
            it, path = it.parts[path[0]], path[1:]
        else:
            return it
    return it


def participants(parts: Parts, state: Component) -> Tuple[Path, ...]:
    """Where the components of a state stand that take part in an event which is possible there, from left to right."""
    return tuple(sorted({component_at(state, it.path).path for it in parts}))


def _component(part: tree.Behaviour) -> Component:
    """The components of a behaviour; parts are made before what they are in."""
    waiting: List[Tuple[tree.Behaviour, Path, bool]] = [(part, (), False)]
    made: List[Component] = []
    while waiting:
        it, path, is_ready = waiting.pop()
        below = _below(it, path)
        if is_ready or not below:
            count = len(below)
            parts = tuple(made[len(made) - count:])
            del made[len(made) - count:]
            made.append(_made(it, path, parts))
        else:
            waiting.append((it, path, True))
            waiting.extend((one, way, False) for one, way in reversed(below))
    return made[0]


def _below(part: tree.Behaviour, path: Path) -> List[Tuple[tree.Behaviour, Path]]:
    """The parts of a behaviour that are there, with their places."""
    if isinstance(part, tree.Parallel):
        return [(part.left, (*path, 0)), (part.right, (*path, 1))]
    if isinstance(part, WORD_FORMS):
        return [(part.body, path)]
    if isinstance(part, (tree.Enable, tree.Disable)):
        return [(part.left, path)]
    return []


def _made(part: tree.Behaviour, path: Path, parts: Tuple[Component, ...]) -> Component:
    """A component of its parts. A relabelling is left out, since its gates stand in the calls below it."""
    if isinstance(part, tree.Relabel):
        return parts[0]
    if isinstance(part, tree.Hide):
        return Component(path, text_of(tree.Hide(part.gates, tree.Stop()))[:-len(" stop")], parts)
    if isinstance(part, tree.Parallel):
        return Component(path, text_of(part.sign), parts)
    if isinstance(part, (tree.Enable, tree.Disable)):
        behind = text_of(replace(part, left=tree.Stop()))[len("stop "):]
        return Component(path, behind, parts, can_be_ended=isinstance(part, tree.Disable))
    if isinstance(part, tree.Call):
        return Component(path, text_of(part), (), part.name.text, tuple(it.text for it in part.gates), tuple(map(text_of, part.values)))
    return Component(path, text_of(part))


def _with_processes(state: Component, actions: Actions) -> Component:
    """The same with the processes that components stand in, which the marked state tells: it has the same places."""
    found = actions.marked_state()
    if not found:
        return state
    text, marked = found
    processes: Dict[Path, str] = {}
    for it in read_state(text).singles():
        occurrence = marked.first_occurrence(it.text)
        processes[it.path] = it.process or (occurrence.process if occurrence else "")
    return _changed(state, lambda it: replace(it, process=it.process or processes.get(it.path, "")))


def _with_normal_forms(state: Component, play: Play) -> Component:
    """The same with the values of calls in normal form, as the program says it; a value of which it says nothing is left."""
    known: Dict[str, str] = {}

    def normal(value: str) -> str:
        if not CONSTANT.fullmatch(value) and value not in known:
            answer = play.ask(f"normal {value}").first
            known[value] = value if answer.startswith("refused ") else answer
        return known.get(value, value)

    def change(it: Component) -> Component:
        if not it.is_single or not it.values:
            return it
        values = tuple(map(normal, it.values))
        gates = f"[{', '.join(it.gates)}]" if it.gates else ""
        return replace(it, values=values, text=f"{it.process}{gates}({', '.join(values)})")
    return _changed(state, change)


def _changed(state: Component, change: Callable[[Component], Component]) -> Component:
    """A state whose single components are changed."""
    waiting: List[Tuple[Component, bool]] = [(state, False)]
    made: List[Component] = []
    while waiting:
        it, is_ready = waiting.pop()
        if it.is_single:
            made.append(change(it))
        elif is_ready:
            parts = tuple(made[len(made) - len(it.parts):])
            del made[len(made) - len(it.parts):]
            made.append(replace(it, parts=parts))
        else:
            waiting.append((it, True))
            waiting.extend((part, False) for part in reversed(it.parts))
    return made[0]
