"""What is shown beside the program's answers: the components of a state, which of them take part in events, and the parts of the
source that events stand for. Where no session of a marked text tells it, components are those of the state's text alone, and
those took part whose text has changed."""
from __future__ import annotations

import re
from dataclasses import dataclass
from typing import Dict, List, Sequence, Set, Tuple

from ..answers import Label
from ..components import Actions, Component, Parts, actions_of, component_at, participants, read_state, state_of
from ..language import NoGrammar, NoTree
from ..naming import NamedPlay
from ..session import Ended
from .state_text import parts_of

# The most components that have a line of their own in the chart; further ones share the last.
MOST_LANES = 60
# The longest text of a state that is read by the grammar.
LONGEST_STATE = 20_000
COMMENT = re.compile(r"\(\*.*?\*\)", re.S)
OFFER = re.compile(r"[!?][^!?]*")
Path = Tuple[int, ...]
Range = Tuple[int, int]


@dataclass(frozen=True)
class Event:
    """What a step looks like in the chart: the lanes of those that took part and of those that are there behind it, and the
    arrows between them."""

    lanes: Tuple[int, ...]
    there: Tuple[int, ...]
    arrows: Tuple[Tuple[int, int], ...] = ()


class Lanes:
    """The lines of the chart: one for each component by its place, named by the process that was seen there first."""

    def __init__(self) -> None:
        self.names: List[str] = []
        self._numbers: Dict[Tuple[object, ...], int] = {}

    def number(self, key: Tuple[object, ...], name: str) -> int:
        """The number of the line of a component."""
        if key not in self._numbers:
            if len(self.names) == MOST_LANES:
                return MOST_LANES - 1
            self._numbers[key] = len(self.names)
            self.names.append(self._fresh(name))
        return self._numbers[key]

    def _fresh(self, name: str) -> str:
        """The name, with a number where it is another component's."""
        count, fresh = 1, name
        while fresh in self.names:
            count += 1
            fresh = f"{name} {count}"
        return fresh


class Reading:
    """The present state of a session, and what took part in the step that led to it."""

    def __init__(self, play: NamedPlay, source: str, with_actions: bool = True):
        self.play = play
        self.lanes = Lanes()
        self.text = ""
        self._source = Source(source)
        self._actions = Actions(play) if with_actions else None
        self._state = Component((), "")
        self._moved: Sequence[Path] = ()
        # The parts of the source that the last step stood for.
        self.taken: Tuple[Range, ...] = ()

    def close(self) -> None:
        """Ends what it asks."""
        if self._actions:
            self._actions.kill()

    def look(self) -> None:
        """Reads the present state, and what took part in the last step."""
        self.text = self.play.ask("show").first
        self._state = _read(self.text)
        parts = self._last()
        self._moved = sorted({it.path for it in parts})
        self.taken = self._source.ranges(parts)
        for it in self._state.singles():
            self._lane(it)

    def there(self) -> Tuple[int, ...]:
        """The lanes of the components that are there."""
        return tuple(sorted({self._lane(it) for it in self._state.singles()}))

    def follow(self, label: Label) -> Event:
        """Reads the state behind a step: what the step looks like."""
        before = self._state
        self.look()
        parts = self._last()
        if not parts:
            self._moved = _changed(before, self._state)
        lanes = {path: self._lane_at(path, before) for path in participants(parts, before) or self._moved}
        shown = tuple(sorted(set(lanes.values()))) or (self.lanes.number(("gate", label.gate), label.gate),)
        arrows = tuple((lanes[one], lanes[other]) for one, other in self._source.arrows(parts, before) if lanes[one] != lanes[other])
        return Event(shown, self.there(), arrows)

    def names(self) -> List[str]:
        """A name for each entry of the menu, empty where there is none."""
        return ["" if it is None else it.text for it in self.play.names]

    def marks(self) -> List[Tuple[Range, ...]]:
        """For each entry of the menu the parts of the source that it stands for."""
        return [self._source.ranges(it) for it in self._actions.entries()] if self._actions else []

    def rows(self) -> List[Dict[str, object]]:
        """The parts of the present state, one a line."""
        return [{"depth": depth, "text": it.text, "lane": self._lane(it) if it.is_single else -1,
                 "moved": it.is_single and any(_is_within(it.path, path) for path in self._moved)}
                for depth, it in self._normal().lines()]

    def _normal(self) -> Component:
        """The components of the present state with their values in normal form, where the state is not long."""
        try:
            return state_of(self.play, self._actions) if len(self.text) <= LONGEST_STATE else self._state
        except (NoGrammar, NoTree, Ended, ValueError):  # Also where there is no session any more.
            return self._state

    def _last(self) -> Parts:
        """What took part in the last step."""
        steps = self._actions.steps() if self._actions else []
        return steps[-1] if steps else ()

    def _lane(self, part: Component) -> int:
        return self.lanes.number(part.path, part.process or "/".join(str(it + 1) for it in part.path) or "behaviour")

    def _lane_at(self, path: Path, state: Component) -> int:
        """The lane of the component that stands at a place of one of the two states around a step."""
        found = [it for it in (*state.singles(), *self._state.singles()) if it.path == path]
        return self._lane(found[0] if found else Component(path, ""))


class Source:
    """The text of a specification as the page counts it, by units of sixteen bits."""

    def __init__(self, text: str):
        self._text = text
        self._is_plain = all(ord(it) < 0x10000 for it in text)

    def ranges(self, parts: Parts) -> Tuple[Range, ...]:
        """Where it stands what takes part in an event."""
        return tuple((self._units(it.offset), self._units(it.end)) for it in actions_of(parts))

    def arrows(self, parts: Parts, state: Component) -> List[Tuple[Path, Path]]:
        """From which component of a state to which values go: from the only one that offers a value to those that take it."""
        offers = {component_at(state, it.path).path: self._offers(it.place.offset, it.place.end) for it in parts if it.place}
        found: List[Tuple[Path, Path]] = []
        for place in range(max(map(len, offers.values()), default=0)):
            signs = {path: it[place] for path, it in offers.items() if place < len(it)}
            givers = [path for path, sign in signs.items() if sign == "!"]
            if len(givers) == 1:
                found += [(givers[0], path) for path, sign in signs.items() if sign == "?"]
        return list(dict.fromkeys(found))

    def _offers(self, begin: int, end: int) -> str:
        """The signs of an action's offers, one for each value."""
        signs = ""
        for offer in OFFER.findall(COMMENT.sub(" ", self._text[begin:end])):
            count = 1 + offer.partition(":")[0].count(",") if offer[0] == "?" else 1
            signs += offer[0] * count
        return signs

    def _units(self, place: int) -> int:
        return place if self._is_plain else len(self._text[:place].encode("utf-16-le", "surrogatepass")) // 2


def _read(text: str) -> Component:
    """The components of a state, by the grammar where there is one."""
    if len(text) <= LONGEST_STATE:
        try:
            return read_state(text)
        except (NoGrammar, NoTree):
            pass
    return parts_of(text)


def _changed(before: Component, after: Component) -> List[Path]:
    """Where components are not the same in two states."""
    old: Set[Tuple[Path, str]] = {(it.path, it.text) for it in before.singles()}
    new: Set[Tuple[Path, str]] = {(it.path, it.text) for it in after.singles()}
    return sorted({path for path, _ in old ^ new})


def _is_within(path: Path, other: Path) -> bool:
    """Whether one place is in another."""
    return path[:len(other)] == other or other[:len(path)] == path
