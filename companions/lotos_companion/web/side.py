"""One specification on the page: its session, what is shown beside its answers, and how it follows the steps of another."""
from __future__ import annotations

import os
from dataclasses import dataclass
from typing import Callable, List, Optional, Tuple

from ..answers import Entry, Label
from ..naming import HiddenEvent, Kind, NamedPlay
from ..program import Words
from ..session import Ended
from ..traces import Step
from .reading import Reading

# The most entries that are tried for a step of the other specification.
MOST_TRIED = 40


@dataclass(frozen=True)
class Taken:
    """A step as the other specifications are to take it: its entry, its name if it is hidden, its values and its label, the state
    behind it, and a digest of the menu that it was taken from."""

    entry: str
    name: Optional[HiddenEvent]
    step: Step
    state: str
    menu: int


class Side:
    """A session, and which of the leading one's places it has come to."""

    def __init__(self, words: Words, play: NamedPlay, with_actions: bool):
        self.words = words
        self.play = play
        self.source = read_source(words.files[0])
        self.reading = Reading(play, self.source, with_actions)
        self.opening: Tuple[str, ...] = ()
        self.followed: List[int] = []
        self.differs: List[bool] = []
        self.parted: Optional[Tuple[int, str]] = None

    def open(self) -> None:
        """Begins in the first state."""
        self.opening = self.play.open().said
        self.begun()

    def close(self) -> None:
        """Ends its programs."""
        self.reading.close()
        self.play.kill()

    def begun(self) -> None:
        """Reads the state after the session was begun anew."""
        self.reading.look()
        self.followed, self.differs, self.parted = [], [], None

    def is_answering(self) -> bool:
        """Whether the program still answers."""
        try:
            return self.play.is_open and bool(self.play.ask("menu").menu)
        except (Ended, ValueError):
            return False

    def digest(self) -> int:
        """A number for the present menu: two menus that are the same have the same."""
        return hash((self.play.menu.lines, tuple(self.reading.names())))

    def follow(self, path: List[int], taken: Callable[[int], Taken]) -> None:
        """Goes as far along the leading one's path as it can."""
        same = next((it for it, (one, other) in enumerate(zip(self.followed, path)) if one != other),
                    min(len(self.followed), len(path)))
        if self.parted and same == len(self.followed) and path[same:same + 1] == [self.parted[0]]:
            return
        self.parted = None
        while len(self.followed) > same:
            self.play.ask("undo")
            self.followed.pop()
        del self.differs[same:]
        self.reading.look()
        for place in path[same:]:
            wanted = taken(place)
            self.differs.append(self.digest() != wanted.menu)
            why = self._take(wanted)
            if why is not None:
                self.parted = (place, why)
                return
            self.followed.append(place)

    def _take(self, wanted: Taken) -> Optional[str]:
        """Takes the same step: nothing, or why it is not possible."""
        found: Optional[Tuple[Step, bool]] = None
        refusal = f"no entry is {wanted.name.text if wanted.name else wanted.step.label}"
        for entry in self._candidates(wanted)[:MOST_TRIED]:
            answer = self.play.ask(f"step {entry.number} {wanted.step.values}".rstrip())
            if answer.label is None:
                refusal = answer.first
                continue
            if answer.label == wanted.step.label:
                is_same = self.play.ask("show").first == wanted.state
                if is_same or found is None:
                    found = (self.play.done[-1], is_same)
            self.play.ask("undo")
            if found and found[1]:
                break
        if found is None:
            return refusal
        self.play.ask(found[0].line)
        self.reading.follow(Label.read(found[0].label))
        return None

    def _candidates(self, wanted: Taken) -> List[Entry]:
        """The entries that may stand for a step, the most similar first."""
        like = Entry.read(wanted.entry)
        entries = [(entry, name) for entry, name in zip(self.play.menu.entries, self.play.names)
                   if entry.label.gate == like.label.gate and len(entry.variables) == len(like.variables)
                   and _may_be(name, wanted.name)]
        entries.sort(key=lambda it: (_text(it[1]) != _text(wanted.name),
                                     it[0].line.partition(": ")[2] != wanted.entry.partition(": ")[2]))
        return [it for it, _ in entries]


def _may_be(name: Optional[HiddenEvent], wanted: Optional[HiddenEvent]) -> bool:
    """Whether two hidden events may be one, as far as their names tell: an `i` that is written is of one process alone."""
    if not name or not wanted:
        return True
    is_of_process = wanted.kind is Kind.INNER
    return name.kind is wanted.kind and name.gate == wanted.gate and (not is_of_process or name.process == wanted.process)


def _text(name: Optional[HiddenEvent]) -> str:
    return name.text if name else ""


def read_source(path: str) -> str:
    """The text of a specification, or nothing where it can be read once alone."""
    if not os.path.isfile(path):
        return ""
    try:
        with open(path, "rb") as file:
            return file.read(1 << 20).decode("utf-8", "surrogateescape")
    except OSError:
        return ""
