"""The names of processes and of hidden gates in the text of a specification, and which processes of two texts are alike."""
from __future__ import annotations

from dataclasses import dataclass, field
from difflib import SequenceMatcher
from typing import Dict, FrozenSet, Iterator, List, Optional, Tuple

from ..language import Kind, NoToken, tokens
from .events import Event
from .renaming import Renaming, Renamings, small
from .scenario import Gap, Scenario

# How much of two processes has to be alike so that one is taken for the other under a new name.
ALIKE = 0.5


@dataclass
class SourceNames:
    """The processes of a text, the specification with them, each with the words of its definition but for those within it;
    and the gates that are hidden."""

    processes: Dict[str, List[str]] = field(default_factory=dict)
    gates: Dict[str, None] = field(default_factory=dict)

    @property
    def small_processes(self) -> FrozenSet[str]:
        """The names of processes in small letters."""
        return small(self.processes)


def read_names(path: str) -> Optional[SourceNames]:
    """The names of a specification's text, or nothing where it cannot be read."""
    try:
        with open(path, encoding="utf-8", errors="surrogateescape") as file:
            return _names([it.text for it in tokens(file.read()) if it.kind is not Kind.COMMENT])
    except (OSError, ValueError, NoToken):
        return None


def _names(words: List[str]) -> SourceNames:
    found, open_ones = SourceNames(), [""]
    found.processes[""] = []
    for place, word in enumerate(words):
        small_word, behind = word.lower(), words[place + 1] if place + 1 < len(words) else ""
        if small_word in ("process", "specification"):
            open_ones.append(behind)
            found.processes.setdefault(behind, [])
        elif small_word == "endproc" and len(open_ones) > 1:
            open_ones.pop()
        elif small_word == "hide":
            found.gates.update(dict.fromkeys(_listed(words, place + 1)))
        found.processes[open_ones[-1]].append(word)
    del found.processes[""]
    return found


def _listed(words: List[str], place: int) -> Iterator[str]:
    """The gates behind `hide`."""
    while place < len(words) and words[place].lower() != "in":
        if words[place] != ",":
            yield words[place]
        place += 1


def alike_processes(old: SourceNames, new: SourceNames) -> Tuple[Tuple[str, str], ...]:
    """The processes that only the old text has, each with the one that only the new text has and that is most
    like it, if that is enough."""
    gone = [it for it in old.processes if it.lower() not in new.small_processes]
    come = [it for it in new.processes if it.lower() not in old.small_processes]
    hidden = small(gone) | small(come)
    rated = sorted(((-_likeness(old.processes[one], new.processes[other], hidden), one, other)
                    for one in gone for other in come), key=lambda it: it[0])
    pairs: Dict[str, str] = {}
    for less, one, other in rated:
        if -less >= ALIKE and one not in pairs and other not in pairs.values():
            pairs[one] = other
    return tuple(pairs.items())


def _likeness(one: List[str], other: List[str], hidden: FrozenSet[str]) -> float:
    """How much of two definitions is the same, from 0 to 1, whatever is called under the hidden names."""
    first, second = ([("?" if it.lower() in hidden else it.lower()) for it in words] for words in (one, other))
    return SequenceMatcher(None, first, second, False).ratio()


def renamings_between(old: Optional[SourceNames], new: Optional[SourceNames]) -> Renamings:
    """What stands for the names of an old text in a new one: processes that are alike, and hidden gates as they are met."""
    if old is None or new is None:
        return Renamings()
    processes = Renaming(alike_processes(old, new), old.small_processes, new.small_processes)
    return Renamings(processes, Renaming((), small(old.gates), small(new.gates), True))


def renamings_of_scenario(scenario: Scenario, new: Optional[SourceNames]) -> Renamings:
    """What may stand for the names in a scenario whose old text is not known: one that the text has is itself, and any other
    is what it is met with first."""
    if new is None:
        return Renamings()
    events = [it.event for it in scenario.items if not isinstance(it, Gap)]
    processes = Renaming((), small(_processes_of(events)), new.small_processes, True)
    return Renamings(processes, Renaming((), small(it.gate for it in events if it.is_hidden), small(new.gates), True))


def _processes_of(events: List[Event]) -> Iterator[str]:
    """The processes that events name."""
    for event in events:
        yield from filter(None, (event.process, *event.where_heads))
