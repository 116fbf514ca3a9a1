"""A session of the marked text: it follows a first session, and tells what takes part in the events of its menu."""
from __future__ import annotations

import re
from typing import List, Optional, Tuple

from ..answers import Entry, Label, Menu, split_terms
from ..language import NoGrammar, NoTree
from ..naming.following import Follower, NoNames, flat_and_own_text
from ..program import Words
from ..traces import Step
from .marked_text import MarkedText, marked_text
from .occurrences import Occurrence, Part, Parts, Path

# At most so many ends before `>>` of one menu are looked at by a step and an undo each.
MOST_ENDS = 20


class MarkedSession(Follower[Parts]):
    """A session of the marked text. `NoNames` where there can be none, or where it parts from the first one."""

    def __init__(self, program: str, words: Words):
        self._text = _marked_text(program, words)
        self._marks = MarkReader(self._text)
        super().__init__(program, words, self._text.text, "marked")

    @property
    def occurrences(self) -> Tuple[Occurrence, ...]:
        """All that can happen in the text, in its order."""
        return self._text.occurrences

    def parts(self, menu: Menu) -> List[Parts]:
        """What takes part in each entry of the first session's menu. `NoNames` where the menus differ."""
        entries, wanted = self._menu.entries, menu.entries
        if len(entries) != len(wanted) or not all(map(self._is_entry, entries, wanted)):
            raise NoNames(f"the marked text has other events where the first has {menu.head}")
        ends, found = 0, []
        for it in entries:
            is_end = it.label.is_internal and not it.variables
            ends += is_end
            found.append(self._end_parts(it) if is_end and ends <= MOST_ENDS else self._marks.parts(it))
        return found

    def state(self) -> str:
        """The text of the state, marked."""
        return self._session.ask("show").first

    def first_occurrence(self, text: str) -> Optional[Occurrence]:
        """The first occurrence in a marked text of a component."""
        return self._marks.first(text)

    def _is_entry(self, entry: Entry, wanted: Entry) -> bool:
        """Whether an entry is this one of the first session, with the set of the marks."""
        if self._marks.is_inner(entry.label.gate):
            return wanted.label.is_internal
        values = entry.label.values
        if not wanted.label.is_internal and wanted.label.gate != "exit":
            values = values[:-1]
        return (entry.label.gate == wanted.label.gate and len(values) == len(wanted.label.values)
                and all(one == two or "$" in one and "$" in two for one, two in zip(values, wanted.label.values)))

    def _take(self, step: Step) -> Tuple[int, Parts]:
        """Takes a step of the first session: what took part in it."""
        entries = self._menu.entries
        number = int(step.number) - 1
        if number >= len(entries):
            raise NoNames(f"the marked text has no entry for {step.line}")
        entry = entries[number]
        values = iter(split_terms(step.values))
        given = [f"{self._text.stem}all" if sort == f"{self._text.stem}Marks" else next(values, "") for sort in entry.sorts]
        label = Label.read(self._ask(f"step {entry.number} {', '.join(given)}".rstrip()).label or "")
        if not self._marks.is_label(label, step.label):
            raise NoNames(f"{step.line} comes to {label.text} in the marked text, and to {step.label} in the first")
        parts = self._marks.parts(entry)
        end = self._end_entry() if label.is_internal else None
        if end:
            self._ask(f"step {end.number}")
            return 2, self._marks.parts(end)
        return 1, parts

    def _end_entry(self) -> Optional[Entry]:
        """The entry that tells which `>>` it was, behind an end before it."""
        return next((it for it in self._menu.entries if self._marks.is_end(it.label.gate)), None)

    def _end_parts(self, entry: Entry) -> Parts:
        """Which `>>` an end is before, by a step and an undo."""
        menu = self._menu
        self._ask(f"step {entry.number}")
        seen = self._end_entry()
        self._ask("undo")
        self._menu = menu
        return self._marks.parts(seen) if seen else ()


class MarkReader:
    """Reads the marks in the entries of the marked menu."""

    def __init__(self, text: MarkedText):
        stem = text.stem
        self._stem = stem
        self._occurrences = text.occurrences
        self._mark = re.compile(rf"{stem}m(\d+)\(((?:{stem}(?:left|right|over)\()*){stem}top\)*, ((?:{stem}m\d+\()*){stem}none\)*")

    def is_inner(self, gate: str) -> bool:
        """Whether this is the gate of the `i` that are written."""
        return gate == f"{self._stem}I"

    def is_end(self, gate: str) -> bool:
        """Whether this is the gate that tells an end before `>>`."""
        return gate == f"{self._stem}T"

    def is_label(self, label: Label, wanted: str) -> bool:
        """Whether a label of the marked text is this one of the first session."""
        if self.is_inner(label.gate):
            return wanted == "i"
        return label.text in (wanted, f"{wanted} !{self._stem}all")

    def parts(self, entry: Entry) -> Parts:
        """What takes part in an event, by the marks in its label and its conditions."""
        text = entry.conditions or entry.label.text
        return tuple(self._part(found[1], found[2], found[3]) for found in self._mark.finditer(text))

    def first(self, text: str) -> Optional[Occurrence]:
        """The first occurrence that a marked text of a component has."""
        found = re.search(rf"{self._stem}m(\d+)\(", text)
        return self._occurrences[int(found[1])] if found else None

    def _part(self, number: str, path: str, calls: str) -> Part:
        """A part by its mark."""
        sides = re.findall(rf"{self._stem}(left|right|over)\(", path)[::-1]
        listed = re.findall(rf"{self._stem}m(\d+)\(", calls)
        way: Path = tuple(map(("left", "right", "over").index, sides))
        return Part(self._occurrences[int(number)], way, tuple(self._occurrences[int(it)] for it in listed))


def _marked_text(program: str, words: Words) -> MarkedText:
    """The marked text of a specification. `NoNames` where there is none."""
    flat, source = flat_and_own_text(program, words)
    try:
        return marked_text(flat, source)
    except NoGrammar as fault:
        raise NoNames(str(fault)) from None
    except NoTree as fault:
        raise NoNames(f"the text is not read: {fault}") from None
