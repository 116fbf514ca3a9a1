"""Entries of a menu found by a label: which of them can come to an event with this gate and these values."""
from __future__ import annotations

import re
from typing import Callable, Dict, List, NamedTuple, Optional, Sequence, Tuple

from ..answers import Answer, Entry, Label, split_terms

VARIABLE = re.compile(r"\$[1-9][0-9]*")
# A label that is typed: a gate, and values behind `!`, or in a list.
TYPED = re.compile(r"([A-Za-z][\w]*)\s*(.*)", re.S)
LARGEST_SIZE = 8
Ask = Callable[[str], Answer]


class Choice(NamedTuple):
    """An entry, and the values for its variables with which it comes to an event; none where they are not known."""

    entry: Entry
    values: Optional[Tuple[str, ...]]


def read_label(text: str) -> Optional[Tuple[str, Tuple[str, ...]]]:
    """A gate and its values: `put !0 !Succ(0)`, `put 0, Succ(0)` or `exit(0)`; nothing where it is no such text."""
    found = TYPED.fullmatch(text.strip())
    if not found:
        return None
    gate, rest = found[1], found[2].strip()
    if rest.startswith("!"):
        return gate, tuple(it.strip() for it in rest[1:].split("!"))
    if gate.lower() == "exit" and rest.startswith("(") and rest.endswith(")"):
        return gate, tuple(split_terms(rest[1:-1]))
    return gate, tuple(split_terms(rest))


def at_gate(entries: Sequence[Entry], gate: str) -> List[Entry]:
    """The entries at a gate."""
    return [it for it in entries if it.label.gate.lower() == gate.lower()]


class Matcher:
    """Finds the values for the variables of an entry that make its label that of an event. `ask` asks the program."""

    def __init__(self, ask: Ask):
        self._ask = ask

    def choices(self, entries: Sequence[Entry], wanted: Sequence[str]) -> List[Choice]:
        """The entries that can come to these values of their labels, which are terms."""
        found = []
        for entry in entries:
            if len(entry.label.values) == len(wanted):
                values = self._values(entry, wanted)
                if values is not None:
                    found.append(Choice(entry, values))
        return found

    def _values(self, entry: Entry, wanted: Sequence[str]) -> Optional[Tuple[str, ...]]:
        """The values with which an entry has these values in its label."""
        chosen = {slot: value for slot, value in zip(entry.label.values, wanted) if slot in entry.variables}
        if len(chosen) < len(entry.variables):
            return self._listed(entry, wanted)
        if not self._can_be(entry.label, chosen, wanted):
            return None
        return tuple(chosen[it] for it in entry.variables)

    def _can_be(self, label: Label, chosen: Dict[str, str], wanted: Sequence[str]) -> bool:
        """Whether a label comes to these values. What is a variable alone is known to."""
        for slot, value in zip(label.values, wanted):
            if chosen.get(slot) != value:
                term = VARIABLE.sub(lambda found: f"({chosen[found[0]]})", slot)
                if self._ask(f"equal {term}, {value}").first != "equal":
                    return False
        return True

    def _listed(self, entry: Entry, wanted: Sequence[str]) -> Optional[Tuple[str, ...]]:
        """The values of the first instance that the program lists with these values in its label."""
        normal = tuple(self._ask(f"normal {it}").first for it in wanted)
        for size in range(1, LARGEST_SIZE + 1):
            answer = self._ask(f"instances {entry.number} {size}")
            if not answer.first.startswith("instances "):
                return None
            for line in answer.lines[1:]:
                taken, _, label = line.partition(" => ")
                if Label.read(label).values == normal:
                    return tuple(split_terms(taken.partition(" ")[2]))
        return None
