"""Commands that take events: by number, by gate, by a line that was copied; and what fits an entry with variables."""
from __future__ import annotations

import re
from typing import Callable, Dict, List, Optional, Sequence, Tuple

from ..answers import Entry
from .desk import Desk, counted
from .labels import Choice, Matcher, at_gate, read_label
from .table import Command

# A line as `instances` prints it, and one as a menu does; what the shell says of hidden events stands behind the latter.
INSTANCE = re.compile(r"(0|[1-9][0-9]{0,9})((?: .*)?) => (.+)")
ENTRY = re.compile(r"(0|[1-9][0-9]{0,9}): (.+)")
DID = re.compile(r"did (.+)")
MOST_VALUES = 20
SECONDS = 3.0


class Choosing:
    """What takes an entry of the menu."""

    def __init__(self, desk: Desk):
        self._desk = desk

    def commands(self) -> Dict[str, Command]:
        """The commands by their words."""
        return {"step": Command("N|GATE [TERM, ..]", "takes an entry by its number or gate (N alone does too)", self.step),
                "N ?": Command("", "lists values that fit entry N", lambda _: self._desk.usage("N ?"))}

    def step(self, rest: str) -> None:
        """Takes an entry, or lists values that fit it."""
        word, blank, terms = rest.partition(" ")
        entry = self._desk.entry(word)
        label = read_label(rest)
        if terms.strip(" ") == "?" and entry:
            self._list_values(entry)
        elif label and self._is_gate(label[0]):
            self._step_gate(*label)
        elif blank:
            self._desk.say(self._desk.ask_step(word, terms.strip(" ")))
        else:
            self._desk.say(self._desk.play.ask(f"step {rest}"))

    def take_line(self, line: str) -> bool:
        """Takes a line that was copied from a menu or from what `instances` prints; whether it is one."""
        instance, entry = INSTANCE.fullmatch(line), ENTRY.fullmatch(line)
        if instance:
            self._take_instance(instance[1], instance[2].strip(), instance[3])
        elif entry:
            self._take_entry(entry[1], entry[2])
        return bool(instance or entry)

    # ---- By gate ----

    def _is_gate(self, name: str) -> bool:
        """Whether a gate of the specification or of the menu has this name."""
        desk = self._desk
        named = [name.gate for _, name in desk.names.of_menu(desk.play) if name]
        known = [*desk.play.signature.gates, *(it.label.gate for it in desk.play.menu.entries), *named, "exit", "i"]
        return name.lower() in map(str.lower, known)

    def _step_gate(self, gate: str, values: Tuple[str, ...]) -> None:
        """Takes the entry of a gate with these values; of several, says which they are."""
        entries = at_gate(self._desk.play.menu.entries, gate)
        if not entries:
            self._step_hidden(gate, values)
            return
        if not values:
            self._step_bare(gate, entries)
            return
        choices = self._choices(entries, values)
        if len(choices) == 1:
            self._take(choices[0])
        elif choices:
            self._say_several([it.entry for it in choices])
        else:
            self._desk.say_entries(entries)
            self._desk.own_text(f"none of these comes to {gate} {' '.join(f'!{it}' for it in values)}")

    def _step_hidden(self, gate: str, values: Tuple[str, ...]) -> None:
        """Takes the hidden event that is called so, where hidden events have names."""
        desk = self._desk
        named = [(it, name) for it, name in desk.names.of_menu(desk.play) if name and name.gate.lower() == gate.lower()]
        wanted = [desk.normal(it) for it in values]
        entries = [it for it, name in named if not values or [desk.normal(value) for value in name.values or ()] == wanted]
        if len(entries) == 1 and not entries[0].variables:
            desk.say(desk.play.ask(f"step {entries[0].number}"))
        elif entries:
            self._say_several(entries)
        else:
            desk.say_entries(it for it, _ in named)
            desk.own_text(f"no entry is at {' !'.join([gate, *values])}")

    def _step_bare(self, gate: str, entries: Sequence[Entry]) -> None:
        """Takes the one entry of a gate, if it asks for no values."""
        if len(entries) > 1:
            self._say_several(entries)
        elif entries[0].variables:
            self._desk.say_entries(entries)
            self._desk.own(f"it asks for {counted(len(entries[0].variables), 'value')}: step {gate} TERM, .. "
                           f"({entries[0].number} ? lists some that fit)")
        else:
            self._desk.say(self._desk.play.ask(f"step {entries[0].number}"))

    def _choices(self, entries: Sequence[Entry], values: Tuple[str, ...]) -> List[Choice]:
        """The entries that come to these values; if none does, those that take them for their variables in order."""
        for reading in self._desk.readings(" ! ".join(values)):
            wanted = [it.strip() for it in reading.split("!")]
            found = Matcher(self._desk.play.ask).choices(entries, wanted)
            if found:
                return found
        return []

    def _take(self, choice: Choice) -> None:
        values = ", ".join(choice.values or ())
        self._desk.say(self._desk.play.ask(f"step {choice.entry.number} {values}".rstrip()))

    def _say_several(self, entries: Sequence[Entry]) -> None:
        """Says which entries fit, of which none is taken."""
        self._desk.say_entries(entries)
        self._desk.own(f"{len(entries)} entries fit: take one by its number" if len(entries) > 1 else "it asks for values")

    # ---- By a line that was copied ----

    def _take_instance(self, number: str, values: str, label: str) -> None:
        """Takes an instance, if the menu still has it."""
        entry = self._desk.entry(number)
        read = read_label(label)
        if entry and read and entry.label.gate.lower() == read[0].lower():
            answer = self._desk.ask_step(number, values) if values else self._desk.play.ask(f"step {number}")
            if answer.label is None or self._is_same(answer.label, label):
                self._desk.say(answer)
                return
            self._desk.play.ask("undo")
        self._find_label(label)

    def _take_entry(self, number: str, rest: str) -> None:
        """Takes an entry as it was printed: the one with its number, or another one with its text."""
        desk = self._desk
        bare = "i" if rest.startswith("i (") else rest
        lines = list(zip(desk.play.menu.entries, desk.names.lines(desk.play)))
        same = [it for it, line in lines if rest in _texts(line, desk.screen.change)]
        same = same or [it for it, _ in lines if bare in _texts(it.line, desk.screen.change)]
        entry = next((it for it in same if it.number == number), same[0] if len(same) == 1 else None)
        if entry and entry.variables:
            self._desk.own(f"it asks for {counted(len(entry.variables), 'value')}: {entry.number} TERM, .. "
                           f"({entry.number} ? lists some that fit)")
        elif entry:
            self._desk.say(self._desk.play.ask(f"step {entry.number}"))
        elif same:
            self._say_several(same)
        else:
            self._find_label(bare)

    def _find_label(self, label: str) -> None:
        """Takes the entry that comes to a label which stood elsewhere."""
        read = read_label(label.partition(" for ")[0])
        if read and "$" not in label and at_gate(self._desk.play.menu.entries, read[0]):
            self._step_gate(*read)
        else:
            self._desk.own_text(f"the menu has no {label}")

    def _is_same(self, one: str, other: str) -> bool:
        return other in (one, self._desk.screen.change(one))

    # ---- Values ----

    def _list_values(self, entry: Entry) -> None:
        """Lists values that fit an entry, each as a line that can be typed."""
        if not entry.variables:
            self._desk.own(f"entry {entry.number} asks for no values")
            return
        found, _ = self._desk.fitting(entry, MOST_VALUES, SECONDS)
        self._desk.screen.program_says(f"{entry.number} {', '.join(it)}" for it in found)
        behind = "there may be more" if len(found) == MOST_VALUES else "larger ones may fit too"
        self._desk.own(f"{counted(len(found), 'choice')} of values that fit; {behind}")


def _texts(line: str, change: Callable[[str], str]) -> Tuple[str, str]:
    """The text of an entry behind its number, as the program prints it and as it is shown."""
    return line.partition(": ")[2], change(line).partition(": ")[2]


def values_to_complete(desk: Desk, number: str) -> List[str]:
    """Values that can be typed behind the number of an entry."""
    entry: Optional[Entry] = desk.entry(number) if desk.play.is_open else None
    if not entry or not entry.variables:
        return []
    return [desk.screen.change(", ".join(it)) for it in desk.fitting(entry, MOST_VALUES, 1.0)[0]]
