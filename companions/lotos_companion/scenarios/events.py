"""What events are called: visible ones by gate and values, hidden ones as `naming` calls them."""
from __future__ import annotations

import re
from dataclasses import dataclass, replace
from typing import Callable, Tuple

from ..answers import Label, split_terms

NAME = re.compile(r"[A-Za-z0-9](?:_*[A-Za-z0-9])*")
HIDDEN = re.compile(r"i(?: \((?P<inside>.+)\))?")
# What stands in the brackets of a hidden event: the event, a word, and where it is hidden. Its line may change by an edit.
INSIDE = re.compile(r"(?:(?P<offer>.+), hidden in |i of |(?P<end>exit.*) before >> in )(?P<where>.+?)(?:, line \d+)?")
WHERE = re.compile(r" at | in ")
FOR = " for "


class BadEvent(Exception):
    """A text calls no event; the text says why."""


@dataclass(frozen=True)
class Event:
    """What an event is called: its gate and the values behind it, or `exit` with values.

    Of a hidden one the gate is that at which it was hidden, `exit` before a `>>`, and empty for an `i` of the text. `process`
    is the one in whose text it is hidden, and `where` is where that is called, the nearest first; both are empty where they
    are not told. `given` are the values for the variables of its entry, where the name does not tell them."""

    gate: str = ""
    values: Tuple[str, ...] = ()
    is_hidden: bool = False
    process: str = ""
    where: Tuple[str, ...] = ()
    given: Tuple[str, ...] = ()

    @property
    def is_any_hidden(self) -> bool:
        """Whether it is an `i` of which nothing more is told."""
        return self.is_hidden and not self.gate and not self.process

    @property
    def where_heads(self) -> Tuple[str, ...]:
        """The processes that are called where it is hidden."""
        return tuple(call_head(it) for it in self.where)

    @property
    def label(self) -> str:
        """What it is called, without the values of variables."""
        shown = " !".join([self.gate, *self.values])
        if self.gate == "exit":
            shown = f"exit({', '.join(self.values)})" if self.values else "exit"
        if not self.is_hidden:
            return shown
        inside = shown + self._place
        return f"i ({inside})" if inside else "i"

    @property
    def _place(self) -> str:
        """Where it is hidden, as far as that is told."""
        if not self.process:
            return ""
        word = {"": "i of ", "exit": " before >> in "}.get(self.gate, ", hidden in ")
        return word + self.process + "".join(f" {'in' if place else 'at'} {it}" for place, it in enumerate(self.where))

    def __str__(self) -> str:
        return self.label + (f"{FOR}{', '.join(self.given)}" if self.given else "")

    def renamed(self, gates: Callable[[str], str], processes: Callable[[str], str]) -> Event:
        """The same with other names for the hidden gate and for processes."""
        if not self.is_hidden:
            return self
        where = tuple(renamed_call(it, gates, processes) for it in self.where)
        return replace(self, gate=gates(self.gate), process=processes(self.process), where=where)


def call_head(text: str) -> str:
    """The name with which the text of a call begins."""
    found = NAME.match(text)
    return found[0] if found else ""


def renamed_call(text: str, gates: Callable[[str], str], processes: Callable[[str], str]) -> str:
    """The text of a call with other names for its process and its gates."""
    head = NAME.match(text)
    if not head:
        return text
    return processes(head[0]) + NAME.sub(lambda name: gates(name[0]), text[head.end():])


def read_event(text: str) -> Event:
    """An event from its text. `BadEvent` where it is none."""
    called, _, behind = text.partition(FOR)
    event = _read_called(called.strip())
    return replace(event, given=tuple(split_terms(behind)))


def _read_called(text: str) -> Event:
    """An event without values of variables."""
    found = HIDDEN.fullmatch(text)
    if not found:
        return _read_offer(text)
    if found["inside"] is None:
        return Event(is_hidden=True)
    inside = INSIDE.fullmatch(found["inside"].strip())
    if not inside:
        return replace(_read_offer(found["inside"].strip()), is_hidden=True)
    process, *where = WHERE.split(inside["where"])
    if not NAME.fullmatch(process):
        raise BadEvent(f"{process} is no name of a process")
    offer = inside["offer"] or inside["end"]
    return replace(_read_offer(offer) if offer else Event(), is_hidden=True, process=process, where=tuple(where))


def _read_offer(text: str) -> Event:
    """A gate with values, or `exit`."""
    label = Label.read(text)
    values = tuple(it.strip() for it in label.values)
    gate = label.gate.strip()
    if not NAME.fullmatch(gate) or gate == "i":
        raise BadEvent(f"{gate} is no gate: values stand behind ` !`" if gate else "nothing is named")
    wrong = next((it for it in values if not it or not has_even_brackets(it)), None)
    if wrong is not None:
        raise BadEvent(f"{wrong} is no term" if wrong else "a value is missing")
    return Event(gate, values)


def has_even_brackets(text: str) -> bool:
    """Whether each bracket of a text is closed."""
    depth = 0
    for letter in text:
        depth += {"(": 1, ")": -1}.get(letter, 0)
        if depth < 0:
            return False
    return depth == 0
