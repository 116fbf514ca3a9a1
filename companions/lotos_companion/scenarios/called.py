"""What the entries of a session's menu are called, and the step that was taken last."""
from __future__ import annotations

from typing import List, Optional, Tuple

from ..answers import Entry, Label
from ..naming import HiddenEvent, Kind, NamedPlay
from ..play import Play
from .events import Event


def event_of(label: Label, name: Optional[HiddenEvent], specification: str) -> Event:
    """What an event is called, by its label and by its name if it is a hidden one that has one. Where it is hidden in the
    specification itself, that is not told."""
    if not label.is_internal:
        return Event(label.gate, label.values)
    if name is None:
        return Event(is_hidden=True)
    gate = "" if name.kind is Kind.INNER else name.gate
    is_told = name.kind is not Kind.HIDDEN or name.process.lower() != specification.lower()
    return Event(gate, name.values or (), True, name.process if is_told else "", name.where if is_told else ())


class Called:
    """Names of the events of a session, as far as it has them."""

    def __init__(self, play: Play):
        self._play = play
        self._named = play if isinstance(play, NamedPlay) else None

    @property
    def why_none(self) -> Optional[str]:
        """Why hidden events have no names, if they have none."""
        return "the session has none" if self._named is None else self._named.why_off

    def entries(self) -> List[Tuple[Entry, Event]]:
        """The entries of the present menu with what they are called."""
        entries = self._play.menu.entries
        names: List[Optional[HiddenEvent]] = self._named.names if self._named else [None] * len(entries)
        return [(entry, self._event(entry.label, name)) for entry, name in zip(entries, names)]

    def last_step(self, label: str) -> Event:
        """What the step that was taken last is called, which came to a label."""
        names = self._named.step_names if self._named else []
        return self._event(Label.read(label), names[-1] if names else None)

    def _event(self, label: Label, name: Optional[HiddenEvent]) -> Event:
        return event_of(label, name, self._play.name)
