"""Changes that are tried: the program is asked about the texts with each, and what it does not get further with is dropped."""
from __future__ import annotations

import time
from dataclasses import dataclass
from typing import Iterable, List, Optional, Tuple

from .desk import Desk
from .outcome import Outcome
from .places import tokens_of
from .report import Suggestion
from .sources import WITH, Edit, Place, Sources

MOST_SHOWN = 3
SECONDS = 20.0

# The parts of the program's order of faults. Within each, what stands earlier in the text is told first.
(SPECIFICATION_TEXT, LIBRARY_TEXT, TYPE_NAMES, TYPES, SCOPES, ENDINGS, RECURSION, ORDER, TURNED, JOINED, START_TEXT,
 START_COUNT, ACCEPTED) = range(13)


@dataclass(frozen=True)
class Candidate:
    """A change to be tried: what it says, and its edits."""

    says: str
    edits: Tuple[Edit, ...]


class Trials:
    """Tries changes of texts that were refused. No more calls than `most` are made, and none more than `seconds` after the first."""

    def __init__(self, desk: Desk, sources: Sources, outcome: Outcome, most: int, seconds: float = SECONDS):
        self._desk = desk
        self._sources = sources
        self._outcome = outcome
        self._left = most
        self._seconds = seconds
        self._end: Optional[float] = None

    @property
    def is_over(self) -> bool:
        """Whether nothing more is tried."""
        return self._left <= 0 or self._end is not None and time.monotonic() > self._end

    def found(self, candidates: Iterable[Candidate]) -> List[Suggestion]:
        """The changes that were accepted, and then those with which the first fault stands further on, each kind in the order
        of the candidates. It stops at as many accepted ones as are shown."""
        accepted: List[Suggestion] = []
        further: List[Suggestion] = []
        seen = set()
        for it in candidates:
            if len(accepted) == MOST_SHOWN or self.is_over:
                break
            if it.edits in seen:
                continue
            seen.add(it.edits)
            outcome = self.outcome(it.edits)
            if outcome.is_accepted:
                accepted.append(Suggestion(it.says, it.edits, outcome))
            elif self.is_further(it.edits, outcome):
                further.append(Suggestion(it.says, it.edits, outcome))
        return (accepted + further)[:MOST_SHOWN]

    def outcome(self, edits: Tuple[Edit, ...]) -> Outcome:
        """The answer to the texts with these edits."""
        if self._end is None:
            self._end = time.monotonic() + self._seconds
        self._left -= 1
        return self._desk.check(self._sources.edited(edits))

    def offset(self, edits: Tuple[Edit, ...], place: Place) -> int:
        """The offset of a place in the texts with these edits."""
        return self._sources.edited(edits).offset(place)

    def is_further(self, edits: Tuple[Edit, ...], outcome: Outcome) -> bool:
        """Whether the program got further with these edits than without."""
        new, old = self._part(self._sources.edited(edits), outcome), self._part(self._sources, self._outcome)
        if new is None or old is None or new != old:
            return new is not None and old is not None and new > old
        now, before = outcome.refusal, self._outcome.refusal
        if not (now and before and now.at and before.at) or now.at.text != before.at.text:
            return False
        if now.at.text == WITH:
            return now.at.line > before.at.line
        offset = self._old_offset(edits, now.at)
        is_of_edit = any(it.text == now.at.text and it.begin <= offset <= it.end or it.new.decode("latin-1") == now.detail
                         for it in edits)
        return offset > self._sources.offset(before.at) and not is_of_edit

    def _old_offset(self, edits: Tuple[Edit, ...], place: Place) -> int:
        """The offset that a place in the changed texts had before."""
        offset = self.offset(edits, place)
        for it in sorted((it for it in edits if it.text == place.text), key=lambda it: it.begin):
            if offset >= it.begin + len(it.new):
                offset += it.end - it.begin - len(it.new)
            elif offset > it.begin:
                offset = it.begin
        return offset

    def _part(self, sources: Sources, outcome: Outcome) -> Optional[int]:
        """The part of the order of faults that an answer stands in."""
        if outcome.is_accepted:
            return ACCEPTED
        it = outcome.refusal
        if it is None:
            return LIBRARY_TEXT if outcome.unread else None
        if it.at is None:
            return START_COUNT
        if it.at.text in (WITH, sources.order):
            return START_TEXT if it.at.text == WITH else ORDER
        if it.number < 200:
            return SPECIFICATION_TEXT if it.at.text == sources.specification else LIBRARY_TEXT
        for first, part in ((602, JOINED), (601, TURNED), (402, RECURSION), (401, ENDINGS), (300, SCOPES)):
            if it.number >= first:
                return part
        if it.number < 204:
            return TYPE_NAMES
        return TYPES if in_type(sources, it.at) else SCOPES


def in_type(sources: Sources, place: Place) -> bool:
    """Whether a place is in a type, by the words before it."""
    offset, inside = sources.offset(place), False
    for token in tokens_of(sources.read(place.text) or b""):
        if token.place.offset > offset:
            break
        if token.key in ("type", "endtype"):
            inside = token.key == "type"
    return inside
