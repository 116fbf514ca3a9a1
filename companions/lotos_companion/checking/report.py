"""What a check comes to: the program's answer, and what a reader needs to mend a specification that is refused."""
from __future__ import annotations

from dataclasses import dataclass
from typing import Any, Dict, List, Optional, Tuple

from .meanings import MEANINGS, Meaning
from .outcome import Outcome
from .sources import WITH, Edit, Place, Sources, place_at


@dataclass(frozen=True)
class Span:
    """A part of a text: where it begins, and where it ends."""

    begin: Place
    end: Place


@dataclass(frozen=True)
class Suggestion:
    """A change that was tried: what it says, its edits, and what the program answered to the texts with it."""

    says: str
    edits: Tuple[Edit, ...]
    outcome: Outcome


@dataclass(frozen=True)
class Report:
    """A whole check. `evidence` is what stands at the place, by the texts alone or by further answers of the program, as each
    line says. `asked` is how often the program was asked; the report is whole once suggestions were looked for."""

    sources: Sources
    outcome: Outcome
    span: Optional[Span] = None
    also: Optional[Span] = None
    evidence: Tuple[str, ...] = ()
    near: Tuple[str, ...] = ()
    suggestions: Tuple[Suggestion, ...] = ()
    asked: int = 1
    is_whole: bool = False

    @property
    def meaning(self) -> Optional[Meaning]:
        """What the number of the refusal means."""
        return MEANINGS.get(self.outcome.refusal.number) if self.outcome.refusal else None

    def as_json(self) -> Dict[str, Any]:
        """The report as values of JSON."""
        refusal = self.outcome.refusal
        return {
            "accepted": self.outcome.is_accepted,
            "status": self.outcome.status,
            "answer": list(self.outcome.lines),
            "number": refusal.number if refusal else None,
            "name": refusal.name if refusal else None,
            "detail": refusal.detail if refusal else None,
            "place": _span(self.span),
            "also": _span(self.also),
            "sentence": self.meaning.sentence if self.meaning else None,
            "mend": self.meaning.mend if self.meaning else None,
            "evidence": list(self.evidence),
            "near": list(self.near),
            "suggestions": [self._suggestion(it) for it in self.suggestions],
            "asked": self.asked,
            "whole": self.is_whole,
        }

    def _suggestion(self, it: Suggestion) -> Dict[str, Any]:
        return {"says": it.says, "accepted": it.outcome.is_accepted, "answer": it.outcome.first,
                "edits": [self._edit(edit) for edit in it.edits]}

    def _edit(self, edit: Edit) -> Dict[str, Any]:
        old = text_of(self.sources, edit)
        return {**(_span(span_of(self.sources, edit)) or {}), "old": _decoded(old[edit.begin:edit.end]), "new": _decoded(edit.new)}


def text_of(sources: Sources, edit: Edit) -> bytes:
    """The text, or the word behind `with`, that an edit is for."""
    return (sources.word(edit.word) if edit.text == WITH else sources.read(edit.text)) or b""


def span_of(sources: Sources, edit: Edit) -> Span:
    """The part that an edit takes out."""
    if edit.text == WITH:
        return Span(Place(WITH, edit.word, edit.begin + 1), Place(WITH, edit.word, edit.end + 1))
    text = text_of(sources, edit)
    return Span(place_at(edit.text, text, edit.begin), place_at(edit.text, text, edit.end))


def _span(span: Optional[Span]) -> Optional[Dict[str, Any]]:
    if span is None:
        return None
    return {"text": span.begin.text, "line": span.begin.line, "column": span.begin.column, "end_line": span.end.line,
            "end_column": span.end.column}


def _decoded(text: bytes) -> str:
    return text.decode("utf-8", "replace")


def lines_of(names: List[str], most: int = 12) -> str:
    """Names behind commas, and how many more there are."""
    return ", ".join(names[:most]) + (f" and {len(names) - most} more" if len(names) > most else "")
