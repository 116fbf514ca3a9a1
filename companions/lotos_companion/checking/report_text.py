"""The lines of a report that are the companion's own: the place with a mark, what the refusal means, and what may mend it."""
from __future__ import annotations

from typing import Iterator, Optional

from .carets import caret_lines
from .report import Report, Span, Suggestion, span_of
from .sources import WITH, Sources


def place_lines(report: Report) -> Iterator[str]:
    """The line of the refusal with its mark, that of a second equation, and what the refusal means."""
    yield from _marked(report.sources, report.span)
    if report.also:
        yield f"and {report.also.begin}"
        yield from _marked(report.sources, report.also)
    if report.meaning:
        yield report.meaning.sentence
        yield report.meaning.mend


def help_lines(report: Report) -> Iterator[str]:
    """What stands at the place, names near it, and the changes that were tried."""
    yield from report.evidence
    if report.near:
        yield "near: " + ", ".join(report.near)
    for suggestion in report.suggestions:
        yield from suggestion_lines(report.sources, suggestion)


def suggestion_lines(sources: Sources, suggestion: Suggestion) -> Iterator[str]:
    """A change, and what the program answered to the texts with it."""
    answer = "accepted with it" if suggestion.outcome.is_accepted else f"with it: {suggestion.outcome.first}"
    yield f"try: {suggestion.says} ({answer})"
    for edit in suggestion.edits:
        if b"\n" in edit.new:
            yield f"at {span_of(sources, edit).begin}:"
            lines = edit.new.decode("utf-8", "surrogateescape").strip("\n").split("\n")
            yield from (f"  + {line}" for line in lines if line.strip())


def _marked(sources: Sources, span: Optional[Span]) -> Iterator[str]:
    """The line of a place, and its mark."""
    line = sources.line(span.begin) if span else None
    if span is None or line is None:
        return
    end = span.end.column - 1 if span.end.line == span.begin.line else len(line)
    shown, mark = caret_lines(line, span.begin.column - 1, end)
    head = f"{WITH} {span.begin.line} | " if span.begin.text == WITH else f"{span.begin.line:4} | "
    yield head + shown
    yield " " * (len(head) - 2) + "| " + mark
