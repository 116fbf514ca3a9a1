"""One call for the whole of a check: the program's answer to texts, and what a reader needs where they are refused.

    check(program, words, texts) -> Report

`program` is the path of `lotos`, `words` are those that stand behind `check`, and `texts` are texts by their names that are
taken in place of what stands on the disk: of the specification or the order file as the words name it, of a library `N` by
`N.lib`. Libraries are looked for in `folder`. Every suggestion of the report was tried: the program accepted the texts with
it, or its first fault stands further on. `Stale` is raised as soon as `is_stale()` holds. `reports` gives the answer with its
place and meaning first, behind one call of the program, and then the whole report.
"""
from __future__ import annotations

import os
from typing import Callable, Dict, Iterator, Mapping, Optional

from ..program import Words
from .desk import Desk
from .helping import with_help
from .places import refused_place, span_at
from .report import Report
from .sources import Sources

NO_TEXTS: Mapping[str, bytes] = {}


def check(program: str, words: Words, texts: Mapping[str, bytes] = NO_TEXTS, folder: str = ".",
          is_stale: Optional[Callable[[], bool]] = None) -> Report:
    """The whole report on a specification."""
    *_, report = reports(program, words, texts, folder, is_stale)
    return report


def reports(program: str, words: Words, texts: Mapping[str, bytes] = NO_TEXTS, folder: str = ".",
            is_stale: Optional[Callable[[], bool]] = None) -> Iterator[Report]:
    """The report with the answer, its place and its meaning alone, and then the whole report."""
    with Desk(program, folder) as desk:
        if is_stale:
            desk.is_stale = is_stale
        report = _first_report(desk, sources_of(words, texts, folder))
        yield report
        yield with_help(desk, report)


def _first_report(desk: Desk, sources: Sources) -> Report:
    """The report with the answer, its place and its meaning alone."""
    outcome = desk.check(sources)
    if outcome.refusal is None:
        return Report(sources, outcome)
    number = outcome.refusal.number
    return Report(sources, outcome, span_at(sources, refused_place(sources, outcome.refusal), number),
                  span_at(sources, outcome.refusal.also, number))


def sources_of(words: Words, texts: Mapping[str, bytes] = NO_TEXTS, folder: str = ".") -> Sources:
    """The texts, with those of the words' files as they are now. (A pipe can be read once.)"""
    kept: Dict[str, bytes] = dict(texts)
    for name in words.files:
        if name not in kept:
            try:
                with open(os.path.join(folder, name), "rb") as file:
                    kept[name] = file.read()
            except (OSError, ValueError):
                pass
    return Sources(words, kept, folder)
