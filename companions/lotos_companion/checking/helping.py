"""A report with what stands at the place of its refusal, and with changes that were tried."""
from __future__ import annotations

import sys
from dataclasses import replace
from itertools import chain
from typing import Callable, Dict, Iterable, List, Optional, Tuple

from ..language.reading import has_grammar
from .counts import NO_BOOL, START_VALUES, SYNTAX, VALUE_COUNT, Counts
from .covering import Covering, covering
from .desk import Desk
from .doubles import DOUBLE_OPERATION, DOUBLE_SORT, DOUBLE_TYPE, Doubles
from .limits import LIBRARIES, TOO_DEEP, TOO_LARGE, TOO_LONG, LimitHelp
from .misspelling import Misspellings, unread_candidates
from .orders import order_help
from .premisses import NoTest, Premisses
from .readings import NO_READING, TWO_READINGS, NotAsked, profiles, readings_of
from .repairs import Repairs
from .report import Report
from .trees import Trees, read_trees
from .trying import SECONDS, Candidate, Trials

# Calls in one another for terms as deep as a text may have them.
DEEP = 20_000
MOST_TRIES = 16
MOST_QUESTIONS = 40
PREMISED, UNORIENTABLE, UNJOINED = 210, 601, 602
DOUBLES = (DOUBLE_TYPE, DOUBLE_SORT, DOUBLE_OPERATION)
COUNTED = (SYNTAX, VALUE_COUNT, NO_BOOL, START_VALUES)
# Limits; and what is less often misspelled than something else.
LIMITS = (TOO_LONG, TOO_DEEP, LIBRARIES, TOO_LARGE)
REPAIRED_FIRST = (203, 304, 306, 401, 402, 501, 502)

# What stands at the place, and the changes that come first.
Help = Tuple[List[str], Iterable[Candidate]]


def with_help(desk: Desk, report: Report) -> Report:
    """The whole report. Where the specification is accepted, or cannot be asked about, nothing is added."""
    sys.setrecursionlimit(max(sys.getrecursionlimit(), DEEP))
    refusal = report.outcome.refusal
    desk.seconds = max(SECONDS, 2 * desk.last)
    if refusal and refusal.number in LIMITS and report.span:
        limit = LimitHelp(report)
        lines, candidates = limit.lines(), list(limit.candidates())
        found = Trials(desk, report.sources, report.outcome, MOST_TRIES).found(candidates)
        return replace(report, evidence=tuple(lines), suggestions=tuple(found), is_whole=True, asked=desk.asked)
    trials = Trials(desk, report.sources, report.outcome, MOST_TRIES)
    if refusal is None or report.span is None:
        unread = unread_candidates(report.sources, report.outcome.unread) if report.outcome.unread else iter(())
        return replace(report, suggestions=tuple(trials.found(unread)), is_whole=True, asked=desk.asked)
    trees = read_trees(report.sources)
    misspellings, repairs = Misspellings(report, trees), Repairs(report, trees)
    makers: Dict[int, Callable[[], Help]] = {
        PREMISED: lambda: _premisses(desk, report, trees), UNORIENTABLE: lambda: order_help(desk, report),
        UNJOINED: lambda: order_help(desk, report), NO_READING: lambda: _readings(desk, report, trees),
        TWO_READINGS: lambda: _readings(desk, report, trees), **{it: lambda: _doubles(report, trees) for it in DOUBLES},
        **{it: lambda: ([], Counts(report, trees).candidates()) for it in COUNTED}}
    maker = makers.get(refusal.number)
    evidence, first = maker() if maker else ([], ())
    near = misspellings.near()
    others = [misspellings.candidates(), repairs.candidates()]
    if refusal.number in REPAIRED_FIRST or repairs.is_numeral:
        others.reverse()
    found = trials.found(chain(first, *others))
    lines = [*evidence, *repairs.evidence(), *([] if has_grammar() else ["with Debian's package python3-lark there is more help"])]
    return replace(report, near=tuple(near), evidence=tuple(lines), suggestions=tuple(found), is_whole=True, asked=desk.asked)


def _readings(desk: Desk, report: Report, trees: Trees) -> Help:
    """For a term with no reading, or two."""
    readings = readings_of(Trials(desk, report.sources, report.outcome, MOST_QUESTIONS), report, trees)
    assert report.outcome.refusal
    if readings is None:
        return [], ()
    try:
        if report.outcome.refusal.number == NO_READING:
            return list(readings.lines()), chain(readings.grouped(), Counts(report, trees).candidates())
        return list(profiles(trees, readings.name)), list(readings.marked())
    except NotAsked:
        return [], readings.grouped()


def _doubles(report: Report, trees: Trees) -> Help:
    """For what is declared twice."""
    doubles = Doubles(report, trees)
    return doubles.lines(), doubles.candidates()


def _premisses(desk: Desk, report: Report, trees: Trees) -> Help:
    """For an equation with premisses."""
    assert report.span
    at = report.span.begin
    text = next((it for it in trees.texts if it.text == at.text), None)
    if text is None:
        return [], ()
    premisses = Premisses(text, (report.sources.read(text.text) or b"").decode("latin-1"), trees.texts)
    found = premisses.at(report.sources.offset(at))
    if found is None:
        return [], ()
    try:
        tests = premisses.tests(found)
    except NoTest as fault:
        return [f"it is not written with an if: {fault}"], ()
    variables = {it: sort for it, sort in premisses.variables(found).items() if it in premisses.used(found)}
    without = report.sources.edited(premisses.without())
    seen = covering(desk, without, tests, variables, premisses.defined()) if len(tests) > 1 else None
    return _seen_lines(seen, len(tests)), premisses.candidates(found, seen is not None and seen.none is None)


def _seen_lines(seen: Optional[Covering], count: int) -> List[str]:
    """What was seen of the tests of several equations."""
    if count == 1:
        return []
    if seen is None:
        return ["whether just one of the tests holds was not seen: the program has no values for them here"]
    if seen.none is None and seen.several is None:
        return [f"just one of the tests holds for each of {seen.looked_at} choices of small values, by the program's normal forms"]
    lines = [f"none of the tests holds for {seen.none}, by the program's normal forms"] if seen.none else []
    return lines + ([f"more than one holds for {seen.several}: the first is taken there"] if seen.several else [])
