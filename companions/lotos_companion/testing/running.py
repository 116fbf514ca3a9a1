"""One test, run: a scenario or a trace in a session of its own, or a session as it stands."""
from __future__ import annotations

import os
import signal
import time
from contextlib import contextmanager
from dataclasses import dataclass, replace
from typing import Iterator, Optional

from ..play import Parted
from ..scenario import BadTrace
from ..scenarios import BadScenario, Gap, Result, Scenario, Verdict, play_scenario, read_scenario, result_lines
from ..scenarios.renaming import Renamings
from ..session import Ended
from .carrying import Carried, carry_scenario, carry_session, carry_trace, names_between, old_place
from .coverage import Coverage, covered
from .found import CaseFile, CaseKind, NoSpecification, Place, place_of
from .outcomes import ENDINGS, Ending, Outcome
from .places import playing
from .sessions import read_text, run_session

REFUSED = 1


class OutOfTime(Exception):
    """A test takes longer than it may."""


@dataclass(frozen=True)
class Plan:
    """How tests are run: the program, the seconds that each has, the states that a search may look at (none: as the scenario
    says), whether tests are carried over, the folder that has the project as it was before the edit, and whether it is told
    what they take of the source."""

    program: str
    seconds: int
    states: int = 0
    carries: bool = False
    old: Optional[str] = None
    covers: bool = False


@contextmanager
def time_limit(seconds: int) -> Iterator[None]:
    """Ends what is done inside with `OutOfTime` after some seconds."""
    def end(number: int, frame: object) -> None:
        raise OutOfTime

    before = signal.signal(signal.SIGALRM, end)
    signal.setitimer(signal.ITIMER_REAL, seconds)
    try:
        yield
    finally:
        signal.setitimer(signal.ITIMER_REAL, 0)
        signal.signal(signal.SIGALRM, before)


def run_case(plan: Plan, case: CaseFile) -> Outcome:
    """Runs a test."""
    begin = time.monotonic()
    outcome = _run(plan, case)
    outcome = replace(outcome, seconds=time.monotonic() - begin)
    if plan.covers and outcome.place:
        outcome = replace(outcome, covered=_covered(plan, outcome, outcome.place))
    return replace(outcome, lines=())


def _covered(plan: Plan, outcome: Outcome, place: Place) -> Coverage:
    """What a test took of its source."""
    try:
        with time_limit(plan.seconds):
            return covered(plan.program, place, outcome.lines)
    except (OutOfTime, Ended):
        said = f"what {outcome.case.path} takes is not told: the program did not say it in {plan.seconds} seconds"
        return Coverage(os.path.relpath(place.specification), said={said: None})


def _run(plan: Plan, case: CaseFile) -> Outcome:
    """What came of a test; all that can be wrong with its files among that."""
    try:
        with time_limit(plan.seconds):
            return _KINDS[case.kind](plan, case)
    except OutOfTime:
        return Outcome(case, Ending.INCONCLUSIVE, (f"it was not done after {plan.seconds} seconds",))
    except BadScenario as fault:
        return Outcome(case, Ending.BROKEN, (f"{case.path}:{fault.line}: {fault.why}",))
    except (NoSpecification, BadTrace) as fault:
        return Outcome(case, Ending.BROKEN, (str(fault),))
    except Ended as end:
        ending = Ending.FAILED if end.status == REFUSED else Ending.BROKEN
        return Outcome(case, ending, (*end.lines, f"the program ended {end.how}"))
    except OSError as fault:
        return Outcome(case, Ending.BROKEN, (f"{fault.filename}: {fault.strerror}",))


def _run_scenario(plan: Plan, case: CaseFile) -> Outcome:
    """A scenario: what is asked of it holds, or does not, or is not known."""
    scenario = read_scenario(read_text(case.path))
    if plan.states:
        scenario = replace(scenario, states=plan.states)
    place, has_names = place_of(case, scenario.words), _names_hidden_events(scenario)
    old = old_place(place, plan.old) if has_names else None
    result = _played(plan, place, scenario, has_names, names_between(old, place) if old else None)
    if result.verdict is Verdict.FAILED and not has_names:
        result = _played(plan, place, scenario, True)  # Where it parts is told by names.
    said, lines = tuple(result_lines(result)), tuple(it.step.line for it in result.taken)
    if not result.passed:
        return Outcome(case, ENDINGS[result.verdict], said, place=place, lines=lines)
    passed = Outcome(case, Ending.PASSED, more=said, place=place, lines=lines)
    return _carried(passed, carry_scenario(case, scenario, result)) if plan.carries else passed


def _played(plan: Plan, place: Place, scenario: Scenario, with_names: bool, known: Optional[Renamings] = None) -> Result:
    with playing(plan.program, place, with_names) as play:
        return play_scenario(play, scenario, known)


def _names_hidden_events(scenario: Scenario) -> bool:
    """Whether a scenario tells hidden events apart."""
    events = [it.event for it in scenario.items if not isinstance(it, Gap)]
    return any(it.is_hidden and not it.is_any_hidden for it in events)


def _run_trace(plan: Plan, case: CaseFile) -> Outcome:
    """A trace: the program takes its steps again."""
    path, place = os.path.abspath(case.path), place_of(case)
    with playing(plan.program, place, False) as play:
        play.open()
        answer = play.ask(f"replay {path}")
    lines = (f"replay {path}",)
    if answer.first.startswith("replayed "):
        return Outcome(case, Ending.PASSED, place=place, lines=lines)
    failed = Outcome(case, Ending.FAILED, (answer.first,), place=place)
    return _carried_by(plan, failed, place) if plan.carries else failed


def _run_session(plan: Plan, case: CaseFile) -> Outcome:
    """A session: its answers are those that are wanted."""
    place = place_of(case)
    ending, said = run_session(plan.program, case, place)
    outcome = Outcome(case, ending, said, place=place, lines=tuple(read_text(case.path).split("\n")))
    return _carried_by(plan, outcome, place) if plan.carries and ending is Ending.FAILED else outcome


def _carried_by(plan: Plan, failed: Outcome, place: Place) -> Outcome:
    """A test that failed, carried over if it can be."""
    old = old_place(place, plan.old)
    carry = carry_trace if failed.case.kind is CaseKind.TRACE else carry_session
    try:
        return _carried(failed, carry(plan.program, failed.case, place, old))
    except Parted as fault:
        said = f"before the edit, {fault.step.line} => {fault.step.label} is answered by {fault.answer.first}"
        return replace(failed, said=(*failed.said, said))


def _carried(outcome: Outcome, carried: Carried) -> Outcome:
    """What came of a test with what was written of it."""
    written, said = carried
    if written:
        return Outcome(outcome.case, Ending.CARRIED, said, written=written, place=outcome.place, lines=outcome.lines)
    return replace(outcome, said=(*outcome.said, *said))


_KINDS = {CaseKind.SCENARIO: _run_scenario, CaseKind.TRACE: _run_trace, CaseKind.SESSION: _run_session}
