"""A scenario played in a session: whether it happens as it is written, may happen, must happen, or never does."""
from __future__ import annotations

from dataclasses import replace
from typing import Optional, Tuple, Union

from ..play import Play
from .called import Called
from .inevitable import Inevitable, InevitableSearch
from .renaming import Renamings
from .results import Result, Taken, Verdict
from .scenario import Gap, Kind, Scenario
from .search import Found, Search
from .source_names import read_names, renamings_of_scenario


def play_scenario(play: Play, scenario: Scenario, renamings: Optional[Renamings] = None) -> Result:
    """Plays a scenario in a session from the first state on. `Ended` where the specification is not accepted. The session is
    left at the end of the way that was found, and its trace is in the result."""
    play.open()
    said = _without_names(play, scenario)
    known = renamings or renamings_of_scenario(scenario, read_names(play.words.files[0]))
    result = _must(play, scenario, known) if scenario.kind is Kind.MUST else _searched(play, scenario, known)
    return replace(result, verdict=Verdict.INCONCLUSIVE, said=(*said, *result.said)) if said else result


def _without_names(play: Play, scenario: Scenario) -> Tuple[str, ...]:
    """What is said where the scenario tells hidden events apart and the session cannot: then nothing is sure."""
    asked = [it for it in scenario.items if not isinstance(it, Gap) and it.event.is_hidden and not it.event.is_any_hidden]
    why = Called(play).why_none
    return (f"hidden events have no names ({why}): each i is taken for any",) if asked and why else ()


def _searched(play: Play, scenario: Scenario, renamings: Renamings) -> Result:
    """Whether there is a way, and whether there should be one."""
    search = Search(play, scenario, renamings)
    found = search.run()
    if found.way is None:
        is_right = scenario.kind is Kind.NEVER
        verdict = _verdict(is_right, found.has_left_out)
        parting = None if verdict is Verdict.PASSED else search.parting()
        return Result(verdict, scenario, parting.taken if parting else (), parting, _bound(found), states=found.states)
    is_right = scenario.kind is not Kind.NEVER
    said = ("some values were not tried of an event that is to be impossible",) if found.is_doubtful else ()
    if not is_right:
        said = ("it is possible:", *_way(found.way), *said)
    trace = play.ask("trace").lines
    return Result(_verdict(is_right, found.is_doubtful), scenario, found.way, None, said, found.renamings, trace,
                  found.states)


def _verdict(is_right: bool, is_open: bool) -> Verdict:
    if is_open:
        return Verdict.INCONCLUSIVE
    return Verdict.PASSED if is_right else Verdict.FAILED


def _bound(found: Union[Found, Inevitable]) -> Tuple[str, ...]:
    """What is said where the search ended before all was tried."""
    values = ("not all values were tried of an entry with variables: their sorts have more than are tried",)
    ended = (f"the search ended after {found.states} steps; not all was tried",) if found.has_left_out else ()
    return (*ended, *(values if found.has_left_values else ()))


def _way(way: Tuple[Taken, ...]) -> Tuple[str, ...]:
    """The steps of a way, a line each."""
    return tuple(f"  {it.called}" for it in way)


def _must(play: Play, scenario: Scenario, renamings: Renamings) -> Result:
    """Whether a scenario happens on every way."""
    search = InevitableSearch(play, scenario, renamings)
    found = search.run()
    if found.missed:
        said = ("there is a way on which it does not happen:", *_way(found.missed.taken), f"  and then {found.missed.why}")
        return Result(Verdict.FAILED, scenario, found.missed.taken, search.parting(), said, states=found.states)
    said = _bound(found)
    return Result(_verdict(True, found.has_left_out), scenario, found.way, said=said, states=found.states)
