"""Scenarios by what their events are called, which outlive an edit of the specification.

`read_scenario(text)` reads one (`BadScenario` tells the line of a fault), `scenario_text(scenario)` writes it.
`play_scenario(play, scenario)` takes it in a session; its `Result` has the verdict, the steps that were taken, and where the
specification parts from the scenario. `result_lines(result)` says so in lines. `rebase(old, trace, new)` takes a trace of one
session's specification in that of another. A `NamedPlay` tells hidden events apart; in a plain `Play` an `i` is
any of them, and a scenario that names hidden events is inconclusive.
"""
from .events import BadEvent, Event, read_event
from .playing import play_scenario
from .rebasing import rebase
from .results import Parting, Result, Taken, Verdict, result_lines
from .scenario import Gap, Happens, Impossible, Item, Kind, Scenario
from .texts import BadScenario, read_scenario, renamed_text, scenario_text

__all__ = ["BadEvent", "BadScenario", "Event", "Gap", "Happens", "Impossible", "Item", "Kind", "Parting", "Result", "Scenario",
           "Taken", "Verdict", "play_scenario", "read_event", "read_scenario", "rebase", "renamed_text", "result_lines",
           "scenario_text"]
