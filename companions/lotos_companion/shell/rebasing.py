"""Steps that an edit of the specification made impossible as they were, looked for by what their events are called."""
from __future__ import annotations

from typing import List

from ..naming import NamedPlay
from ..scenarios import BadScenario, play_scenario, read_scenario, result_lines
from ..session import Ended
from .desk import Desk, counted


def take_again(desk: Desk, events: List[str]) -> bool:
    """Looks for events in a session beside that of the shell, and takes the way that is found; whether there is one."""
    beside = NamedPlay(desk.play.program, desk.play.words)
    try:
        result = play_scenario(beside, read_scenario("\n".join(["lotos-scenario 1", *events])))
        way = list(beside.done)
    except BadScenario as fault:
        desk.own_text(f"what a step is called cannot be read: {fault.why}")
        return False
    except Ended as end:
        desk.screen.program_says(end.lines)
        desk.own("the specification cannot be read again")
        return False
    finally:
        beside.kill()
    for line in result_lines(result):
        desk.own_text(line)
    if result.passed:
        desk.say_moves(desk.take_way(way))
        desk.own(f"{counted(len(way))} in place of {len(events)}")
    return result.passed
