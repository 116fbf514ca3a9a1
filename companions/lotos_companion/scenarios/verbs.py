"""The verbs of `lotos-trace` that write scenarios, and traces carried over to an edited specification."""
from __future__ import annotations

import json
import os
from argparse import Namespace
from typing import Any, Dict, Optional, Tuple

from .. import output
from ..naming import NamedPlay
from ..play import Parted, Play
from ..program import Words, find_program
from ..scenario import Unread, read_trace_file
from ..session import Ended
from ..traces import Step, Trace
from .making import events_of_steps, scenario_of, steps_of_session
from .rebasing import rebase, specifications_of
from .results import Result, result_lines
from .texts import scenario_text

DOES_NOT_FIT = 1
NOT_OF_OLD = 3


def write_scenario(options: Namespace, path: str, words: Words) -> int:
    """Writes the scenario of a trace or of a session: the status."""
    play = NamedPlay(find_program(options.program), words)
    try:
        steps = _steps(play, path)
        events = events_of_steps(play, steps)
    except Parted as fault:
        return _does_not_fit(path, fault, DOES_NOT_FIT)
    finally:
        play.kill()
    scenario = scenario_of(events, words.line("run")[1:], options.visible)
    output.write(scenario_text(scenario, (f"Made from {os.path.basename(path)}.",)))
    return 0


def _steps(play: Play, path: str) -> Tuple[Step, ...]:
    """The steps of a trace, or those behind the lines of a session."""
    if not path.endswith(".session"):
        return read_trace_file(path).steps
    try:
        with open(path, encoding="utf-8", errors="surrogateescape") as file:
            lines = list(file)
    except OSError:
        raise Unread(path) from None
    return steps_of_session(play, lines)


def _does_not_fit(path: str, fault: Parted, status: int) -> int:
    """Says at which line a trace does not fit its specification: the status."""
    output.complain(f"{path}: line {fault.step.place}, {fault.step.line} => {fault.step.label}: {fault.answer.first}")
    return status


def rebase_trace(options: Namespace, path: str, old: Optional[Words], new: Words) -> int:
    """Writes the trace of an edited specification, or where that parts: the status."""
    program, trace = find_program(options.program), read_trace_file(path)
    before = NamedPlay(program, old) if old else _old_play(program, trace, path, new)
    after = NamedPlay(program, new)
    try:
        result = rebase(before, trace, after)
    except Parted as fault:
        return _does_not_fit(path, fault, NOT_OF_OLD)
    finally:
        after.kill()
        if before:
            before.kill()
    _write(options, result)
    return 0 if result.passed else DOES_NOT_FIT


def _old_play(program: str, trace: Trace, path: str, new: Words) -> Optional[NamedPlay]:
    """A session of the specification that a trace names: the one beside it that it fits, and that is not the new one."""
    stem = os.path.basename(path).partition(".")[0]
    for found in specifications_of(trace, os.path.dirname(path) or ".", stem):
        if os.path.exists(new.files[0]) and os.path.samefile(found, new.files[0]):
            continue
        play = NamedPlay(program, Words((found, *new.files[1:]), new.values))
        try:
            events_of_steps(play, trace.steps)
            return play
        except (Parted, Ended):
            play.kill()
    return None


def _write(options: Namespace, result: Result) -> None:
    """Writes the new trace with what is said of it on the error stream, or where the specification parts; or all as JSON."""
    if options.json:
        output.write(json.dumps(_data(result), indent=1) + "\n")
    elif result.passed:
        output.write("".join(f"{it}\n" for it in result.trace))
        output.flush()
        for line in result_lines(result):
            output.complain(line)
    else:
        output.write("".join(f"{it}\n" for it in result_lines(result)))


def _data(result: Result) -> Dict[str, Any]:
    """A result as data."""
    parting = result.parting
    steps = [{"line": it.step.line, "label": it.step.label, "called": it.called, "choices": it.choices} for it in result.taken]
    parts = parting and {"step": parting.item + 1, "wanted": str(parting.wanted), "possible": list(parting.possible),
                         "nearest": parting.nearest}
    return {"verdict": result.verdict.value, "steps": steps, "renamed": result.renamed, "said": list(result.said),
            "parts": parts, "trace": list(result.trace)}
