"""Tests carried over to edited specifications: their files are written anew where each of their events is still there."""
from __future__ import annotations

import os
from typing import Optional, Tuple

from ..scenario import read_trace_file
from ..scenarios import Result, Scenario, renamed_text, result_lines
from ..scenarios.making import events_of_steps
from ..scenarios.rebasing import carried, events_of_labels
from ..scenarios.renaming import Renamings
from ..scenarios.source_names import read_names, renamings_between
from .found import CaseFile, Place
from .places import playing
from .session_carrying import NotCarried, carried_lines, read_lines
from .sessions import SessionFile, read_session, read_text, run_lines, write_text

# The files that were written, and what is said.
Carried = Tuple[Tuple[str, ...], Tuple[str, ...]]


def old_place(place: Place, folder: Optional[str]) -> Optional[Place]:
    """The place of the specification before the edit, in a folder that has the project as it was."""
    if folder is None:
        return None
    for path in (os.path.join(folder, os.path.relpath(place.folder)), folder):
        if os.path.exists(os.path.join(path, place.words.files[0])):
            return Place(place.words, path)
    return None


def names_between(old: Optional[Place], new: Place) -> Renamings:
    """What stands for the names of the specification before the edit."""
    return renamings_between(read_names(old.specification) if old else None, read_names(new.specification))


def carry_scenario(case: CaseFile, scenario: Scenario, result: Result) -> Carried:
    """Writes the names under which a scenario holds into it."""
    if not result.renamed:
        return (), ()
    renamings = result.renamings
    text = renamed_text(read_text(case.path), scenario, renamings.gates.name, renamings.processes.name)
    write_text(case.path, text)
    return (case.path,), tuple(result_lines(result))


def carry_trace(program: str, case: CaseFile, place: Place, old: Optional[Place]) -> Carried:
    """Writes the trace of the edited specification."""
    trace = read_trace_file(case.path)
    events = events_of_labels(trace)
    if old:
        with playing(program, old, True) as play:
            events = events_of_steps(play, trace.steps)
    with playing(program, place, True) as play:
        result = carried(events, names_between(old, place), play, old is not None)
    if not result.passed:
        return (), tuple(result_lines(result))
    write_text(case.path, "".join(f"{it}\n" for it in result.trace))
    return (case.path,), tuple(result_lines(result))


def carry_session(program: str, case: CaseFile, place: Place, old: Optional[Place]) -> Carried:
    """Writes the session of the edited specification, its answers, and the traces that it saves beside it."""
    if old is None:
        return (), ("a session is carried over from its specification before the edit: --old FOLDER",)
    session = read_session(case)
    texts = session.typed.decode("utf-8", "surrogateescape").split("\n")
    try:
        with playing(program, old, True) as play:
            lines = read_lines(play, texts)
        with playing(program, place, True) as play:
            typed = "\n".join(carried_lines(play, lines, names_between(old, place)))
    except NotCarried as fault:
        return (), (str(fault),)
    session = SessionFile(typed.encode("utf-8", "surrogateescape"), session.wanted, session.saved)
    ran = run_lines(program, case, place, session)
    files = {case.path: typed, f"{case.stem}.report": ran.answered}
    kept = {os.path.join(case.folder, name): text for name, text in ran.saved.items()}
    files.update({path: text for path, text in kept.items() if os.path.exists(path)})
    written = tuple(path for path, text in files.items() if read_text(path) != text)
    for path in written:
        write_text(path, files[path])
    return written, ()
