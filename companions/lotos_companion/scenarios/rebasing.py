"""A trace carried over to an edited specification, by what its events are called."""
from __future__ import annotations

import glob
import os
from dataclasses import replace
from itertools import islice
from typing import Iterator, List, Optional, Sequence

from ..answers import Label
from ..language import NoToken, tokens
from ..play import Play
from ..traces import Step, Trace
from .events import Event
from .making import events_of_steps
from .playing import play_scenario
from .renaming import Renamings
from .results import Result
from .scenario import Happens, Scenario
from .source_names import read_names, renamings_between

# A search that needs more steps than this many for each one of the trace is ended.
STATES = 10_000


def rebase(old: Optional[Play], trace: Trace, new: Play) -> Result:
    """The steps of a trace of the old specification in the new one: the result has the new trace, or where the new one parts.
    `Parted` where the trace is none of the old one. Where that is not there, an `i` is taken for any hidden event. `Ended`
    where one of the two is not accepted."""
    events = events_of_steps(old, trace.steps) if old else events_of_labels(trace)
    names = renamings_between(read_names(old.words.files[0]) if old else None, read_names(new.words.files[0]))
    return carried(events, names, new, old is not None)


def carried(events: Sequence[Happens], names: Renamings, new: Play, is_old_known: bool) -> Result:
    """Events of an old specification in a new one, with what stands for the names."""
    scenario = Scenario(tuple(events), states=max(STATES, 10 * len(events)))
    result = play_scenario(new, scenario, names)
    said = () if is_old_known else ("its old specification is not there: an i is taken for any",)
    return replace(result, said=(*said, *result.said))


def events_of_labels(trace: Trace) -> List[Happens]:
    """What the steps of a trace are called, where nothing is known of hidden events."""
    return [_event(it) for it in trace.steps]


def _event(step: Step) -> Happens:
    """What a step is called, where nothing is known of hidden events."""
    label = Label.read(step.label)
    return Happens(Event(is_hidden=True) if label.is_internal else Event(label.gate, label.values))


def specifications_of(trace: Trace, folder: str, stem: str) -> Iterator[str]:
    """The specifications of a folder that have the name which a trace tells, those that are named like it first."""
    found = []
    for path in sorted(glob.glob(os.path.join(glob.escape(folder), "*.lotos"))):
        name = specification_name(path)
        if name is not None and (trace.name is None or name.lower() == trace.name.lower()):
            found.append(path)
    yield from sorted(found, key=lambda it: os.path.basename(it)[:-len(".lotos")] != stem)


def specification_name(path: str) -> Optional[str]:
    """The name of the specification in a file, or nothing where there is none."""
    try:
        with open(path, encoding="utf-8", errors="surrogateescape") as file:
            words = [it.text for it in islice(tokens(file.read()), 2)]
    except (OSError, ValueError, NoToken):
        return None
    return words[1] if len(words) == 2 and words[0].lower() == "specification" else None
