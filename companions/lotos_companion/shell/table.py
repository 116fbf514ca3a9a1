"""A command of the shell, as data: its help and the completion of its word are made from the table of all of them."""
from __future__ import annotations

from typing import Callable, Dict, NamedTuple, Tuple


class Command(NamedTuple):
    """What stands behind the word of a command, what it does, and what is called with the rest of the line."""

    words: str
    what: str
    call: Callable[[str], None]


class Group(NamedTuple):
    """Commands of one subject, by their words."""

    title: str
    commands: Dict[str, Command]


# The lines that are the program's own, for help and for completion.
PROGRAM_LINES: Tuple[Tuple[str, str, str], ...] = (
    ("undo", "", "takes the last step back"),
    ("trace", "", "the steps that led here"),
    ("replay", "NAME", "takes the steps of the trace in a file"),
    ("show", "", "the behaviour that was reached, in one line"),
    ("values", "SORT K", "the values of a sort with at most K operations"),
    ("instances", "N K", "the events of entry N by such values"),
    ("quit", "", "ends the session"),
)
