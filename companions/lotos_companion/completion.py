"""How a line of a session can go on: commands, entries, gates, values that fit, names of the data, names of files."""
from __future__ import annotations

import glob
import os
import re
from dataclasses import dataclass, field
from typing import Callable, Dict, Iterable, List, NamedTuple, Sequence

from .answers import Entry
from .signature import Signature

FILE_COMMANDS = ("save", "save!", "replay")
TERM_COMMANDS = ("normal", "equal")
ENTRY_COMMANDS = ("step", "which", "instances")
GATE_COMMANDS = ("step", "until")
PLACE_COMMANDS = ("goto", "mark")
LAST_NAME = re.compile(r"[^ \t,()!]*$")


class Ending(NamedTuple):
    """How a line can go on: from which letter on, with which text, and a word on what that is."""

    begin: int
    text: str
    what: str = ""


@dataclass
class Known:
    """What can stand in a line. `values_of` finds values that fit the entry with a number."""

    commands: Dict[str, str]
    entries: Sequence[Entry] = ()
    signature: Signature = Signature(())
    gates: Sequence[str] = ()
    places: Sequence[str] = ()
    values_of: Callable[[str], Sequence[str]] = field(default=lambda _: ())


def endings(line: str, known: Known) -> List[Ending]:
    """How this beginning of a line can go on."""
    bare = line.lstrip()
    command, blank, rest = bare.partition(" ")
    if not blank:
        begin = len(line) - len(bare)
        return [Ending(begin, f"{it} ", known.commands[it]) for it in sorted(known.commands) if it.startswith(command)]
    before, argument = line[:len(line) - len(rest)], rest.lstrip()
    begin = len(before) + len(rest) - len(argument)
    if command in FILE_COMMANDS:
        return [Ending(begin, it) for it in _files(argument)]
    if command in PLACE_COMMANDS:
        return _fitting(begin, argument, known.places)
    if command == "values" and " " not in argument:
        return _fitting(begin, argument, known.signature.sorts, " ")
    if command in ENTRY_COMMANDS + GATE_COMMANDS and " " not in argument:
        return _entries(command, begin, argument, known)
    if command.isdigit() or command in ("step", "which") and argument.split(" ")[0].isdigit():
        number, terms = (command, rest) if command.isdigit() else argument.split(" ", 1)
        return [*_values(line, number, terms, known), *_names(line, known.signature)]
    return _names(line, known.signature) if command in TERM_COMMANDS + ENTRY_COMMANDS + GATE_COMMANDS else []


def _fitting(begin: int, argument: str, words: Iterable[str], behind: str = "") -> List[Ending]:
    """The words with this beginning, whatever their letters."""
    return [Ending(begin, it + behind) for it in dict.fromkeys(words) if it.lower().startswith(argument.lower())]


def _entries(command: str, begin: int, argument: str, known: Known) -> List[Ending]:
    """Numbers of entries, and gates, as a command takes them."""
    found = []
    if command in ENTRY_COMMANDS:
        found = [Ending(begin, it.number, it.line.partition(": ")[2]) for it in known.entries if it.number.startswith(argument)]
    if command in GATE_COMMANDS:
        gates = [it.label.gate for it in known.entries if not it.label.text.startswith("i (")] if command == "step" else known.gates
        found += _fitting(begin, argument, sorted(dict.fromkeys(gates)))
    return found


def _values(line: str, number: str, terms: str, known: Known) -> List[Ending]:
    """Values that fit an entry and begin so."""
    begin = len(line) - len(terms.lstrip())
    return [Ending(begin, it, "fits") for it in known.values_of(number) if it.startswith(terms.lstrip())]


def _files(begin: str) -> List[str]:
    """The names of files with this beginning, folders with a stroke behind them."""
    found = glob.glob(glob.escape(begin) + "*")
    return sorted(it + (os.sep if os.path.isdir(it) else "") for it in found)


def _names(line: str, signature: Signature) -> List[Ending]:
    """The names of the data that the last name can become; behind an operation with arguments stands its bracket."""
    begin = LAST_NAME.search(line).start()  # type: ignore[union-attr]
    name = line[begin:].lower()
    fitting: Dict[str, str] = {}
    for it in signature.operations:
        if it.name.lower().startswith(name):
            what = f"{', '.join(it.arguments)} -> {it.result}".lstrip()
            fitting.setdefault(it.name + ("(" if it.arguments and not it.infix else ""), what)
    return [Ending(begin, it, fitting[it]) for it in sorted(fitting)]
