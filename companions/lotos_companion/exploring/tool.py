"""`lotos-explore`: what a specification reaches, as a report, as files for other tools, as a picture."""
from __future__ import annotations

import json
import os
import sys
from argparse import Namespace
from typing import Dict, Iterable, Optional, Sequence

from .. import output
from ..commands import make_parser
from ..commands.explore import COMMAND
from ..options import ANSWER_IS_NO, NO_ANSWER, UNREAD, WRONG_WORDS, read_line
from ..output import complain, visible, write
from ..program import Words, WrongWords, find_program
from ..session import Ended
from .crew import Unexpected
from .explorer import Explorer
from .finite_sorts import FiniteSorts
from .formats import aut_lines, dot_lines
from .graph import StateGraph
from .limits import Limits, Progress
from .picture import MOST_EDGES, MOST_STATES, is_small, picture
from .report import Report, open_entries, sorts_of, trace_text, unknown_states


def main(given: Sequence[str]) -> int:
    """Reads the options, explores, and writes: the status."""
    options = read_line(make_parser(COMMAND), given)
    try:
        words = Words.read(options.words)
    except WrongWords:
        complain(f"usage: {COMMAND.usage[0]}")
        return WRONG_WORDS
    if not 1 <= options.values <= 64 or options.jobs < 1 or options.states < 1:
        complain("lotos-explore: --values takes 1 to 64, --jobs and --states at least 1")
        return WRONG_WORDS
    program = find_program(options.program)
    try:
        return _explore(program, words, options)
    except Ended as ended:
        return say_end(ended)
    except Unexpected as line:
        complain(f"lotos-explore: the program answered {line}")
        return NO_ANSWER


def say_end(ended: Ended) -> int:
    """Says why the program ended: the status, which is its own for a refused specification and a file that is not read."""
    for line in ended.lines:
        complain(line)
    if ended.status in (ANSWER_IS_NO, UNREAD):
        return ended.status
    complain(f"the program ended {ended.how}")
    return NO_ANSWER


class Shown:
    """The line that shows how far it is, on a terminal alone."""

    def __init__(self, wanted: bool) -> None:
        self._is_wanted = wanted and sys.stderr.isatty()
        self._length = 0

    @property
    def watch(self) -> Optional["Shown"]:
        """It, or nothing where nobody looks."""
        return self if self._is_wanted else None

    def __call__(self, progress: Progress) -> None:
        line = progress.line
        sys.stderr.write("\r" + line.ljust(self._length))
        sys.stderr.flush()
        self._length = len(line)

    def clear(self) -> None:
        """Takes the line away."""
        if self._length:
            sys.stderr.write("\r" + " " * self._length + "\r")
            sys.stderr.flush()


def _explore(program: str, words: Words, options: Namespace) -> int:
    shown = Shown(not options.json)
    limits = Limits(options.states, options.seconds, options.depth)
    explorer = Explorer(program, words, limits=limits, values=options.values, jobs=options.jobs, watch=shown.watch)
    try:
        graph = explorer.run()
    finally:
        shown.clear()
    report = Report(words.files[0], explorer.name, graph, explorer.cut, options.values,
                    open_entries(explorer, whole_sorts(program, words, explorer)), graph.deadlocks(), unknown_states(graph),
                    explorer.ended)
    if options.json:
        write(json.dumps(report.data(), indent=1, ensure_ascii=True) + "\n")
    else:
        is_terminal = sys.stdout.isatty()
        write("".join(f"{visible(it) if is_terminal else it}\n" for it in report.lines(options.scenarios)))
    output.flush()
    _write_files(report, graph, options)
    return ANSWER_IS_NO if report.deadlocks else 0


def whole_sorts(program: str, words: Words, explorer: Explorer) -> Dict[str, bool]:
    """For each sort of an entry that was met whether all its values were taken."""
    sorts = sorts_of(explorer)
    if not sorts:
        return {}
    finite = FiniteSorts(program, words)
    try:
        return {it: finite.values(it, explorer.values) is not None for it in sorts}
    finally:
        finite.close()


def _write_files(report: Report, graph: StateGraph, options: Namespace) -> None:
    """Writes the files that are asked for."""
    name = os.path.basename(report.file)
    title = name if report.is_whole else f"{name}, explored to a bound"
    if options.aut:
        _write(options.aut, aut_lines(graph))
    if options.dot:
        _write(options.dot, dot_lines(graph, title))
    if options.svg and is_small(graph):
        _write(options.svg, [picture(graph, title).rstrip("\n")])
    elif options.svg:
        complain(f"lotos-explore: no picture is made of more than {MOST_STATES} states or {MOST_EDGES} transitions")
    if options.traces:
        os.makedirs(options.traces, exist_ok=True)
        for state, way in report.deadlocks.items():
            _write(os.path.join(options.traces, f"deadlock_{state}.trace"), [trace_text(way).rstrip("\n")])


def _write(path: str, lines: Iterable[str]) -> None:
    with open(path, "w", encoding="utf-8", errors="surrogateescape", newline="\n") as file:
        file.writelines(f"{it}\n" for it in lines)
