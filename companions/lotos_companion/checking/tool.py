"""The words of `lotos-check`, and what it writes."""
from __future__ import annotations

import json
from typing import Callable, Optional, Sequence

from .. import output
from ..commands import make_parser
from ..commands.check import COMMAND
from ..options import NO_ANSWER, WRONG_WORDS, read_line
from ..outline.tool import write_outline
from ..program import Words, WrongWords, find_program
from ..screen import Screen, wants_colour
from .check import reports
from .desk import Stale
from .report import Report
from .report_text import help_lines, place_lines
from .watching import Watch


def main(given: Sequence[str]) -> int:
    """Reads the options, checks, and prints: its status."""
    options = read_line(make_parser(COMMAND), given)
    try:
        words = Words.read(options.words)
    except WrongWords:
        output.complain(f"usage: {COMMAND.usage[0]}")
        return WRONG_WORDS
    if options.outline or options.picture:
        return write_outline(words.files[0], options.picture, options.json)
    tool = Tool(find_program(options.program), words, Screen(wants_colour(options.color)), options.json, options.bare)
    return tool.watch() if options.watch else tool.check()


class Tool:
    """What is checked, and how it is written."""

    def __init__(self, program: str, words: Words, screen: Screen, as_json: bool, is_bare: bool):
        self._program = program
        self._words = words
        self._screen = screen
        self._as_json = as_json
        self._is_bare = is_bare

    def check(self, is_stale: Optional[Callable[[], bool]] = None, in_parts: bool = False) -> int:
        """Checks once: the status. With `in_parts` the answer is written before suggestions are looked for."""
        status = NO_ANSWER
        for report in reports(self._program, self._words, is_stale=is_stale):
            status = report.outcome.status if report.outcome.status >= 0 else NO_ANSWER
            if self._as_json:
                if report.is_whole or in_parts:
                    output.write(json.dumps(report.as_json()) + "\n")
            else:
                self._write(report)
            output.flush()
            if self._is_bare and not self._as_json:
                break
        return status

    def watch(self) -> int:
        """Checks anew whenever a text was saved, up to Ctrl-C."""
        watch = Watch(self._words.files)
        while True:
            try:
                self.check(watch.is_changed, in_parts=True)
            except Stale:
                pass
            watch.wait()
            if not self._as_json:
                self._screen.own(f"saved: {', '.join(watch.changed)}")

    def _write(self, report: Report) -> None:
        """Writes what is new in a report."""
        if not report.is_whole:
            self._screen.program_says(report.outcome.lines)
            lines = place_lines(report)
        else:
            lines = help_lines(report)
        if not self._is_bare:
            for line in lines:
                self._screen.own(line)
