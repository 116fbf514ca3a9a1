"""The words of `lotos-trace`, and what each of its verbs writes."""
from __future__ import annotations

import os
from argparse import Namespace
from typing import Callable, Iterable, List, Optional, Sequence, Tuple

from . import output
from .chart import Chart
from .commands import make_parser
from .commands.trace import COMMAND
from .naming import NamedPlay
from .numbers import Numbers, numbers_of, with_numerals
from .options import ANSWER_IS_NO, NO_ANSWER, UNREAD, read_line
from .program import Words, WrongWords, find_program
from .scenario import BadTrace, Scenario, Unread, follow, read_trace_file, without_specification
from .scenario_text import difference_lines, scenario_lines
from .scenarios.verbs import rebase_trace, write_scenario
from .screen import Screen, wants_colour
from .session import Ended
from .web.picture import NoPicture
from .web.trace_pages import chart_of, chart_png, page_of, recorded
from .web.views import View


class Tool:
    """What the verbs share: the options, and the program."""

    def __init__(self, options: Namespace):
        self._options = options
        self._change: Callable[[str], str] = lambda text: text
        self._with_names: bool = options.names or not options.no_names
        self._why_no_names: Optional[str] = None

    def show(self, path: str, words: Optional[Words]) -> int:
        """Writes each step with its menu."""
        scenario = self._scenario(path, words)
        return self._write_lines(scenario, scenario_lines(scenario, self._options.states))

    def chart(self, path: str, words: Optional[Words]) -> int:
        """Writes the picture: a lane for each gate, or a line for each component."""
        scenario = self._scenario(path, words)
        title = _title(scenario, path)
        if self._options.png:
            return self._write_bytes(scenario, chart_png(self._recorded(path, words, scenario), title))
        if self._options.components:
            return self._write(scenario, chart_of(self._recorded(path, words, scenario), title))
        return self._write(scenario, Chart(scenario, _title(scenario, path), self._change, self._note()).svg())

    def page(self, path: str, words: Optional[Words]) -> int:
        """Writes the page."""
        scenario = self._scenario(path, words)
        view = self._recorded(path, words, scenario)
        return self._write(scenario, page_of(view, _title(scenario, path), words, path))

    def _recorded(self, path: str, words: Optional[Words], scenario: Scenario) -> View:
        """The scenario as the page plays it."""
        program = find_program(self._options.program) if words else None
        return recorded(program, words, scenario, path, self._options.numbers, self._with_names)

    def diff(self, path: str, old: Words, new: Words) -> int:
        """Writes where the new specification parts from the scenario."""
        before = self._scenario(path, old)
        if before.refusal:
            _say(f"{path} does not fit {old.files[0]}: {before.refusal}")
            return UNREAD
        after = self._scenario(path, new)
        lines = difference_lines(f"old: {old.files[0]}", before, f"new: {new.files[0]}", after)
        return self._write_lines(after, lines)

    def _scenario(self, path: str, words: Optional[Words]) -> Scenario:
        """The scenario of a trace, by the program where a specification is named."""
        trace = read_trace_file(path)
        if not words:
            self._change = Numbers().to_decimals if self._options.numbers else self._change
            return without_specification(trace)
        play = NamedPlay(find_program(self._options.program), words, self._with_names)
        try:
            scenario = follow(play, trace, path)
            self._why_no_names = scenario.why_no_names if self._with_names else None
            self._change = numbers_of(play).to_decimals if self._options.numbers else self._change
            return scenario
        finally:
            play.kill()

    def read(self, given: List[str]) -> Words:
        """The words behind `run`, with numerals for the numbers among its values if these are wanted."""
        words = Words.read(given)
        return with_numerals(find_program(self._options.program), words) if self._options.numbers else words

    def _note(self) -> str:
        """What is said of the texts that are shown."""
        numbers = "numerals are shown as decimal numbers" if self._options.numbers else ""
        names = f"hidden events have no names: {self._why_no_names}" if self._why_no_names else ""
        return "; ".join(filter(None, (numbers, names)))

    def _write_lines(self, scenario: Scenario, lines: Iterable[str]) -> int:
        """Writes lines; the status that tells whether all steps fit."""
        screen = Screen(wants_colour("auto"))
        screen.change = self._change
        if self._why_no_names:
            _say(f"hidden events have no names: {self._why_no_names}")
        screen.program_says(lines)
        return ANSWER_IS_NO if scenario.refusal else 0

    def _write_bytes(self, scenario: Scenario, data: bytes) -> int:
        """Writes bytes; the status that tells whether all steps fit."""
        output.write_bytes(data)
        output.flush()
        return ANSWER_IS_NO if scenario.refusal else 0

    def _write(self, scenario: Scenario, text: str) -> int:
        """Writes a text; the status that tells whether all steps fit."""
        output.write(text)
        output.flush()
        return ANSWER_IS_NO if scenario.refusal else 0


def main(given: Sequence[str]) -> int:
    """Reads the options and does what the verb says: the status."""
    options = read_line(make_parser(COMMAND), given)
    try:
        return _call(Tool(options), options, options.words)
    except WrongWords:
        _say("usage: " + "\n       ".join(COMMAND.usage), "")
        raise
    except Unread as fault:
        _say(f"cannot read {fault}")
        return UNREAD
    except BadTrace as fault:
        _say(f"{options.words[1]}: {fault}")
        return ANSWER_IS_NO
    except NoPicture as fault:
        _say(str(fault))
        return NO_ANSWER
    except Ended as end:
        return _ended(end)


def _call(tool: Tool, options: Namespace, words: List[str]) -> int:
    """Calls what the words say."""
    verb, path, rest = (words + ["", ""])[0], (words + ["", ""])[1], words[2:]
    calls = {"show": tool.show, "chart": tool.chart, "page": tool.page}
    if path and verb in calls:
        return calls[verb](path, tool.read(rest) if rest else None)
    if path and verb == "scenario":
        return write_scenario(options, path, tool.read(rest))
    if path and verb == "rebase":
        old, new = _old_and_new(options, tool.read(rest))
        return rebase_trace(options, path, old, new)
    if path and verb == "diff":
        old, new = _old_and_new(options, tool.read(rest))
        if old:
            return tool.diff(path, old, new)
    raise WrongWords


def _old_and_new(options: Namespace, both: Words) -> Tuple[Optional[Words], Words]:
    """The words of the old specification if it is named, and those of the new one."""
    old = _with_order(both.files[0], options.old_order, both) if len(both.files) == 2 else None
    return old, _with_order(both.files[-1], options.new_order, both)


def _with_order(file: str, order: Optional[str], both: Words) -> Words:
    return Words((file, order) if order else (file,), both.values)


def _title(scenario: Scenario, path: str) -> str:
    return f"{scenario.name}: {os.path.basename(path)}" if scenario.name else os.path.basename(path)


def _ended(end: Ended) -> int:
    """Says why the program ended: what it wrote, and its status where that is one of its own for a specification or a file."""
    for line in end.lines:
        _say(line, "")
    if end.status in (1, UNREAD):
        return end.status
    _say(f"the program ended {end.how}")
    return NO_ANSWER


def _say(text: str, before: str = "lotos-trace: ") -> None:
    output.complain(before + text)
