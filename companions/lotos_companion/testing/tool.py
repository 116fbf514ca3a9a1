"""The words of `lotos-test`, and its statuses."""
from __future__ import annotations

import datetime
import json
import os
import re
import sys
import time
from argparse import Namespace
from typing import Any, Dict, List, Sequence, Tuple

from .. import output
from ..commands import make_parser
from ..commands.test import COMMAND
from ..options import read_line
from ..program import NoProgram, find_program
from .coverage import merged
from .coverage_text import coverage_data, coverage_lines, coverage_page
from .found import CaseFile, NotFound, find_tests, shard
from .outcomes import RIGHT, Outcome, told
from .reports import json_report, junit, outcome_lines
from .running import Plan
from .workers import run_all

# As test runners have them.
PASSED, FAILED, INTERRUPTED, NOT_RUN, WRONG_WORDS, NONE_FOUND = range(6)
SHARD = re.compile(r"([1-9]\d{0,5})/([1-9]\d{0,5})")


class Wrong(Exception):
    """The words are wrong; the text says how."""


def main(given: Sequence[str]) -> int:
    """Runs the tests that the words name: the status."""
    try:
        options = read_line(make_parser(COMMAND), given)
    except SystemExit as end:
        return WRONG_WORDS if end.code else PASSED
    try:
        return _call(options)
    except (Wrong, NotFound) as fault:
        said = f"there is no test {fault}" if isinstance(fault, NotFound) else str(fault)
        return _complain(said, WRONG_WORDS)
    except NoProgram as fault:
        return _complain(str(fault), NOT_RUN)
    except OSError as fault:
        output.drop()
        return _complain(f"{fault.filename or 'the output'}: {fault.strerror}", NOT_RUN)


def _complain(text: str, status: int) -> int:
    output.complain(f"lotos-test: {text}")
    return status


def _call(options: Namespace) -> int:
    """Finds the tests and runs them."""
    cases = _chosen(options)
    if options.list:
        output.write("".join(f"{it.path}\n" for it in cases))
        output.flush()
        return PASSED if cases else NONE_FOUND
    return Run(options, cases).run()


def _chosen(options: Namespace) -> List[CaseFile]:
    """The tests that are to be run here."""
    cases = find_tests(options.words)
    if options.shard is None:
        return cases
    found = SHARD.fullmatch(options.shard)
    if not found or int(found[1]) > int(found[2]):
        raise Wrong(f"--shard {options.shard}: it is I/N, with I from 1 to N")
    return shard(cases, int(found[1]), int(found[2]))


class Run:
    """One run of tests, and what is written of it."""

    def __init__(self, options: Namespace, cases: Sequence[CaseFile]):
        self._options = options
        self._cases = cases
        for name in ("jobs", "time", "states"):
            number = getattr(options, name)
            if number is not None and number < 1:
                raise Wrong(f"--{name} {number}: it is a number from 1 on")
        self._plan = Plan(os.path.abspath(find_program(options.program)), options.time, options.states or 0, options.rebase,
                          options.old and os.path.abspath(options.old),
                          bool(options.coverage or options.coverage_page))
        self._outcomes: List[Outcome] = []
        self._begin = datetime.datetime.now()
        self._start = time.monotonic()

    def run(self) -> int:
        """Runs the tests and writes what came of them: the status. What was done before a Ctrl-C is written too."""
        is_interrupted = False
        try:
            for outcome in run_all(self._plan, self._cases, self._options.jobs or os.cpu_count() or 1):
                self._outcomes.append(outcome)
                self._show(outcome)
        except KeyboardInterrupt:
            is_interrupted = True
        self._report(is_interrupted)
        if is_interrupted:
            return INTERRUPTED
        if not self._cases:
            return NONE_FOUND
        return PASSED if all(it.ending in RIGHT for it in self._outcomes) else FAILED

    @property
    def _seconds(self) -> float:
        return time.monotonic() - self._start

    def _show(self, outcome: Outcome) -> None:
        """Writes what came of a test, as soon as it is known."""
        if not self._options.json:
            text = "".join(f"{it}\n" for it in outcome_lines(outcome, self._options.verbose))
            output.write(output.visible(text) if sys.stdout.isatty() else text)
            output.flush()

    def _report(self, is_interrupted: bool) -> None:
        """Writes what came of all tests."""
        if self._options.junit:
            with open(self._options.junit, "wb") as file:
                file.write(junit(self._outcomes, self._seconds, self._begin))
        covered = merged([it.covered for it in self._outcomes if it.covered])
        if self._options.coverage_page:
            with open(self._options.coverage_page, "w", encoding="utf-8") as page:
                page.write(coverage_page(covered))
        if self._options.json:
            report: Dict[str, Any] = {**json_report(self._outcomes, self._seconds), "interrupted": is_interrupted}
            if self._plan.covers:
                report["coverage"] = [coverage_data(it) for it in covered]
            output.write(json.dumps(report, indent=1) + "\n")
        else:
            lines = [line for it in covered for line in coverage_lines(it)] if self._options.coverage else []
            output.write("".join(f"{it}\n" for it in (*lines, *self._summary(is_interrupted))))
        output.flush()

    def _summary(self, is_interrupted: bool) -> Tuple[str, ...]:
        """The last lines."""
        told_all = f"{told(self._outcomes)} in {self._seconds:.1f} s"
        left = len(self._cases) - len(self._outcomes)
        return (f"interrupted: {left} of {len(self._cases)} tests were not done", told_all) if is_interrupted else (told_all,)
