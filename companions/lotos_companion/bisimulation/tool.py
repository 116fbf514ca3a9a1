"""`lotos-pairs`: a certificate of bisimulation, which the program checks, or what tells two specifications apart, replayed."""
from __future__ import annotations

import json
import os
import subprocess
import tempfile
from argparse import Namespace
from dataclasses import dataclass, field
from typing import Any, Callable, Dict, List, Optional, Sequence, Tuple, TypeVar

from .. import output
from ..commands import make_parser
from ..commands.pairs import COMMAND
from ..exploring import Explorer, Limits, StateGraph, Unexpected
from ..exploring.finite_sorts import FiniteSorts
from ..exploring.report import sorts_of
from ..exploring.tool import Shown, say_end
from ..language import NoGrammar, NoTree
from ..options import ANSWER_IS_NO, NO_ANSWER, UNREAD, WRONG_WORDS
from ..output import complain, write
from ..program import Words, find_program
from ..session import Ended
from .certificate import Certificate
from .expanding import Expansion, TooLong
from .formula import Distinguisher, Formula, events_of_one_alone, sequence
from .refinement import Refinement
from .replay import Replay, Side, Unknown

Made = TypeVar("Made")
DEEPEST, MOST_MENDS = 200, 1000


class NotFound(Exception):
    """Neither a certificate nor a difference was found: why."""


@dataclass
class Explored:
    """A specification that was explored: whether it was whole, and of each sort whose values were wanted whether they were all."""

    file: str
    graph: StateGraph
    cut: Optional[str]
    sorts: Dict[str, bool]

    @property
    def is_whole(self) -> bool:
        """Whether each state was met and looked at, with all its events."""
        return self.cut is None and all(self.sorts.values())


@dataclass
class Outcome:
    """What the search came to: a certificate and what `bisim` says of it, or a formula with its replay."""

    accepted: Optional[str] = None
    pairs: List[str] = field(default_factory=list)
    files: Tuple[str, ...] = ()
    values: Dict[str, Tuple[str, ...]] = field(default_factory=dict)
    holds_of: str = ""
    not_of: str = ""
    formula: Optional[Formula] = None
    lines: List[str] = field(default_factory=list)
    steps: List[Dict[str, Any]] = field(default_factory=list)
    sequence: Optional[List[str]] = None

    @property
    def data(self) -> Dict[str, Any]:
        """It for scripts."""
        if self.formula is None:
            return {"bisim": self.accepted, "pairs": self.pairs, "files": list(self.files),
                    "values": {sort: list(values) for sort, values in self.values.items()}}
        return {"holds_of": self.holds_of, "not_of": self.not_of, "formula": self.formula.text, "depth": self.formula.depth,
                "tree": self.formula.data, "steps": self.steps, "sequence": self.sequence}


def main(given: Sequence[str]) -> int:
    """Reads the options, searches, and prints: its status."""
    options = make_parser(COMMAND).parse_intermixed_args(given)
    if len(options.words) != 2 or not 1 <= options.values <= 64 or options.jobs < 1 or options.states < 1:
        complain(f"usage: {COMMAND.usage[0]}")
        return WRONG_WORDS
    try:
        outcome = Search(find_program(options.program), options).run()
    except Ended as ended:
        status = say_end(ended)
        return UNREAD if status == ANSWER_IS_NO else status
    except NotFound as reason:
        complain(f"lotos-pairs: no answer: {reason}")
        return UNREAD
    except Unexpected as line:
        complain(f"lotos-pairs: the program answered {line}")
        return NO_ANSWER
    return _show(outcome, options)


def _show(outcome: Outcome, options: Namespace) -> int:
    """Prints what was found: the status."""
    if options.json:
        write(json.dumps(outcome.data, indent=1, ensure_ascii=True) + "\n")
    elif outcome.formula:
        write(f"they differ: of {outcome.holds_of} holds, and of {outcome.not_of} does not,\n    {outcome.formula.text}\n"
              "replayed in both:\n" + "".join(f"    {it}\n" for it in outcome.lines))
        if outcome.sequence:
            write("events that one of them alone has: " + ", ".join(outcome.sequence) + "\n")
    else:
        write("".join(f"{it}\n" for it in outcome.pairs))
    output.flush()
    if outcome.formula:
        return ANSWER_IS_NO
    complain(f"lotos bisim {' '.join(outcome.files)}: {outcome.accepted}")
    for sort, values in outcome.values.items():
        complain(f"with all values of {sort} written out in both: {', '.join(values) or 'it has none'}")
    return 0


class Search:
    """A search for one of the two."""

    def __init__(self, program: str, options: Namespace):
        self._program, self._options = program, options
        self._files = tuple(options.words)
        self._values: Dict[str, Tuple[str, ...]] = {}

    def run(self) -> Outcome:
        """The outcome. `NotFound` where there is none within the bounds."""
        left, right = (self._explore(it) for it in self._files)
        if left.is_whole and right.is_whole:
            refinement = Refinement(left.graph, right.graph)
            if refinement.are_one(0, refinement.offset):
                return self._certificate(left, right, refinement)
            return self._difference(left, right, refinement)
        return self._within_bounds(left, right)

    def _explore(self, file: str) -> Explored:
        """Explores one of them."""
        options, words, shown = self._options, Words((file,)), Shown(not self._options.json)
        explorer = Explorer(self._program, words, limits=Limits(options.states, options.seconds), values=options.values,
                            jobs=options.jobs, watch=shown.watch)
        try:
            graph = explorer.run()
        finally:
            shown.clear()
        cut = explorer.cut or next(iter(explorer.refused.values()), None)
        return Explored(file, graph, cut, self._sorts(words, sorts_of(explorer)))

    def _with_finite(self, words: Words, use: Callable[[FiniteSorts], Made]) -> Made:
        """What is made of the finite sorts of a specification."""
        finite = FiniteSorts(self._program, words)
        try:
            return use(finite)
        finally:
            finite.close()

    def _sorts(self, words: Words, sorts: Sequence[str]) -> Dict[str, bool]:
        """Of each sort whether the values up to the bound are all that it has."""
        most = self._options.values
        return self._with_finite(words, lambda it: {sort: it.values(sort, most) is not None for sort in sorts}) if sorts else {}

    # ---- A certificate ----

    def _certificate(self, left: Explored, right: Explored, refinement: Refinement) -> Outcome:
        """The certificate, with the values of finite sorts written out where menus have variables."""
        if left.sorts or right.sorts:
            wanted = {**left.sorts, **right.sorts}
            left, right = (self._explore(self._expanded(side.file, name, list(wanted)))
                           for side, name in ((left, "left"), (right, "right")))
            refinement = Refinement(left.graph, right.graph)
            if left.sorts or right.sorts or not refinement.are_one(0, refinement.offset):
                raise NotFound("with all values written out, the two are not as they were before")
        found = Certificate(left.graph, right.graph, refinement)
        said = self._checked(left.file, right.file, found.lines())
        for _ in range(MOST_MENDS):
            if said.startswith("bisimilar ") or not found.mend(said):
                break
            said = self._checked(left.file, right.file, found.lines())
        if not said.startswith("bisimilar "):
            raise NotFound(f"a certificate was made, and lotos bisim answered: {said}")
        return Outcome(said, found.lines(), (left.file, right.file), self._values)

    def _expanded(self, spec: str, name: str, wanted: Sequence[str]) -> str:
        """The file of a specification with the values of these sorts written out."""
        folder = self._options.into
        if not folder:
            raise NotFound(f"menus have variables, and a certificate takes none: --into FOLDER writes both with all values of "
                           f"{', '.join(wanted)} written out, and compares these")
        with open(spec, encoding="utf-8", errors="surrogateescape", newline="") as file:
            text = file.read()
        most, keys = self._options.values, {it.lower() for it in wanted}

        def expand(sorts: FiniteSorts) -> Expansion:
            return Expansion(text, lambda sort: sorts.values(sort, most) if sort.lower() in keys else None, sorts.operations)

        try:
            expansion = self._with_finite(Words((spec,)), expand)
        except (NoGrammar, NoTree, TooLong) as fault:
            raise NotFound(str(fault) or f"{spec} with all values written out is too long") from None
        self._values.update(expansion.sorts)
        os.makedirs(folder, exist_ok=True)
        path = os.path.join(folder, f"{name}_{os.path.basename(spec)}")
        with open(path, "w", encoding="utf-8", errors="surrogateescape", newline="\n") as file:
            file.write(expansion.note(os.path.basename(spec)) + expansion.text)
        return path

    def _checked(self, left: str, right: str, pairs: Sequence[str]) -> str:
        """What `bisim` says of a certificate, which is kept in the folder that was asked for."""
        folder = self._options.into or tempfile.mkdtemp()
        os.makedirs(folder, exist_ok=True)
        path = os.path.join(folder, "found.pairs")
        try:
            with open(path, "w", encoding="ascii", newline="\n") as file:
                file.writelines(f"{it}\n" for it in pairs)
            done = subprocess.run([self._program, "bisim", left, right, path], stdin=subprocess.DEVNULL, stdout=subprocess.PIPE,
                                  check=False)
            return done.stdout.decode("utf-8", "surrogateescape").rstrip("\n")
        finally:
            if not self._options.into:
                os.remove(path)
                os.rmdir(folder)

    # ---- A difference ----

    def _difference(self, left: Explored, right: Explored, refinement: Refinement) -> Outcome:
        """What tells them apart: a formula of the least depth, and a sequence of events that one alone can do."""
        events = self._sequence(left, right)
        depth = refinement.parted_at(0, refinement.offset)
        if events and len(events[2]) <= depth:
            return self._replayed(events[0], events[1], sequence(events[2]), None)
        if depth > DEEPEST:
            if not events:
                raise NotFound(f"they differ, and no formula of less than {depth} events tells it")
            return self._replayed(events[0], events[1], sequence(events[2]), None)
        formula = Distinguisher(refinement).formula(0, refinement.offset)
        one, other = (right, left) if formula.negated else (left, right)
        formula = formula.turned() if formula.negated else formula
        return self._replayed(one, other, formula, events[2] if events else None)

    def _sequence(self, left: Explored, right: Explored) -> Optional[Tuple[Explored, Explored, List[str]]]:
        """A shortest sequence of events that one of them alone has, with that one and the other."""
        found = [(one, other, events_of_one_alone(one.graph, other.graph)) for one, other in ((left, right), (right, left))]
        there = [(one, other, events) for one, other, events in found if events]
        return min(there, key=lambda it: len(it[2])) if there else None

    def _within_bounds(self, left: Explored, right: Explored) -> Outcome:
        """A difference of two that were not looked at whole: a sequence of events, which the replay has to confirm."""
        events = self._sequence(left, right)
        if events:
            return self._replayed(events[0], events[1], sequence(events[2]), None)
        reasons = [f"{it.file}: {it.cut or 'not all values of ' + ', '.join(s for s, whole in it.sorts.items() if not whole)}"
                   for it in (left, right) if not it.is_whole]
        raise NotFound("no sequence of events tells them apart within the bounds, and no certificate is made of a part. "
                       + "; ".join(reasons))

    def _replayed(self, one: Explored, other: Explored, formula: Formula, events: Optional[List[str]]) -> Outcome:
        """The outcome of a formula that holds of the one and not of the other, looked at in both by sessions of their own."""
        sides = [Side(self._program, Words((it.file,)), self._options.values, it.sorts) for it in (one, other)]
        try:
            replay = Replay(*sides)
            if not replay.shows(formula):
                raise NotFound(f"the replay does not show the difference that was found: {formula.text}")
        except Unknown as entry:
            raise NotFound(f"whether {formula.text} holds of both is not known to the bound of values, for the entry {entry}") from None
        finally:
            for side in sides:
                side.close()
        return Outcome(holds_of=one.file, not_of=other.file, formula=formula, lines=replay.lines, steps=replay.steps,
                       sequence=events)
