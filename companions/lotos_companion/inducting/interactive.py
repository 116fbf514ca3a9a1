"""Proofs a step at a time: the goal is shown as the program tells it, and lines of a certificate are taken."""
from __future__ import annotations

import re
import sys
from typing import Callable, Dict, List, Optional, Sequence, Tuple, Union

from .. import output
from ..options import ANSWER_IS_NO, NO_ANSWER
from .cases import Case, Cases, path_of
from .certificate import Lemma, Proof, Same, Split, Use, with_uses
from .checking import check
from .prover import Prover, case_lines, suggestions
from .search import Found, Search
from .terms import Variable

USE = re.compile(r"use (lemma|hyp) (\d+) (left|right) (-|\d+(?:\.\d+)*) (forward|backward)")
HELP = """split X          parts the case by the operations of the variable's sort
use ..           uses a lemma or a hypothesis, as a line of a certificate: use hyp 1 left 0 forward
auto             looks for the rest of this case
next             what can stand next, with the goal behind it
goal, proof      the goal, and the lines up to here
undo             takes the last line back
skip             leaves this lemma, and goes on with the next one
quit             ends"""

Step = Union[Use, Variable]


class Interactive:
    """The dialogue over the lemmas of a file. What is typed and what is said go over the terminal, or over pipes."""

    def __init__(self, prover: Prover, lemmas: Sequence[Lemma]):
        self._prover = prover
        self._lemmas = lemmas
        self._steps: List[Step] = []
        self._is_over = False
        self._calls: Dict[str, Callable[[Lemma], bool]] = {
            "auto": self._auto, "next": self._next, "goal": self._goal, "proof": self._proof, "undo": self._undo}

    def run(self) -> int:
        """Works on each lemma, and writes the certificate of what is proved: the status."""
        for lemma in self._lemmas:
            if not self._is_over:
                self._work(lemma)
        verdict = self._prover.verdict() if self._prover.proved else None
        if verdict and verdict.certified:
            output.write(self._prover.text())
            output.flush()
        for line in verdict.lines if verdict else ():
            output.complain(line)
        if verdict and not verdict.certified:
            return NO_ANSWER
        is_whole = {it.given for it, _ in self._prover.proved} >= {it.given for it in self._lemmas}
        return 0 if is_whole else ANSWER_IS_NO

    def _work(self, lemma: Lemma) -> None:
        """Takes lines until the lemma has a proof or is left."""
        self._steps = []
        output.complain(f"lemma {lemma.given}: {self._prover.data.pair_text(lemma.sides)}")
        is_shown = False
        while True:
            proof, case = self._state(lemma)
            if case is None:
                self._prover.add(lemma, Found([], proof))
                output.complain("all cases are closed")
                return
            if not is_shown:
                self._show(lemma, proof, case)
            line = self._read()
            if line in ("quit", "skip"):
                self._is_over = line == "quit"
                return
            is_shown = not self._take(line, lemma, case)

    def _read(self) -> str:
        """The next line. The end of the input is `quit`."""
        sys.stderr.write("induct> ")
        sys.stderr.flush()
        line = sys.stdin.readline()
        return " ".join(line.split()) if line else "quit"

    def _take(self, line: str, lemma: Lemma, case: Case) -> bool:
        """Does what a line says: whether the goal is to be shown anew."""
        if line in self._calls:
            return self._calls[line](lemma)
        step = self._step(line, case)
        if step is not None:
            self._steps.append(step)
            return True
        if line:
            output.complain(HELP if line == "help" else f"`{line}` does not fit here; `help` lists the commands")
        return False

    def _step(self, line: str, case: Case) -> Optional[Step]:
        """The step that a line is, if it can be taken."""
        found = USE.fullmatch(line)
        if found:
            use = Use(found[1], int(found[2]), found[3], path_of(found[4]), found[5])
            return use if self._cases().used(case, use) else None
        variable = case.variable(line[len("split "):]) if line.startswith("split ") else None
        return variable if variable and self._prover.covers.of(variable.sort) else None

    def _cases(self) -> Cases:
        return self._prover.cases()

    def _state(self, lemma: Lemma) -> Tuple[Proof, Optional[Case]]:
        """The proof by the steps, with what is not closed left open, and the first case that is open."""
        proof, case, rest = _follow(self._cases(), self._cases().first(lemma), self._steps)
        assert not rest, "steps stand behind the last case"
        return proof, case

    def _show(self, lemma: Lemma, proof: Proof, case: Case) -> None:
        """Shows the open case, its goal as the program tells it."""
        prover = self._prover
        verdict = check(prover.program, prover.spec, prover.text([*prover.proved, (lemma, proof)]))
        output.complain(f"  {verdict.open_goal(case.goal_variables) or ' '.join(verdict.lines)}")
        for line in case_lines(prover.data, case):
            output.complain(f"  {line}")

    def _auto(self, lemma: Lemma) -> bool:
        """Looks for the rest of the first open case."""
        _, case = self._state(lemma)
        assert case is not None
        found = Search(self._cases(), self._prover.seconds).prove(case)
        if found is None:
            output.complain("nothing was found")
            return False
        self._prover.proved += found.helpers
        self._steps += _steps_of(found.proof)
        return True

    def _next(self, lemma: Lemma) -> bool:
        _, case = self._state(lemma)
        assert case is not None
        for line in suggestions(self._cases(), self._prover.data, case):
            output.complain(f"  {line}")
        return False

    def _goal(self, _lemma: Lemma) -> bool:
        return True

    def _proof(self, _lemma: Lemma) -> bool:
        for step in self._steps:
            output.complain(f"  {step.line if isinstance(step, Use) else f'split {step.name}'}")
        return False

    def _undo(self, _lemma: Lemma) -> bool:
        if self._steps:
            self._steps.pop()
            return True
        output.complain("nothing to undo")
        return False


def _follow(cases: Cases, case: Case, steps: Sequence[Step]) -> Tuple[Proof, Optional[Case], Sequence[Step]]:
    """The proof of a case by steps in the order of a certificate, the first case that is open behind them, and the steps that
    are left. A case is closed as soon as its sides are one."""
    uses: List[Use] = []
    while not case.is_same and steps and isinstance(steps[0], Use):
        uses.append(steps[0])
        after = cases.used(case, steps[0])
        assert after is not None
        case, steps = after, steps[1:]
    if case.is_same:
        return with_uses(uses, Same()), None, steps
    if not steps:
        return with_uses(uses, Same(is_open=True)), case, steps
    variable, steps = steps[0], steps[1:]
    assert isinstance(variable, Variable)
    proofs, opened = [], None
    for it in cases.split(case, variable):
        proof, inner, steps = _follow(cases, it, steps)
        proofs.append(proof)
        opened = opened or inner
    return with_uses(uses, Split(variable, tuple(proofs))), opened, steps


def _steps_of(proof: Proof) -> List[Step]:
    """The steps of a proof in the order of a certificate."""
    steps: List[Step] = []
    waiting = [proof]
    while waiting:
        it = waiting.pop()
        if isinstance(it, Split):
            steps.append(it.variable)
            waiting += reversed(it.cases)
        elif not isinstance(it, Same):
            steps.append(it.use)
            waiting.append(it.rest)
    return steps
