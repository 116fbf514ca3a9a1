"""The words of `lotos-induct`: what is searched, and what is written of it."""
from __future__ import annotations

import json
import sys
from typing import Any, Dict, List, Sequence

from .. import output
from ..commands import make_parser
from ..commands.induct import COMMAND
from ..language import NoGrammar
from ..options import ANSWER_IS_NO, NO_ANSWER, UNREAD, WRONG_WORDS, read_line
from ..program import find_program
from ..session import Ended
from .certificate import Lemma
from .checking import Verdict
from .data import Unreadable, read_data
from .goals import BadGoals, read_goals
from .interactive import Interactive
from .prover import Outcome, Prover, case_lines, suggestions

# Normal forms and paths are worked out by recursion, as deep as terms are.
DEPTH = 20_000


def main(given: Sequence[str]) -> int:
    """Reads the options, searches, and writes: the status."""
    options = read_line(make_parser(COMMAND), given)
    if len(options.words) != 2:
        output.complain(f"usage: {COMMAND.usage[0]}")
        return WRONG_WORDS
    sys.setrecursionlimit(DEPTH)
    spec, goals = options.words
    try:
        with open(goals, encoding="utf-8", errors="surrogateescape") as file:
            text = file.read()
        program = find_program(options.program)
        data = read_data(program, spec)
        lemmas = read_goals(data, text)
        prover = Prover(program, spec, data, options.seconds, _progress)
        if options.interactive:
            return Interactive(prover, lemmas).run()
        return _search(prover, lemmas, options.json)
    except OSError as fault:
        output.complain(f"cannot read {fault.filename}")
        return UNREAD
    except (BadGoals, Unreadable) as fault:
        output.complain(f"{goals}: {fault}" if isinstance(fault, BadGoals) else str(fault))
        return UNREAD
    except NoGrammar as fault:
        output.complain(f"lotos-induct: {fault}")
        return NO_ANSWER
    except Ended as ended:
        output.complain("\n".join(ended.lines) or f"the program ended {ended.how}")
        return UNREAD if ended.lines else NO_ANSWER


def _progress(text: str) -> None:
    """Says what is being looked for, to somebody who waits at a terminal."""
    if sys.stderr.isatty():
        output.complain(f"  .. {text}")


def _search(prover: Prover, lemmas: List[Lemma], as_json: bool) -> int:
    """Searches, and writes the certificate of what is found, once the program took it, and what is open."""
    outcomes = prover.work(lemmas)
    verdict = prover.verdict() if prover.proved else Verdict(())
    text = prover.text() if verdict.certified else ""
    if as_json:
        output.write(json.dumps(_described(prover, outcomes, verdict, text), ensure_ascii=True, indent=2) + "\n")
    else:
        output.write(text)
        output.flush()
        for line in [it for outcome in outcomes for it in _lines(prover, outcome)] + list(verdict.lines):
            output.complain(line)
    if prover.proved and not verdict.certified:
        output.complain("lotos-induct: the program refuses what was found, so nothing is written")
        return NO_ANSWER
    return 0 if all(it.how == "found" for it in outcomes) else ANSWER_IS_NO


def _lines(prover: Prover, outcome: Outcome) -> List[str]:
    """What is said of a lemma that no proof was found for."""
    head = f"lemma {outcome.lemma.given}: {prover.data.pair_text(outcome.lemma.sides)}"
    if outcome.how == "found":
        return []
    if outcome.how == "false":
        return [f"{head}: false: the program says that the sides are different" + (
            f" for {outcome.counterexample}" if outcome.counterexample else "")]
    more = f", the first of {outcome.open_cases} cases that are" if outcome.open_cases > 1 else ""
    lines = [f"{head}: no proof was found. Open is{more}", f"  {outcome.goal}"]
    if outcome.case:
        lines += [f"  {it}" for it in case_lines(prover.data, outcome.case)]
        lines += [f"  next: {it}" for it in suggestions(prover.cases(), prover.data, outcome.case, 6)]
    return lines


def _described(prover: Prover, outcomes: List[Outcome], verdict: Verdict, text: str) -> Dict[str, Any]:
    """The answer as data."""
    lemmas = []
    for it in outcomes:
        found: Dict[str, Any] = {"lemma": it.lemma.given, "left": prover.data.text(it.lemma.sides[0]),
                                 "right": prover.data.text(it.lemma.sides[1]), "outcome": it.how}
        if it.how == "false":
            found["counterexample"] = it.counterexample
        if it.how == "open":
            found.update(goal=it.goal, open_cases=it.open_cases)
            if it.case:
                found["hypotheses"] = [prover.data.pair_text(sides) for sides in it.case.hypotheses]
                found["next"] = suggestions(prover.cases(), prover.data, it.case)
        lemmas.append(found)
    return {"certified": verdict.certified, "program": list(verdict.lines), "lemmas": lemmas, "certificate": text}
