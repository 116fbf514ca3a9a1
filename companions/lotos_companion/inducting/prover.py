"""The work on all lemmas of a file: counterexamples, proofs, and the certificate that the program is asked about."""
from __future__ import annotations

from dataclasses import dataclass, field
from typing import Callable, List, Optional, Sequence, Tuple

from .cases import Case, Cases
from .certificate import Lemma, Proof, Same, Then, certificate_text, open_cases, pruned, sorts_split
from .checking import Values, Verdict, check, values_text
from .covers import Covers
from .data import Data
from .rewriting import Rules, TooLong
from .search import Found, Search, best_start
from .terms import Variable, size, variables_of_both

Proved = List[Tuple[Lemma, Proof]]


@dataclass
class Outcome:
    """What came of a lemma: `found`, `false` with its counterexample, or `open` with its goal."""

    lemma: Lemma
    how: str
    counterexample: str = ""
    goal: str = ""
    open_cases: int = 0
    case: Optional[Case] = None


@dataclass
class Prover:
    """The data of a specification with the lemmas that are proved by now, helpers among them."""

    program: str
    spec: str
    data: Data
    seconds: float
    say: Callable[[str], None]
    rules: Rules = field(init=False)
    covers: Covers = field(init=False)
    proved: Proved = field(default_factory=list)

    def __post_init__(self) -> None:
        self.rules = Rules(self.data)
        self.covers = Covers(self.data, self.rules)

    def cases(self) -> Cases:
        """What can be done with cases by the lemmas that are proved."""
        return Cases(self.data, self.rules, self.covers, [it for it, _ in self.proved])

    def work(self, lemmas: Sequence[Lemma]) -> List[Outcome]:
        """Looks for a proof or a counterexample of each lemma in turn; those that are found help with later ones."""
        values = Values(self.program, self.spec, self.data, self.rules)
        try:
            return [self.try_lemma(it, values) for it in lemmas]
        finally:
            values.close()

    def try_lemma(self, lemma: Lemma, values: Values) -> Outcome:
        """Looks for a proof or a counterexample of a lemma."""
        self.say(f"lemma {lemma.given}: {self.data.pair_text(lemma.sides)}")
        binding = values.counterexample(lemma)
        if binding is not None:
            return Outcome(lemma, "false", values_text(self.data, binding))
        cases = self.cases()
        found = Search(cases, self.seconds).prove(cases.first(lemma))
        if found:
            self.add(lemma, found)
            return Outcome(lemma, "found")
        return self.opened(lemma, best_start(self.cases(), lemma))

    def add(self, lemma: Lemma, found: Found) -> None:
        """Adds a lemma with what was found. Goals are in normal form: where the lemma is not, a helper is, by the same proof."""
        self.proved += [*found.helpers, (lemma, found.proof)]
        sides = self.rules.normal_sides(lemma.sides)
        if sides != lemma.sides and sides[0] != sides[1]:
            variables = tuple(it for it in lemma.variables if it in variables_of_both(sides))
            if set(variables_of_both(sides)) == set(variables_of_both(lemma.sides)):
                self.proved.append((Lemma(variables, sides), found.proof))

    def opened(self, lemma: Lemma, proof: Proof) -> Outcome:
        """The first case that a proof leaves open, read off the program's answer to it."""
        case = first_open(self.cases(), self.cases().first(lemma), proof)
        verdict = check(self.program, self.spec, self.text([*self.proved, (lemma, proof)]))
        goal = verdict.open_goal(case.goal_variables) if case else None
        return Outcome(lemma, "open", goal=goal or " ".join(verdict.lines), open_cases=open_cases(proof), case=case)

    def text(self, proved: Optional[Proved] = None) -> str:
        """The certificate of what is proved."""
        lemmas = pruned(self.proved if proved is None else proved)
        sorts = {sort for _, proof in lemmas for sort in sorts_split(proof)}
        return certificate_text(self.data, self.covers.wanted_by(sorts), lemmas)

    def verdict(self) -> Verdict:
        """What the program says of the certificate of what is proved."""
        return check(self.program, self.spec, self.text())


def first_open(cases: Cases, case: Case, proof: Proof) -> Optional[Case]:
    """The first case that a proof leaves open."""
    while isinstance(proof, Then):
        after = cases.used(case, proof.use)
        if after is None:
            return None
        case, proof = after, proof.rest
    if isinstance(proof, Same):
        return case if proof.is_open else None
    found = (first_open(cases, it, rest) for it, rest in zip(cases.split(case, proof.variable), proof.cases))
    return next((it for it in found if it is not None), None)


def case_lines(data: Data, case: Case) -> List[str]:
    """What a case is besides its goal: what the lemma's variables are in it, its variables, its hypotheses."""
    lines = []
    if case.values:
        lines.append("where " + ", ".join(f"{name} = {data.text(it)}" for name, it in case.values))
    lines += [f"hyp {number}: {data.pair_text(it)}" for number, it in enumerate(case.hypotheses, 1)]
    lines.append("variables: " + (", ".join(f"{it.name} : {it.sort}" for it in _standing(case)) or "none"))
    return lines


def _standing(case: Case) -> List[Variable]:
    return [it for it in case.goal_variables if it in case.scope]


def suggestions(cases: Cases, data: Data, case: Case, most: int = 12) -> List[str]:
    """Lines that can stand next in the proof of a case, with the goal behind each use."""
    lines = [f"split {it.name}" for it in cases.demanded(case)]
    goals = {case.goal}
    for side, term in zip(("left", "right"), case.goal):
        try:
            for use, _ in cases.steps(case, side, term, size(term) + 20):
                after = cases.used(case, use)
                if after and after.goal not in goals:
                    goals.add(after.goal)
                    lines.append(f"{use.line}   gives {data.pair_text(after.goal)}")
        except (TooLong, RecursionError):
            continue
    return lines[:most]

