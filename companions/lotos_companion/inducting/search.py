"""The search for a proof of a lemma: uses that bring the sides together, and splits where none do."""
from __future__ import annotations

import time
from dataclasses import dataclass
from typing import Dict, List, Optional, Set, Tuple

from .atoms import helper
from .cases import Case, Cases, OutOfTime
from .certificate import Lemma, Proof, Same, Split, Then, Use, lemmas_used, renumbered, with_uses
from .closing import close, simplify
from .rewriting import TooLong
from .terms import Variable, size

# How many terms are looked at to close a case, in a first round and in a second one, and how many splits stand below one another.
ROUNDS = ((40, 3), (400, 3))
MOST_VARIABLES = 4


@dataclass
class Found:
    """What is found for a lemma: the helpers that its proof uses, each with its proof, and the proof."""

    helpers: List[Tuple[Lemma, Proof]]
    proof: Proof


class Search:
    """The search for one lemma's proof. The helpers that it finds are added to the lemmas of the cases as they come."""

    def __init__(self, cases: Cases, seconds: float):
        self._cases = cases
        self._known = len(cases.lemmas)
        cases.end = time.process_time() + seconds
        self._helpers: List[Tuple[Lemma, Proof]] = []
        self._closed: Dict[Tuple[Case, int], Optional[Proof]] = {}
        self._failed: Dict[Tuple[Case, int], int] = {}

    def prove(self, case: Case) -> Optional[Found]:
        """A proof from a case on, or nothing where none is found in time. What is proved by then stays as it was."""
        try:
            together = self._together(case, [it for it in self._cases.demanded(case) if not self._cases.covers.is_finite(it.sort)])
            if together:
                return self._found(together)
            for budget, most_splits in ROUNDS:
                for splits in range(most_splits + 1):
                    proof = self._prove(case, splits, budget)
                    if proof:
                        return self._found(proof)
        except (OutOfTime, TooLong, RecursionError):
            pass
        return None

    def _together(self, case: Case, variables: List[Variable]) -> Optional[Proof]:
        """A proof that splits these variables one below another, two or three, as what compares values wants it."""
        if not 2 <= len(variables) <= ROUNDS[0][1]:
            return None
        return self._split_all(case, variables)

    def _split_all(self, case: Case, variables: List[Variable]) -> Optional[Proof]:
        closed = self._close(case, ROUNDS[0][0])
        if closed or not variables:
            return closed
        proofs: List[Proof] = []
        for it in self._cases.split(case, variables[0]):
            proof = self._split_all(it, variables[1:])
            if proof is None:
                return None
            proofs.append(proof)
        return Split(variables[0], tuple(proofs))

    def _found(self, proof: Proof) -> Found:
        """The proof with the helpers that it uses, numbered behind the lemmas that were there."""
        used: Set[int] = set()
        waiting = lemmas_used(proof)
        while waiting:
            number = waiting.pop()
            if number > self._known and number not in used:
                used.add(number)
                waiting |= lemmas_used(self._helpers[number - self._known - 1][1])
        numbers = {old: self._known + place for place, old in enumerate(sorted(used), 1)}
        helpers = [self._helpers[it - self._known - 1] for it in sorted(used)]
        return Found([(lemma, renumbered(it, numbers)) for lemma, it in helpers], renumbered(proof, numbers))

    def _prove(self, case: Case, splits: int, budget: int) -> Optional[Proof]:
        """A proof with at most so many splits below one another."""
        closed = self._close(case, budget)
        if closed or splits == 0 or self._failed.get((case, budget), 0) >= splits:
            return closed
        uses, simple = simplify(self._cases, case)
        starts = [(uses[:0], case), (uses, simple)] if uses else [(uses, case)]
        for before, start in starts:
            for variable in self._cases.demanded(start)[:MOST_VARIABLES]:
                proofs = self._all(self._cases.split(start, variable), splits - 1, budget)
                if proofs is not None:
                    return with_uses(before, Split(variable, tuple(proofs)))
        self._failed[case, budget] = splits
        return None

    def _all(self, cases: List[Case], splits: int, budget: int) -> Optional[List[Proof]]:
        """A proof for each of these cases, or nothing."""
        proofs: List[Proof] = []
        for it in cases:
            proof = self._prove(it, splits, budget)
            if proof is None:
                return None
            proofs.append(proof)
        return proofs

    def _close(self, case: Case, budget: int) -> Optional[Proof]:
        """A proof without splits."""
        if (case, budget) not in self._closed:
            self._closed[case, budget] = self._without_splits(case, budget)
        return self._closed[case, budget]

    def _without_splits(self, case: Case, budget: int) -> Optional[Proof]:
        """A proof by uses from the goal, from what it is simplified to, and from that with its parts put in order; else by a
        helper for one of these."""
        starts = [([], case)]  # type: List[Tuple[List[Use], Case]]
        uses, simple = simplify(self._cases, case)
        sorted_uses, in_order = simplify(self._cases, simple, in_order=True)
        starts += [(uses, simple)] if uses else []
        starts += [(uses + sorted_uses, in_order)] if sorted_uses else []
        for before, start in reversed(starts):
            if start.is_same:
                return with_uses(before, Same())
        for before, start in starts[:2]:
            more = close(self._cases, start, budget)
            if more is not None:
                return with_uses(before + more, Same())
        for before, start in reversed(starts):
            proof = self._by_helper(start)
            if proof:
                return with_uses(before, proof)
        return None

    def _by_helper(self, case: Case) -> Optional[Proof]:
        """A proof by a lemma in which tests are variables, which is added to the lemmas."""
        found = helper(self._cases, case)
        if found is None:
            return None
        lemma, proof, side = found
        self._helpers.append((lemma, proof))
        self._cases.lemmas = [*self._cases.lemmas, lemma]
        direction = "forward" if side == "left" else "backward"
        use = Use("lemma", len(self._cases.lemmas), side, (), direction)
        after = self._cases.used(case, use)
        assert after is not None and after.is_same, "the goal is an instance of its helper"
        return Then(use, Same())


def best_start(cases: Cases, lemma: Lemma) -> Proof:
    """A beginning of a proof, to show what is open: of the splits that are likely, that which leaves least open."""
    try:
        return _best_start(cases, cases.first(lemma))
    except (TooLong, RecursionError):
        return Same(is_open=True)


def _best_start(cases: Cases, first: Case) -> Proof:
    found: List[Tuple[Tuple[int, int], Proof]] = []
    for variable in cases.demanded(first)[:MOST_VARIABLES]:
        proofs, open_sizes = [], []
        for it in cases.split(first, variable):
            uses = close(cases, it, ROUNDS[0][0])
            if uses is not None:
                proofs.append(with_uses(uses, Same()))
                continue
            uses, simple = simplify(cases, it)
            proofs.append(with_uses(uses, Same(is_open=not simple.is_same)))
            open_sizes.append(sum(map(size, simple.goal)))
        found.append(((len(open_sizes), sum(open_sizes)), Split(variable, tuple(proofs))))
    if found:
        return min(found, key=lambda it: it[0])[1]
    uses, simple = simplify(cases, first)
    return with_uses(uses, Same(is_open=not simple.is_same))
