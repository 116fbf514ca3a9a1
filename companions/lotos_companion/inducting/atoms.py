"""A goal that holds whatever its tests answer: the tests are replaced by variables, and these are split."""
from __future__ import annotations

from typing import Dict, Iterator, List, Optional, Set, Tuple

from .cases import Case, Cases
from .certificate import Lemma, Proof, Same, Split, with_uses
from .closing import close
from .terms import Binding, Node, Sides, Term, Variable, substitute, variables_of, variables_of_both

MOST_ATOMS = 7
# The terms that are looked at where a case of the tests is not closed by rewriting alone.
BUDGET = 30


def helper(cases: Cases, case: Case) -> Optional[Tuple[Lemma, Proof, str]]:
    """A lemma of which the goal is an instance, with its proof, and the side at whose root it is used. Nothing where the goal
    has no tests, or where it does not hold for all their answers."""
    atoms = list(dict.fromkeys(it for side in case.goal for it in _atoms(cases, side)))
    if not 0 < len(atoms) <= MOST_ATOMS:
        return None
    names = _names({it.name.lower() for it in cases.operations}, case.goal)
    made: Dict[Term, Variable] = {it: Variable(next(names), it.sort) for it in atoms}
    left, right = (_abstracted(side, made) for side in case.goal)
    plain: Binding = {it: Variable(next(names), it.sort) for it in variables_of_both((left, right)) if it not in made.values()}
    sides = (substitute(plain, left), substitute(plain, right))
    used_at = _used_at(sides)
    if used_at is None:
        return None
    lemma = Lemma(tuple(variables_of_both(sides)), sides)
    first = cases.first(lemma)
    proof = _by_splits(cases, first, [it for it in first.scope if cases.covers.is_finite(it.sort)])
    return (lemma, proof, used_at) if proof else None


def _used_at(sides: Sides) -> Optional[str]:
    """The side of the goal which the lemma replaces: that which has all variables."""
    left, right = (set(variables_of(it)) for it in sides)
    if isinstance(sides[0], Node) and right <= left:
        return "left"
    return "right" if isinstance(sides[1], Node) and left <= right else None


def _atoms(cases: Cases, term: Term) -> Iterator[Node]:
    """The tests of a term, the outermost: what has few values, and is worked out from what has more."""
    if isinstance(term, Variable) or not term.arguments:
        return
    if cases.covers.is_finite(term.sort) and not all(map(cases.covers.is_finite, term.operation.arguments)):
        yield term
    else:
        for it in term.arguments:
            yield from _atoms(cases, it)


def _abstracted(term: Term, made: Dict[Term, Variable]) -> Term:
    if term in made:
        return made[term]
    if isinstance(term, Variable):
        return term
    return Node(term.operation, tuple(_abstracted(it, made) for it in term.arguments))


def _names(taken: Set[str], goal: Sides) -> Iterator[str]:
    """Names that nothing has."""
    taken = taken | {it.name.lower() for it in variables_of_both(goal)}
    number = 0
    while True:
        number += 1
        if f"v{number}" not in taken:
            yield f"v{number}"


def _by_splits(cases: Cases, case: Case, variables: List[Variable]) -> Optional[Proof]:
    """A proof that splits these variables in turn, as few as will do."""
    uses = close(cases, case, BUDGET)
    if uses is not None:
        return with_uses(uses, Same())
    standing = [it for it in variables if it in case.goal_variables]
    if not standing:
        return None
    waited = [it for it in cases.demanded(case) if it in standing]
    variable = (waited or standing)[0]
    proofs: List[Proof] = []
    for it in cases.split(case, variable):
        proof = _by_splits(cases, it, [other for other in standing if other != variable])
        if proof is None:
            return None
        proofs.append(proof)
    return Split(variable, tuple(proofs))
