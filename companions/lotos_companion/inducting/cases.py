"""A case of a proof as the program sees it: its goal, its hypotheses, and what splits and uses make of it."""
from __future__ import annotations

import time
from dataclasses import dataclass, replace
from typing import Dict, Iterator, List, Optional, Sequence, Set, Tuple

from .certificate import Lemma, Use
from .covers import Covers, instance
from .data import Data
from .rewriting import Rules, wanted
from .terms import (Binding, Node, Path, Sides, Term, Variable, at, is_fixed, match, put_at, size, substitute, subterms, variables_of,
                    variables_of_both)


@dataclass(frozen=True)
class Case:
    """The goal with both sides in normal form, the hypotheses, and the variables that may be split."""

    goal: Sides
    hypotheses: Tuple[Sides, ...]
    scope: Tuple[Variable, ...]
    # What the split variables of the lemma are in this case.
    values: Tuple[Tuple[str, Term], ...] = ()

    @property
    def is_same(self) -> bool:
        """Whether both sides are one term."""
        return self.goal[0] == self.goal[1]

    @property
    def goal_variables(self) -> List[Variable]:
        """The variables in the order in which they appear in the goal."""
        return variables_of_both(self.goal)

    def variable(self, name: str) -> Optional[Variable]:
        """The variable in scope with this name."""
        return next((it for it in self.scope if it.name.lower() == name.lower()), None)


class OutOfTime(Exception):
    """The time that a lemma gets is over."""


class Cases:
    """What can be done with cases: the rules, the covers, and the lemmas that are proved by now. `end` is until when, by the
    clock of the processor, it may be asked what uses can do."""

    end = float("inf")
    # To ask for the time takes long on some machines: it is asked at each call of so many.
    LOOKS = 200

    def __init__(self, data: Data, rules: Rules, covers: Covers, lemmas: Sequence[Lemma]):
        self.operations = data.operations
        self.rules = rules
        self.covers = covers
        self.lemmas = lemmas
        self._asked = 0

    def first(self, lemma: Lemma) -> Case:
        """The case that a lemma's proof begins with."""
        occurring = variables_of_both(lemma.sides)
        scope = tuple(it for it in lemma.variables if it in occurring)
        return Case(self.rules.normal_sides(lemma.sides), (), scope)

    def split(self, case: Case, variable: Variable) -> List[Case]:
        """The cases that a split of a variable makes, one for each operation of the cover of its sort."""
        return [self._after(case, variable, number) for number in range(len(self.covers.of(variable.sort)))]

    def _after(self, case: Case, variable: Variable, number: int) -> Case:
        binding: Binding = {}
        node = instance(binding, self.covers.of(variable.sort)[number], variable)
        made = [it for it in node.arguments if isinstance(it, Variable)]
        if is_fixed(variable):
            hypotheses = tuple((substitute(binding, one), substitute(binding, other)) for one, other in case.hypotheses)
        else:
            alike: List[Binding] = [{variable: it} for it in made if it.sort == variable.sort]
            new = [(substitute(it, case.goal[0]), substitute(it, case.goal[1])) for it in alike]
            hypotheses = case.hypotheses + tuple(new)
        goal = (substitute(binding, case.goal[0]), substitute(binding, case.goal[1]))
        values = tuple((name, substitute(binding, it)) for name, it in case.values)
        if not is_fixed(variable):
            values += ((variable.name, node),)
        scope = tuple(it for it in case.scope if it != variable) + tuple(made)
        return Case(self.rules.normal_sides(goal), hypotheses, scope, values)

    def used(self, case: Case, use: Use) -> Optional[Case]:
        """The case behind a use, or nothing where the program would refuse it."""
        side = 0 if use.side == "left" else 1
        number = len(case.hypotheses) if use.source == "hyp" else len(self.lemmas)
        part = at(case.goal[side], use.path)
        if not 0 < use.number <= number or part is None:
            return None
        new = self._replaced(self.sides_of(case, use), use, part)
        if new is None:
            return None
        changed = self.rules.normal(put_at(case.goal[side], use.path, new))
        return replace(case, goal=(changed, case.goal[1]) if side == 0 else (case.goal[0], changed))

    def sides_of(self, case: Case, use: Use) -> Sides:
        """The equation that is used."""
        return case.hypotheses[use.number - 1] if use.source == "hyp" else self.lemmas[use.number - 1].sides

    @staticmethod
    def _replaced(sides: Sides, use: Use, part: Term) -> Optional[Term]:
        """What a use puts in the place of a term, or nothing where it does not fit or leaves a variable open."""
        pattern, new = sides if use.direction == "forward" else (sides[1], sides[0])
        binding: Binding = {}
        is_fixed_one = use.source == "hyp"
        if not match(pattern, part, binding, is_fixed_one):
            return None
        if any(it not in binding and not (is_fixed_one and is_fixed(it)) for it in variables_of(new)):
            return None
        return substitute(binding, new)

    def steps(self, case: Case, side: str, term: Term, largest: int) -> Iterator[Tuple[Use, Term]]:
        """What one use can make of a term on a side: hypotheses before lemmas, and those before others that come first. What
        is larger than a size is left out."""
        self._asked += 1
        if self._asked % self.LOOKS == 0 and time.process_time() > self.end:
            raise OutOfTime
        for source, found in (("hyp", list(case.hypotheses)), ("lemma", [it.sides for it in self.lemmas])):
            for number, sides in enumerate(found):
                for direction in ("forward", "backward"):
                    pattern = sides[0] if direction == "forward" else sides[1]
                    if isinstance(pattern, Variable):
                        continue
                    for path, part in subterms(term):
                        if not isinstance(part, Node) or part.operation is not pattern.operation:
                            continue
                        use = Use(source, number + 1, side, path, direction)
                        new = self._replaced(sides, use, part)
                        if new is not None and size(term) - size(part) + size(new) <= largest:
                            yield use, self.rules.normal(put_at(term, path, new))

    def demanded(self, case: Case) -> List[Variable]:
        """The variables that may be split, those first for which most operations wait: a rule or a lemma would apply if they
        began with an operation. Others, which nothing waits for, are left out."""
        waiting: Dict[Variable, int] = {}
        for side in case.goal:
            for _, part in subterms(side):
                if isinstance(part, Variable):
                    waiting[part] = waiting.get(part, 0) - 1
                    continue
                for it in self._waited_for(part, [left for left, _ in self.rules.of(part)]):
                    waiting[it] = waiting.get(it, 0) + 1000
                for it in self._waited_for(part, [it for lemma in self.lemmas for it in lemma.sides]):
                    waiting[it] = waiting.get(it, 0) + 10
        usable = [it for it in case.scope if waiting.get(it, 0) > 0 and self.covers.of(it.sort)]
        return sorted(usable, key=lambda it: -waiting[it])

    @staticmethod
    def _waited_for(part: Node, patterns: Sequence[Term]) -> Set[Variable]:
        """The variables of a term that some of these patterns wants to begin with an operation."""
        found: Set[Variable] = set()
        for pattern in patterns:
            if isinstance(pattern, Node) and pattern.operation is part.operation:
                fits, variables = wanted(pattern, part)
                found.update(variables if fits else ())
        return found


def path_of(text: str) -> Path:
    """A path from its text."""
    return () if text == "-" else tuple(int(it) for it in text.split("."))
