"""What the program says of a certificate, and of values that are put into a lemma."""
from __future__ import annotations

import itertools
import os
import re
import subprocess
import tempfile
from dataclasses import dataclass
from typing import Dict, List, Optional, Sequence, Tuple

from ..language import read_terms
from ..program import Words
from ..session import Session
from .certificate import Lemma
from .data import Data
from .rewriting import Rules, TooLong
from .terms import Binding, Sides, Term, Variable, size, substitute

CERTIFIED = re.compile(r"certified (\d+) lemmas")
NOT_SAME = re.compile(r"refused 917 NotSame line (\d+) (.*) and (.*)")
# The seconds that the program gets to check a certificate.
SECONDS = 600


@dataclass(frozen=True)
class Verdict:
    """The lines that the program printed of a certificate."""

    lines: Tuple[str, ...]

    @property
    def certified(self) -> bool:
        """Whether it says yes."""
        return bool(self.lines) and CERTIFIED.fullmatch(self.lines[0]) is not None

    def open_goal(self, variables: Sequence[Variable]) -> Optional[str]:
        """The goal that the program tells by 917, with these variables in the order in which they appear."""
        found = NOT_SAME.fullmatch(self.lines[0]) if self.lines else None
        if not found:
            return None
        names = {f"${number}": it.name for number, it in enumerate(variables, 1)}
        return re.sub(r"\$\d+", lambda it: names.get(it[0], it[0]), f"{found[2]} = {found[3]}")


def check(program: str, spec: str, text: str) -> Verdict:
    """Has the program check a certificate."""
    with tempfile.NamedTemporaryFile("wb", suffix=".proofs") as file:
        file.write(text.encode("utf-8", "surrogateescape"))
        file.flush()
        try:
            done = subprocess.run([program, "induct", spec, file.name], stdin=subprocess.DEVNULL, stdout=subprocess.PIPE,
                                  stderr=subprocess.DEVNULL, timeout=SECONDS, check=False, start_new_session=True)
        except subprocess.TimeoutExpired:
            return Verdict((f"the program took more than {SECONDS} seconds",))
    return Verdict(tuple(done.stdout.decode("utf-8", "surrogateescape").split("\n")[:-1]))


class Values:
    """Small values of the sorts, as a session of the program lists them, and its comparisons."""

    # How many values of a sort are wanted, the largest size that is asked for, and how many ways to put them into a lemma.
    ENOUGH, LARGEST, MOST_WAYS = 8, 12, 2_000

    def __init__(self, program: str, spec: str, data: Data, rules: Rules):
        self._data = data
        self._rules = rules
        self._session = Session(program, Words((os.path.join(".", spec),)))
        self._session.opening()
        self._values: Dict[str, List[Term]] = {}

    def close(self) -> None:
        """Ends the session."""
        self._session.kill()

    def of(self, sort: str) -> List[Term]:
        """Small values of a sort."""
        if sort not in self._values:
            found: List[Term] = []
            for largest in range(1, self.LARGEST + 1):
                answer = self._session.ask(f"values {sort} {largest}").lines
                if not answer[0].startswith("values "):
                    break
                found = [self._read(it, sort) for it in answer[1:]]
                if len(found) >= self.ENOUGH:
                    break
            self._values[sort] = found[:3 * self.ENOUGH]
        return self._values[sort]

    def counterexample(self, lemma: Lemma) -> Optional[Binding]:
        """Values for the variables with which the program says that the sides are different, or nothing where none are found."""
        lists = [self.of(it.sort) for it in lemma.variables]
        ways = itertools.islice(itertools.product(*lists), 50 * self.MOST_WAYS)
        smallest = sorted(ways, key=lambda values: sum(map(size, values)))[:self.MOST_WAYS]
        for values in smallest:
            binding: Binding = dict(zip(lemma.variables, values))
            sides = (substitute(binding, lemma.sides[0]), substitute(binding, lemma.sides[1]))
            if self._may_differ(sides):
                texts = ", ".join(map(self._data.text, sides))
                if self._session.ask(f"equal {texts}").first == "different":
                    return binding
        return None

    def _may_differ(self, sides: Sides) -> bool:
        """Whether it is worth to ask the program."""
        try:
            left, right = self._rules.normal_sides(sides)
        except (TooLong, RecursionError):
            return False
        return left != right

    def _read(self, text: str, sort: str) -> Term:
        return next(it for it in self._data.readings(read_terms(text)[0], {}) if it.sort == sort)


def values_text(data: Data, binding: Binding) -> str:
    """The values of a counterexample, each behind its variable."""
    return ", ".join(f"{variable.name} = {data.text(value)}" for variable, value in binding.items())

