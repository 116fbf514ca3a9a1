"""A file of goals: the lemmas of a certificate, without proofs. Lines of proofs, covers and trees may stand there; they are
left out, and looked for anew."""
from __future__ import annotations

from typing import Iterator, List, Tuple

from .certificate import Lemma
from .data import Data, Unreadable
from .terms import Variable

LEFT_OUT = ("cover ", "tree ", "split ", "leaf", "use ", "same")


class BadGoals(Exception):
    """A line that has no form that may stand in a file of goals; the text has its number."""


def read_goals(data: Data, text: str) -> List[Lemma]:
    """The lemmas of a file, numbered from 1."""
    lemmas: List[Lemma] = []
    lines = iter([(number, it.strip()) for number, it in enumerate(text.split("\n"), 1)])
    for number, line in lines:
        if line.split(" ")[0] == "lemma":
            lemmas.append(_lemma(data, number, line, lines, len(lemmas) + 1))
        elif line and not f"{line} ".startswith(LEFT_OUT):
            raise BadGoals(f"line {number}: a lemma is wanted, with its lines `left` and `right` behind it")
    if not lemmas:
        raise BadGoals("there is no lemma")
    return lemmas


def _lemma(data: Data, number: int, line: str, lines: Iterator[Tuple[int, str]], given: int) -> Lemma:
    """A lemma whose first line is read."""
    try:
        variables = _variables(data, line[len("lemma"):])
        sides = []
        for word in ("left ", "right "):
            number, line = next(lines, (number + 1, ""))
            if not line.startswith(word):
                raise Unreadable(f"the line `{word.strip()} TERM` of lemma {given} is wanted")
            sides.append(line[len(word):])
        return Lemma(variables, data.read_pair(sides[0], sides[1], variables), given)
    except Unreadable as fault:
        raise BadGoals(f"line {number}: {fault}") from None


def _variables(data: Data, text: str) -> Tuple[Variable, ...]:
    """The variables of a list such as `x, y : S, z : T`."""
    found: List[Variable] = []
    names: List[str] = []
    for part in text.split(",") if text.strip() else ():
        name, sign, sort = (it.strip() for it in part.partition(":"))
        names.append(name)
        if not name or sign and not sort:
            raise Unreadable("variables are wanted as `x, y : S, z : T`")
        if sign:
            found += [Variable(it, data.sort(sort)) for it in names]
            names = []
    if names or len({it.name.lower() for it in found}) < len(found):
        raise Unreadable("variables are wanted as `x, y : S, z : T`, each name once")
    return tuple(found)
