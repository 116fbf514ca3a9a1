"""Whether of several tests just one holds, as far as the program's `normal` tells it for small values of their variables."""
from __future__ import annotations

import re
from dataclasses import dataclass
from itertools import islice, product
from typing import Callable, Dict, List, Mapping, Optional, Sequence, Set

from .desk import Desk
from .sources import Sources

SIZE, MOST = 3, 60


@dataclass(frozen=True)
class Covering:
    """What was seen: for how many choices of values the tests were looked at, and the first of them for which none holds, and
    for which several do."""

    looked_at: int
    none: Optional[str] = None
    several: Optional[str] = None


def covering(desk: Desk, sources: Sources, tests: Sequence[Callable[[Dict[str, str]], str]],
             variables: Mapping[str, str], but: Set[str]) -> Optional[Covering]:
    """What is seen of tests, each of which gives its term for terms in the places of its variables; `variables` has their
    sorts. Values with the operations `but` are left out. Nothing where the program has no values or gives no `true` or
    `false`."""
    names = list(variables)
    values = [[value for value in _values(desk, sources, variables[it]) if not but & set(re.split(r"[ (),]+", value.lower()))]
              for it in names]
    chosen = list(islice(product(*values), MOST))
    lines = [f"normal {test(dict(zip(names, (f'({it})' for it in choice))))}" for choice in chosen for test in tests]
    answers = desk.session(sources, lines)[-len(lines):]
    if not lines or len(answers) < len(lines) or any(it not in ("true", "false") for it in answers):
        return None
    none = several = None
    for number, choice in enumerate(chosen):
        held = answers[number * len(tests):(number + 1) * len(tests)].count("true")
        shown = ", ".join(f"{name} = {value}" for name, value in zip(names, choice))
        none = shown if held == 0 and none is None else none
        several = shown if held > 1 and several is None else several
    return Covering(len(chosen), none, several)


def _values(desk: Desk, sources: Sources, sort: str) -> List[str]:
    """The small values of a sort."""
    lines = list(desk.session(sources, [f"values {sort} {SIZE}"]))
    head = next((number for number, it in enumerate(lines) if re.fullmatch(r"values \d+", it)), len(lines))
    return lines[head + 1:]
