"""All equations of a specification as the program comes to them, renamed and actualised, each with the place that it is from."""
from __future__ import annotations

from dataclasses import dataclass
from typing import Dict, List, Optional, Tuple

from ..checking.desk import Desk
from ..checking.outcome import Outcome
from ..checking.sources import Sources
from ..language import tree
from ..language.reading import read_items
from .data import Node, Signature, Term, Unreadable, Variable, equations_of, operations_of
from .marked_copy import MarkedCopy, Written, marked_copy


@dataclass(frozen=True)
class Equation:
    """An equation of the data, and how it is written in its type."""

    left: Term
    right: Term
    written: Written


class Refused(Exception):
    """The program refuses the texts for another reason than their equations."""

    def __init__(self, outcome: Outcome):
        super().__init__(outcome.first)
        self.outcome = outcome


@dataclass(frozen=True)
class Data:
    """The operations and the equations."""

    signature: Signature
    equations: Tuple[Equation, ...]


def read_data(desk: Desk, sources: Sources) -> Data:
    """The data, by the program's answer to `flatten` of a copy in which every equation can be used."""
    copy = marked_copy(sources)
    status, lines = desk.flatten(copy.sources)
    if status:
        raise Refused(Outcome(status, lines))
    sections = _data_type(lines)
    if sections is None:
        return Data(Signature(()), ())
    everything = Signature(list(operations_of(sections)))
    kept = [number for number, it in enumerate(everything.operations) if not it.name.lower().startswith(copy.prefix)]
    signature = Signature([everything.operations[it] for it in kept])
    places = {old: new for new, old in enumerate(kept)}
    found = []
    for equation, variables in equations_of(sections):
        written = copy.equations[copy.number(equation.left.name.key)]
        left, right = _sides(everything, equation.left, variables)
        names = dict([*_names(left, written.equation.left), *_names(right, written.equation.right)])
        found.append(Equation(_kept(left, places, names), _kept(right, places, names), written))
    return Data(signature, tuple(dict.fromkeys(found)))


def _data_type(lines: Tuple[str, ...]) -> Optional[tree.Sections]:
    """The sections of the one type of a flat text."""
    begin = next((place for place, it in enumerate(lines) if it.startswith("type ")), None)
    if begin is None:
        return None
    end = lines.index("endtype", begin)
    type_ = read_items("\n".join(lines[begin:end + 1]))[0]
    assert isinstance(type_, tree.Type) and isinstance(type_.body, tree.Extension)
    return type_.body.sections


def _sides(signature: Signature, marked: tree.Term, variables: Dict[str, str]) -> Tuple[Term, Term]:
    """The two sides in the term that marks an equation."""
    readings = list(signature.readings(marked, variables).values())
    if len(readings) != 1 or not isinstance(readings[0], Node):
        raise Unreadable(marked.name.text)
    left, right = readings[0].arguments
    return left, right


def _names(term: Term, written: tree.Term) -> List[Tuple[str, str]]:
    """The names of variables in a printed term, with those that were written."""
    if isinstance(term, Variable):
        return [(term.name, written.name.text)]
    return [pair for it, other in zip(term.arguments, written.arguments) for pair in _names(it, other)]


def _kept(term: Term, places: Dict[int, int], names: Dict[str, str]) -> Term:
    """The term with the numbers of the operations that are kept, and the names of variables as they were written."""
    if isinstance(term, Variable):
        return Variable(names[term.name])
    return Node(places[term.operation], tuple(_kept(it, places, names) for it in term.arguments))
