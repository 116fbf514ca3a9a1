"""Variables that stand for few values written out: `g ?x:S; B` as a choice of an event for each value of `S`.

A certificate names states whose menus have no variables. Where a sort has few values, a specification says the same with all of
them written out: `g ?x:S; B` as `g !v; B' [] ..`, `choice x:S [] B` as `B' [] ..`, and `exit(any S)` as `exit(v) [] ..`, for each
value v of `S`, where B' is B with v in place of x. A variable that is called like an operation keeps its name, by a `let`.
"""
from __future__ import annotations

from dataclasses import fields, is_dataclass, replace
from functools import reduce
from itertools import product
from typing import Any, Callable, Dict, List, Optional, Sequence, Set, Tuple

from ..language import read_specification, read_terms, text_of
from ..language.tree import (Action, AnyValue, Asked, Behaviour, Binding, Choice, ChooseValue, Enable, Exit, Given, Let, Name,
                             Offer, Stop, Term, Variable)

LONGEST = 1_048_576
# The fields of a behaviour in which the variables that it declares are known.
INSIDE = ("premiss", "next", "body", "right")
Values = Callable[[str], Optional[Tuple[str, ...]]]


class TooLong(Exception):
    """With all values written out the text is longer than any that the program takes."""


class Expansion:
    """The text of one specification with the values of its finite sorts written out. `sorts` are those that were, with their
    values."""

    def __init__(self, text: str, values: Values, operations: Set[str]):
        self._values, self._operations = values, operations
        self._terms: Dict[str, List[Term]] = {}
        self.sorts: Dict[str, Tuple[str, ...]] = {}
        specification = self._expand(read_specification(text))
        self.text = text_of(specification)
        if len(self.text) > LONGEST:
            raise TooLong

    def _all_values(self, sort: Name) -> Optional[List[Term]]:
        """The values of a sort with the sort behind each, or nothing where they are not finitely many."""
        if sort.key not in self._terms:
            listed = self._values(sort.text)
            if listed is None:
                return None
            self.sorts[sort.text] = listed
            self._terms[sort.key] = [replace(read_terms(it)[0], marks=(sort,)) for it in listed]
        return self._terms[sort.key]

    def _expand(self, part: Any) -> Any:
        """A part with all that is in it expanded."""
        if isinstance(part, tuple):
            return tuple(self._expand(it) for it in part)
        if not is_dataclass(part) or isinstance(part, (Name, Term)):
            return part
        new = {it.name: self._expand(getattr(part, it.name)) for it in fields(part)}
        done = replace(part, **new)
        if isinstance(done, Action):
            return self._action(done)
        if isinstance(done, ChooseValue):
            return self._choice(done)
        return self._exit(done) if isinstance(done, Exit) else done

    def _joined(self, parts: Sequence[Behaviour], whole: Behaviour) -> Behaviour:
        """A choice of behaviours, which is `stop` where there are none."""
        if len(parts) * len(text_of(whole)) > LONGEST:
            raise TooLong
        return reduce(Choice, parts) if parts else Stop()

    def _action(self, action: Action) -> Behaviour:
        """An action as a choice of actions with values."""
        variables = [Variable(name, it.sort) for it in action.offers if isinstance(it, Asked) for name in it.names]
        finite = self._finite(variables)
        if not finite:
            return action
        parts: List[Behaviour] = []
        for chosen in product(*finite.values()):
            values = dict(zip(finite, chosen))
            offers = tuple(it for offer in action.offers for it in _offers(offer, values))
            premiss = _replaced(action.premiss, values)
            parts.append(replace(action, offers=offers, premiss=premiss, next=self._given(variables, values, action.next)))
        return self._joined(parts, action)

    def _choice(self, choice: ChooseValue) -> Behaviour:
        """A `choice` of values as a choice of behaviours."""
        finite = self._finite(choice.variables)
        rest = tuple(it for it in choice.variables if it.name.key not in finite)
        parts: List[Behaviour] = []
        for chosen in product(*finite.values()):
            body = self._given(choice.variables, dict(zip(finite, chosen)), choice.body)
            parts.append(ChooseValue(rest, body) if rest else body)
        return self._joined(parts, choice) if finite else choice

    def _exit(self, part: Exit) -> Behaviour:
        """An `exit` with `any` as a choice of ends with values."""
        slots: List[List[Any]] = []
        for value in part.values:
            listed = self._all_values(value.sort) if isinstance(value, AnyValue) else None
            slots.append([value] if listed is None else list(listed))
        if all(len(it) == 1 and it[0] in part.values for it in slots):
            return part
        return self._joined([replace(part, values=tuple(it)) for it in product(*slots)], part)

    def _finite(self, variables: Sequence[Variable]) -> Dict[str, List[Term]]:
        """The variables of finite sorts with their values."""
        listed = {it.name.key: self._all_values(it.sort) for it in variables}
        return {key: values for key, values in listed.items() if values is not None}

    def _given(self, variables: Sequence[Variable], values: Dict[str, Term], body: Behaviour) -> Behaviour:
        """A behaviour in which variables have values."""
        kept = [it for it in variables if it.name.key in values and it.name.key in self._operations]
        done = _replaced(body, {key: it for key, it in values.items() if key not in self._operations})
        bindings = tuple(Binding(it, values[it.name.key]) for it in kept)
        return Let(bindings, done) if bindings else done

    def note(self, file: str) -> str:
        """The comment that stands before the text."""
        lines = [f"(* {file.replace('*)', '* )')} with all values of these sorts written out, where a variable stood for them."]
        lines += [f"   {sort}: {', '.join(values) or 'it has none'}" for sort, values in self.sorts.items()]
        return "\n".join(lines) + " *)\n"


def _offers(offer: Offer, values: Dict[str, Term]) -> List[Offer]:
    """An offer with the values of its variables."""
    if isinstance(offer, Given):
        return [offer]
    return [Given(values[it.key]) if it.key in values else Asked((it,), offer.sort) for it in offer.names]


def _term(term: Term, values: Dict[str, Term]) -> Term:
    """A term with values in place of variables."""
    if not term.arguments and not term.is_infix and term.name.key in values:
        return values[term.name.key]
    return replace(term, arguments=tuple(_term(it, values) for it in term.arguments))


def _replaced(part: Any, values: Dict[str, Term]) -> Any:
    """A part of a behaviour with values in place of variables, but for those that it declares anew."""
    if isinstance(part, tuple):
        return tuple(_replaced(it, values) for it in part)
    if not values or not is_dataclass(part) or isinstance(part, Name):
        return part
    if isinstance(part, Term):
        return _term(part, values)
    inside = _without(values, _declared(part))
    return replace(part, **{it.name: _replaced(getattr(part, it.name), inside if it.name in INSIDE else values)
                            for it in fields(part)})


def _declared(part: Any) -> Set[str]:
    """The variables that a part declares for what stands in its fields INSIDE."""
    if isinstance(part, Action):
        return {name.key for it in part.offers if isinstance(it, Asked) for name in it.names}
    if isinstance(part, ChooseValue):
        return {it.name.key for it in part.variables}
    if isinstance(part, Enable):
        return {it.name.key for it in part.accepted}
    return {it.variable.name.key for it in part.bindings} if isinstance(part, Let) else set()


def _without(values: Dict[str, Term], names: Set[str]) -> Dict[str, Term]:
    return {key: it for key, it in values.items() if key not in names}
