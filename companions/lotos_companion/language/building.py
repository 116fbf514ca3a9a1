"""What each rule of the grammar comes to: a part of the tree, made of what stands in the rule.

Every method has the name of a rule. It is given all that stands there, words and marks too, and `None` for what is left
out. What is no part of a tree by itself, such as a list, is a `Piece`: something with its place.
"""
from __future__ import annotations

from dataclasses import dataclass, replace
from typing import Any, Optional, Tuple, Type, TypeVar

from lark import Transformer, v_args

from . import tree
from .tokens import Place

Part = TypeVar("Part")


@dataclass(frozen=True)
class Piece:
    """What a rule comes to that is no part of a tree, and its place."""

    what: Any
    place: Place


def place_of(part: Any) -> Place:
    """Where a part, a piece or a word stands."""
    place = part.token.place if hasattr(part, "token") else part.place
    assert isinstance(place, Place)
    return place


def span(*parts: Any) -> Place:
    """From the first of these that is there to the last one."""
    there = [it for it in parts if it is not None]
    return place_of(there[0]).to(place_of(there[-1]))


def only(kind: Type[Part], parts: Tuple[Any, ...]) -> Tuple[Part, ...]:
    """The parts of one kind."""
    return tuple(it for it in parts if isinstance(it, kind))


def inside(piece: Optional[Piece], otherwise: Any = ()) -> Any:
    """What is in a piece, if it is there."""
    return otherwise if piece is None else piece.what


@v_args(inline=True)
class ListRules(Transformer[Any, Any]):
    """Names and lists."""

    def name(self, word: Any) -> tree.Name:
        return tree.Name(word.token.text, word.token.place)

    def names(self, *parts: Any) -> Piece:
        return Piece(only(tree.Name, parts), span(*parts))

    loose_names = names

    def gates(self, *parts: Any) -> Piece:
        return Piece(parts[1].what, span(*parts))

    parameters = exit_sorts = gates

    def variable_group(self, names: Piece, _colon: Any, sort: tree.Name) -> Piece:
        return Piece(tuple(tree.Variable(it, sort) for it in names.what), span(names, sort))

    def variables(self, *parts: Any) -> Piece:
        return Piece(tuple(it for group in only(Piece, parts) for it in group.what), span(*parts))

    operation_name = name

    def operation(self, *parts: Any) -> tree.OperationName:
        return tree.OperationName(only(tree.Name, parts)[0], len(parts) > 1, span(*parts))


@v_args(inline=True)
class TermRules(ListRules):
    """Value expressions."""

    def infix(self, left: tree.Term, name: tree.Name, right: tree.Term) -> tree.Term:
        return tree.Term(name, (left, right), True, (), span(left, right))

    def applied(self, name: tree.Name, arguments: Optional[Piece], mark: Optional[Piece]) -> tree.Term:
        return tree.Term(name, inside(arguments), False, inside(mark), span(name, arguments, mark))

    def bracketed(self, left: Any, term: tree.Term, right: Any, mark: Optional[Piece]) -> tree.Term:
        return replace(term, marks=term.marks + inside(mark), place=span(left, right, mark))

    def arguments(self, *parts: Any) -> Piece:
        return Piece(only(tree.Term, parts), span(*parts))

    def mark(self, of: Any, sort: tree.Name) -> Piece:
        return Piece((sort,), span(of, sort))

    def premiss(self, left: tree.Term, _equals: Any, right: Optional[tree.Term]) -> tree.Premiss:
        return tree.Premiss(left, right, span(left, right))

    def term_list(self, *parts: Any) -> Tuple[tree.Term, ...]:
        return only(tree.Term, parts)


@v_args(inline=True)
class TypeRules(TermRules):
    """Types and libraries."""

    def library(self, word: Any, names: Piece, end: Any) -> tree.Library:
        return tree.Library(names.what, span(word, end))

    def type(self, word: Any, name: tree.Name, _is: Any, body: Any, end: Any) -> tree.Type:
        return tree.Type(name, body, span(word, end))

    def extension(self, names: Optional[Piece], sections: tree.Sections) -> tree.Extension:
        return tree.Extension(inside(names), sections)

    def renaming(self, base: tree.Name, _word: Any, renames: tree.Renames) -> tree.Renaming:
        return tree.Renaming(base, renames)

    def actualisation(self, base: tree.Name, _word: Any, names: Piece, _using: Any, renames: tree.Renames) -> tree.Actualisation:
        return tree.Actualisation(base, names.what, renames)

    def sections(self, *parts: Any) -> tree.Sections:
        return tree.Sections(*parts)

    def sorts(self, *parts: Any) -> Optional[tree.Names]:
        return tuple(parts[1].what) if parts else None

    def operations(self, *parts: Any) -> Optional[Tuple[tree.OperationLine, ...]]:
        return only(tree.OperationLine, parts) if parts else None

    def equations(self, *parts: Any) -> Optional[tree.Equations]:
        if not parts:
            return None
        return tree.Equations(inside(parts[1]), only(tree.Group, parts), span(*parts))

    formal_sorts, formal_operations, formal_equations = sorts, operations, equations

    def operation_line(self, *parts: Any) -> tree.OperationLine:
        arguments, result = parts[-1].what
        return tree.OperationLine(only(tree.OperationName, parts), arguments, result, span(*parts))

    def profile(self, colon: Any, names: Optional[Piece], _arrow: Any, result: tree.Name) -> Piece:
        return Piece((inside(names), result), span(colon, result))

    def for_all(self, word: Any, variables: Piece) -> Piece:
        return Piece(variables.what, span(word, variables))

    def group(self, word: Any, sort: tree.Name, variables: Optional[Piece], equations: Optional[Piece]) -> tree.Group:
        return tree.Group(sort, inside(variables), inside(equations), span(word, sort, variables, equations))

    def equation_list(self, *parts: Any) -> Piece:
        return Piece(only(tree.Equation, parts), span(*parts))

    def plain_equation(self, left: tree.Term, _equals: Any, right: tree.Term) -> tree.Equation:
        return tree.Equation((), left, right, span(left, right))

    def premised_equation(self, *parts: Any) -> tree.Equation:
        return tree.Equation(only(tree.Premiss, parts), parts[-3], parts[-1], span(*parts))

    def renames(self, sorts: Any, operations: Any) -> tree.Renames:
        return tree.Renames(sorts, operations)

    def sort_renames(self, *parts: Any) -> Tuple[tree.SortPair, ...]:
        return only(tree.SortPair, parts)

    def sort_pair(self, new: tree.Name, _for: Any, old: tree.Name) -> tree.SortPair:
        return tree.SortPair(new, old)

    def operation_renames(self, *parts: Any) -> Tuple[tree.OperationPair, ...]:
        return only(tree.OperationPair, parts)

    def operation_pair(self, new: tree.OperationName, _for: Any, old: tree.OperationName) -> tree.OperationPair:
        return tree.OperationPair(new, old)


@v_args(inline=True)
class BehaviourRules(TypeRules):
    """Behaviours."""

    def enable(self, left: Any, sign: Any, accepted: Optional[Piece], right: Any) -> tree.Enable:
        return tree.Enable(left, inside(accepted), right, place_of(sign), span(left, right))

    def accept(self, word: Any, variables: Piece, end: Any) -> Piece:
        return Piece(variables.what, span(word, end))

    def disable(self, left: Any, sign: Any, right: Any) -> tree.Disable:
        return tree.Disable(left, right, place_of(sign), span(left, right))

    def compose(self, left: Any, sign: tree.Sign, right: Any) -> tree.Parallel:
        return tree.Parallel(sign, left, right, span(left, right))

    def choose(self, left: Any, sign: Any, right: Any) -> tree.Choice:
        return tree.Choice(left, right, place_of(sign), span(left, right))

    def inner(self, word: Any, _semicolon: Any, behind: Any) -> tree.Inner:
        return tree.Inner(behind, place_of(word), span(word, behind))

    def action(self, event: Piece, _semicolon: Any, behind: Any) -> tree.Action:
        gate, offers, premiss = event.what
        return tree.Action(gate, offers, premiss, behind, event.place, span(event, behind))

    def event(self, gate: tree.Name, *parts: Any) -> Piece:
        conditions = only(Piece, parts)
        offers = tuple(it for it in parts if isinstance(it, (tree.Given, tree.Asked)))
        return Piece((gate, offers, conditions[0].what if conditions else None), span(gate, *parts))

    def condition(self, begin: Any, premiss: tree.Premiss, end: Any) -> Piece:
        return Piece(premiss, span(begin, end))

    def given(self, sign: Any, term: tree.Term) -> tree.Given:
        return tree.Given(term, span(sign, term))

    def asked(self, sign: Any, names: Piece, _colon: Any, sort: tree.Name) -> tree.Asked:
        return tree.Asked(names.what, sort, span(sign, sort))

    def guard(self, condition: Piece, _arrow: Any, behind: Any) -> tree.Guard:
        return tree.Guard(condition.what, behind, span(condition, behind))

    def hide(self, word: Any, names: Piece, _in: Any, body: Any) -> tree.Hide:
        return tree.Hide(names.what, body, span(word, body))

    def let(self, *parts: Any) -> tree.Let:
        return tree.Let(only(tree.Binding, parts), parts[-1], span(*parts))

    def binding(self, name: tree.Name, _colon: Any, sort: tree.Name, _equals: Any, term: tree.Term) -> tree.Binding:
        return tree.Binding(tree.Variable(name, sort), term)

    def choose_value(self, word: Any, variables: Piece, _sign: Any, body: Any) -> tree.ChooseValue:
        return tree.ChooseValue(variables.what, body, span(word, body))

    def choose_gate(self, word: Any, among: Piece, _sign: Any, body: Any) -> tree.ChooseGate:
        return tree.ChooseGate(among.what, body, span(word, body))

    def par_gate(self, word: Any, among: Piece, sign: tree.Sign, body: Any) -> tree.ParGate:
        return tree.ParGate(among.what, sign, body, span(word, body))

    def among_all(self, *parts: Any) -> Piece:
        return Piece(tuple(it.what for it in only(Piece, parts)), span(*parts))

    def among(self, names: Piece, _in: Any, gates: Piece) -> Piece:
        return Piece(tree.Among(names.what, gates.what), span(names, gates))

    def relabel(self, *parts: Any) -> tree.Relabel:
        return tree.Relabel(tuple(it.what for it in only(Piece, parts)), parts[-1], span(*parts))

    def relabelling(self, actual: tree.Name, _for: Any, formal: tree.Name) -> Piece:
        return Piece((actual, formal), span(actual, formal))

    def stop(self, word: Any) -> tree.Stop:
        return tree.Stop(place_of(word))

    def exit(self, word: Any, values: Optional[Piece]) -> tree.Exit:
        return tree.Exit(inside(values), span(word, values))

    def exit_values(self, *parts: Any) -> Piece:
        return Piece(tuple(it for it in parts if isinstance(it, (tree.Term, tree.AnyValue))), span(*parts))

    def any_value(self, word: Any, sort: tree.Name) -> tree.AnyValue:
        return tree.AnyValue(sort, span(word, sort))

    def call(self, name: tree.Name, gates: Optional[Piece], values: Optional[Piece]) -> tree.Call:
        return tree.Call(name, inside(gates), inside(values), span(name, gates, values))

    def bracketed_behaviour(self, begin: Any, body: Any, end: Any) -> Any:
        return replace(body, place=span(begin, end))

    def interleaved(self, sign: Any) -> tree.Sign:
        return tree.Sign(sign.token.text, (), place_of(sign))

    full = interleaved

    def over(self, begin: Any, names: Optional[Piece], end: Any) -> tree.Sign:
        return tree.Sign("|[", inside(names), span(begin, end))


@v_args(inline=True)
class Rules(BehaviourRules):
    """Definitions, and what a text may be."""

    def heading(self, name: tree.Name, gates: Optional[Piece], parameters: Optional[Piece], _colon: Any,
                functionality: Piece) -> tree.Heading:
        return tree.Heading(name, inside(gates), inside(parameters), functionality.what)

    def noexit(self, word: Any) -> Piece:
        return Piece(None, place_of(word))

    def exits(self, word: Any, sorts: Optional[Piece]) -> Piece:
        return Piece(inside(sorts), span(word, sorts))

    def where(self, word: Any, *parts: Any) -> Piece:
        return Piece(parts, span(word, *parts))

    def process(self, word: Any, heading: tree.Heading, _sign: Any, body: Any, inner: Optional[Piece], end: Any) -> tree.Process:
        return tree.Process(heading, body, inside(inner), span(word, end))

    def items(self, *parts: Any) -> Tuple[tree.Item, ...]:
        return parts

    def specification(self, word: Any, heading: tree.Heading, items: Tuple[tree.Item, ...], _behaviour: Any, body: Any,
                      inner: Optional[Piece], end: Any) -> tree.Specification:
        return tree.Specification(heading, items, body, inside(inner), span(word, end))

    def order(self, *parts: Any) -> Tuple[tree.OrderItem, ...]:
        return parts

    def order_item(self, operation: tree.OperationName, profile: Optional[Piece], status: Optional[tree.Name],
                   end: Any) -> tree.OrderItem:
        arguments, result = inside(profile, (None, None))
        return tree.OrderItem(operation, arguments, result, status, span(operation, end))
