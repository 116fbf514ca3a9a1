"""Trees as texts that `lotos` reads as the same trees: brackets stand where a part needs them, as in the program's own texts."""
from __future__ import annotations

from functools import singledispatch
from typing import Any, Iterator, List, Sequence, Tuple

from . import tree

# A blank is wanted between these, since a comment or another sign would begin there.
APART = (("(", "*"), ("[", ">"))
BINARY = (tree.Choice, tree.Parallel, tree.Disable, tree.Enable)
WORD_FORMS = (tree.Hide, tree.Let, tree.ChooseValue, tree.ChooseGate, tree.ParGate, tree.Relabel)
Parts = Iterator[Any]


def text_of(part: Any) -> str:
    """The text of a tree or of any part of one. (No call is made inside another: trees may be deep.)"""
    out: List[str] = [""]
    waiting: List[Iterator[Any]] = [iter((part,))]
    while waiting:
        piece = next(waiting[-1], None)
        if piece is None:
            waiting.pop()
        elif piece == "":
            continue
        elif isinstance(piece, str):
            out.append(f" {piece}" if (out[-1][-1:], piece[:1]) in APART else piece)
        else:
            waiting.append(parts_of(piece))
    return "".join(out)


@singledispatch
def parts_of(part: Any) -> Parts:
    """The texts and the parts that the text of a part is made of, in their order."""
    raise TypeError(f"{part!r} is no part of a tree")


def _listed(parts: Sequence[Any], by: str = ", ") -> Parts:
    """Parts with a text between them."""
    for place, part in enumerate(parts):
        if place:
            yield by
        yield part


def _between(begin: str, parts: Sequence[Any], end: str) -> Parts:
    """A list between two texts, or nothing where it is empty."""
    if parts:
        yield begin
        yield from _listed(parts)
        yield end


def _unit(part: tree.Behaviour) -> Parts:
    """A behaviour, in brackets where it needs them as an operand."""
    is_compound = isinstance(part, BINARY + WORD_FORMS)
    yield from ("(", part, ")") if is_compound else (part,)


@parts_of.register
def _name(part: tree.Name) -> Parts:
    yield part.text


@parts_of.register
def _term(part: tree.Term) -> Parts:
    yield "(" * (len(part.marks) - 1)
    if part.is_infix:
        yield from _infix(part)
    else:
        yield part.name
        yield from _between("(", part.arguments, ")")
    for place, mark in enumerate(part.marks):
        yield from (")" if place else "", " of ", mark)


def _infix(part: tree.Term) -> Parts:
    """A term with its operation between its arguments."""
    left, right = (("(", it, ")") if it.is_infix and not it.marks else (it,) for it in part.arguments)
    yield "(" if part.marks else ""
    yield from (*left, " ", part.name, " ", *right)
    yield ")" if part.marks else ""


@parts_of.register
def _variable(part: tree.Variable) -> Parts:
    yield from (part.name, ":", part.sort)


@parts_of.register
def _premiss(part: tree.Premiss) -> Parts:
    yield part.left
    if part.right:
        yield from (" = ", part.right)


# Behaviours


@parts_of.register
def _stop(_part: tree.Stop) -> Parts:
    yield "stop"


@parts_of.register
def _exit(part: tree.Exit) -> Parts:
    yield "exit"
    yield from _between("(", part.values, ")")


@parts_of.register
def _any_value(part: tree.AnyValue) -> Parts:
    yield from ("any ", part.sort)


@parts_of.register
def _call(part: tree.Call) -> Parts:
    yield part.name
    yield from _between("[", part.gates, "]")
    yield from _between("(", part.values, ")")


@parts_of.register
def _given(part: tree.Given) -> Parts:
    yield from ("!", part.term)


@parts_of.register
def _asked(part: tree.Asked) -> Parts:
    yield from ("?", *_listed(part.names), ":", part.sort)


@parts_of.register
def _action(part: tree.Action) -> Parts:
    yield from event_parts(part)
    yield "; "
    yield from _unit(part.next)


def event_parts(part: tree.Action) -> Parts:
    """The event of an action, without what follows."""
    yield part.gate
    for offer in part.offers:
        yield from (" ", offer)
    if part.premiss:
        yield from (" [", part.premiss, "]")


@parts_of.register
def _inner(part: tree.Inner) -> Parts:
    yield "i; "
    yield from _unit(part.next)


@parts_of.register
def _guard(part: tree.Guard) -> Parts:
    yield from ("[", part.premiss, "] -> ")
    yield from _unit(part.next)


@parts_of.register
def _hide(part: tree.Hide) -> Parts:
    yield from ("hide ", *_listed(part.gates), " in ", part.body)


@parts_of.register
def _binding(part: tree.Binding) -> Parts:
    yield from (part.variable, " = ", part.term)


@parts_of.register
def _let(part: tree.Let) -> Parts:
    yield from ("let ", *_listed(part.bindings), " in ", part.body)


@parts_of.register
def _choose_value(part: tree.ChooseValue) -> Parts:
    yield from ("choice ", *_listed(part.variables), " [] ", part.body)


@parts_of.register
def _among(part: tree.Among) -> Parts:
    yield from (*_listed(part.names), " in [", *_listed(part.gates), "]")


@parts_of.register
def _choose_gate(part: tree.ChooseGate) -> Parts:
    yield from ("choice ", *_listed(part.among), " [] ", part.body)


@parts_of.register
def _sign(part: tree.Sign) -> Parts:
    yield part.text
    if part.text == "|[":
        yield from (*_listed(part.gates), "]|")


@parts_of.register
def _par_gate(part: tree.ParGate) -> Parts:
    yield from ("par ", *_listed(part.among), " ", part.sign, " ", part.body)


@parts_of.register
def _choice(part: tree.Choice) -> Parts:
    yield from (*_unit(part.left), " [] ", *_unit(part.right))


@parts_of.register
def _parallel(part: tree.Parallel) -> Parts:
    yield from (*_unit(part.left), " ", part.sign, " ", *_unit(part.right))


@parts_of.register
def _disable(part: tree.Disable) -> Parts:
    yield from (*_unit(part.left), " [> ", *_unit(part.right))


@parts_of.register
def _enable(part: tree.Enable) -> Parts:
    yield from (*_unit(part.left), " >> ", *_between("accept ", part.accepted, " in "), *_unit(part.right))


@parts_of.register
def _relabel(part: tree.Relabel) -> Parts:
    pairs = [it for actual, formal in part.pairs for it in (", ", actual, " for ", formal)]
    yield from ("relabel ", *pairs[1:], " in ", part.body)


# Types


@parts_of.register
def _library(part: tree.Library) -> Parts:
    yield from ("library ", *_listed(part.names), " endlib\n")


@parts_of.register
def _operation_name(part: tree.OperationName) -> Parts:
    yield from ("_", part.name, "_") if part.is_infix else (part.name,)


@parts_of.register
def _operation_line(part: tree.OperationLine) -> Parts:
    yield from (*_listed(part.operations), " : ", *_listed(part.arguments), " -> ", part.result, "\n")


@parts_of.register
def _equation(part: tree.Equation) -> Parts:
    if part.premisses:
        yield from (*_listed(part.premisses), " => ")
    yield from (part.left, " = ", part.right, ";\n")


@parts_of.register
def _group(part: tree.Group) -> Parts:
    yield from ("ofsort ", part.sort, " ", *_between("forall ", part.variables, " "), "\n", *part.equations)


def _equations(word: str, part: tree.Equations) -> Parts:
    yield from (word, " ", *_between("forall ", part.variables, " "), "\n", *part.groups)


@parts_of.register
def _sections(part: tree.Sections) -> Parts:
    for formal, sorts, operations, equations in (("formal", part.formal_sorts, part.formal_operations, part.formal_equations),
                                                 ("", part.sorts, part.operations, part.equations)):
        if sorts is not None:
            yield from (f"{formal}sorts ", *_listed(sorts), "\n")
        if operations is not None:
            yield from (f"{formal}opns\n", *operations)
        if equations is not None:
            yield from _equations(f"{formal}eqns", equations)


@parts_of.register
def _extension(part: tree.Extension) -> Parts:
    yield from (*_listed(part.bases), "\n", part.sections)


@parts_of.register
def _sort_pair(part: tree.SortPair) -> Parts:
    yield from (part.new, " for ", part.old)


@parts_of.register
def _operation_pair(part: tree.OperationPair) -> Parts:
    yield from (part.new, " for ", part.old)


@parts_of.register
def _renames(part: tree.Renames) -> Parts:
    yield from _between("sortnames ", part.sorts, "\n")
    yield from _between("opnnames ", part.operations, "\n")


@parts_of.register
def _renaming(part: tree.Renaming) -> Parts:
    yield from (part.base, " renamedby\n", part.renames)


@parts_of.register
def _actualisation(part: tree.Actualisation) -> Parts:
    yield from (part.base, " actualizedby ", *_listed(part.actuals), " using\n", part.renames)


@parts_of.register
def _type(part: tree.Type) -> Parts:
    yield from ("type ", part.name, " is ", part.body, "endtype\n")


# Definitions


@parts_of.register
def _heading(part: tree.Heading) -> Parts:
    yield from (part.name, " ", *_between("[", part.gates, "] "), *_between("(", part.parameters, ") "), ": ")
    if part.exit_sorts is None:
        yield "noexit"
    else:
        yield from ("exit", *_between("(", part.exit_sorts, ")"))


def _where(inner: Sequence[Any]) -> Parts:
    yield from ("where\n", *inner) if inner else ()


@parts_of.register
def _process(part: tree.Process) -> Parts:
    yield from ("process ", part.heading, " := ", part.body, "\n", *_where(part.inner), "endproc\n")


@parts_of.register
def _specification(part: tree.Specification) -> Parts:
    yield from ("specification ", part.heading, "\n", *part.items, "behaviour ", part.body, "\n", *_where(part.inner), "endspec\n")


@parts_of.register
def _order_item(part: tree.OrderItem) -> Parts:
    yield part.operation
    if part.result:
        yield from (" : ", *_listed(part.arguments or ()), " -> ", part.result)
    if part.status:
        yield from (" ", part.status)
    yield ";\n"
