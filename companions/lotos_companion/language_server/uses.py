"""Each place of a text where a name stands, with what it can be the name of, by the scopes of the language."""
from __future__ import annotations

from typing import Dict, Iterable, Iterator, List, Optional, Sequence, Tuple, Union

from ..language import tree
from ..language.tree import Behaviour, Heading, Name, Names, Premiss, Term, Variables
from .data import Data, Item, items_within
from .things import Kind, Thing, Use, functionality, gate_list, variable_list

Scope = Dict[Tuple[Kind, str], Thing]
Definition = Union[tree.Specification, tree.Process]


class Uses:
    """The uses of names in the tree of a specification or among the items of a library, in the order of the text."""

    def __init__(self, data: Data):
        self._data = data
        self._found: List[Use] = []

    def of_specification(self, of: tree.Specification) -> List[Use]:
        """Those of a specification."""
        self._items(of.items)
        self._definition(of, {}, Kind.SPECIFICATION)
        return self._sorted()

    def of_items(self, items: Sequence[Item]) -> List[Use]:
        """Those of a library."""
        self._items(items)
        return self._sorted()

    def _sorted(self) -> List[Use]:
        named = [it for it in self._found if it.name.text]
        return sorted(named, key=lambda it: it.place.offset)

    # ---- What is noted ----

    def _note(self, name: Name, kind: Kind, things: Iterable[Optional[Thing]]) -> None:
        self._found.append(Use(name, kind, tuple(it for it in things if it)))

    def _declare(self, scope: Scope, thing: Thing) -> Scope:
        """Notes a declaration; the scope in which it is seen."""
        self._note(thing.name, thing.kind, [thing])
        return {**scope, (thing.kind, thing.name.key): thing}

    def _gates(self, scope: Scope, gates: Names) -> None:
        for gate in gates:
            self._note(gate, Kind.GATE, [scope.get((Kind.GATE, gate.key))])

    def _sorts(self, sorts: Iterable[Name]) -> None:
        for sort in sorts:
            self._note(sort, Kind.SORT, self._data.find(Kind.SORT, sort))

    def _declare_gates(self, scope: Scope, gates: Names, detail: str) -> Scope:
        for gate in gates:
            scope = self._declare(scope, Thing(Kind.GATE, gate, gate.place, detail))
        return scope

    def _declare_variables(self, scope: Scope, variables: Variables) -> Scope:
        for it in variables:
            self._sorts([it.sort])
            scope = self._declare(scope, Thing(Kind.VARIABLE, it.name, it.place.to(it.sort.place), f" : {it.sort.text}"))
        return scope

    # ---- Definitions ----

    def _definition(self, of: Definition, scope: Scope, kind: Kind) -> None:
        """A specification or a process: its heading is read in the scope around it, and its body sees its own gates and variables
        and the processes declared in it and around it."""
        if kind is Kind.SPECIFICATION:
            self._declare({}, definition_thing(of, kind))
        inner = {key: it for key, it in scope.items() if key[0] is Kind.PROCESS}
        processes = [it for it in of.inner if isinstance(it, tree.Process)]
        for process in processes:
            inner = self._declare(inner, definition_thing(process, Kind.PROCESS))
        self._items(it for it in of.inner if not isinstance(it, tree.Process))
        heading = of.heading
        seen = self._declare_gates(inner, heading.gates, f" of {heading.name.text}")
        seen = self._declare_variables(seen, heading.parameters)
        self._sorts(heading.exit_sorts or ())
        self._behaviour(of.body, seen)
        for process in processes:
            self._definition(process, inner, Kind.PROCESS)

    # ---- Behaviours, without recursion along chains of actions ----

    def _behaviour(self, begin: Behaviour, scope: Scope) -> None:
        waiting: List[Tuple[Behaviour, Scope]] = [(begin, scope)]
        while waiting:
            of, seen = waiting.pop()
            waiting.extend(reversed(list(self._parts(of, seen))))

    def _parts(self, of: Behaviour, scope: Scope) -> Iterator[Tuple[Behaviour, Scope]]:
        """Notes what stands at the root of a behaviour; its parts with their scopes."""
        if isinstance(of, tree.Action):
            yield of.next, self._action(of, scope)
        elif isinstance(of, tree.Inner):
            yield of.next, scope
        elif isinstance(of, tree.Guard):
            self._premiss(of.premiss, scope)
            yield of.next, scope
        elif isinstance(of, tree.Call):
            self._note(of.name, Kind.PROCESS, [scope.get((Kind.PROCESS, of.name.key))])
            self._gates(scope, of.gates)
            self._terms(of.values, scope)
        elif isinstance(of, tree.Exit):
            self._terms((it for it in of.values if isinstance(it, Term)), scope)
            self._sorts(it.sort for it in of.values if isinstance(it, tree.AnyValue))
        elif isinstance(of, tree.Hide):
            yield of.body, self._declare_gates(scope, of.gates, " hidden")
        elif isinstance(of, (tree.ChooseGate, tree.ParGate)):
            yield of.body, self._among(of, scope)
        elif isinstance(of, tree.Relabel):
            yield of.body, scope
        else:
            yield from self._value_parts(of, scope)

    def _value_parts(self, of: Behaviour, scope: Scope) -> Iterator[Tuple[Behaviour, Scope]]:
        """The same for what declares variables, and for what has two sides."""
        if isinstance(of, tree.Let):
            for it in of.bindings:
                self._terms([it.term], scope)
            yield of.body, self._declare_variables(scope, tuple(it.variable for it in of.bindings))
        elif isinstance(of, tree.ChooseValue):
            yield of.body, self._declare_variables(scope, of.variables)
        elif isinstance(of, tree.Enable):
            yield of.left, scope
            yield of.right, self._declare_variables(scope, of.accepted)
        elif isinstance(of, (tree.Choice, tree.Parallel, tree.Disable)):
            if isinstance(of, tree.Parallel):
                self._gates(scope, of.sign.gates)
            yield of.left, scope
            yield of.right, scope

    def _action(self, of: tree.Action, scope: Scope) -> Scope:
        """An action: its offers and its condition; the scope behind it."""
        self._gates(scope, (of.gate,))
        seen = scope
        for offer in of.offers:
            if isinstance(offer, tree.Given):
                self._terms([offer.term], scope)
            else:
                seen = self._declare_variables(seen, tuple(tree.Variable(it, offer.sort) for it in offer.names))
        if of.premiss:
            self._premiss(of.premiss, seen)
        return seen

    def _among(self, of: Union[tree.ChooseGate, tree.ParGate], scope: Scope) -> Scope:
        seen = scope
        for it in of.among:
            self._gates(scope, it.gates)
            seen = self._declare_gates(seen, it.names, f" in [{', '.join(gate.text for gate in it.gates)}]")
        if isinstance(of, tree.ParGate):
            self._gates(scope, of.sign.gates)
        return seen

    # ---- Terms ----

    def _premiss(self, of: Premiss, scope: Scope) -> None:
        self._terms([of.left] + ([of.right] if of.right else []), scope)

    def _terms(self, terms: Iterable[Term], scope: Scope) -> None:
        waiting = list(terms)
        while waiting:
            term = waiting.pop()
            self._sorts(term.marks)
            variable = scope.get((Kind.VARIABLE, term.name.key))
            if variable and not term.arguments and not term.is_infix:
                self._note(term.name, Kind.VARIABLE, [variable])
            else:
                found = self._data.operations(term.name, term.is_infix, len(term.arguments))
                self._note(term.name, Kind.OPERATION, found)
            waiting.extend(term.arguments)

    # ---- Types and libraries ----

    def _items(self, items: Iterable[Item]) -> None:
        for item in items_within(items):
            if isinstance(item, tree.Library):
                for name in item.names:
                    self._note(name, Kind.LIBRARY, [])
            else:
                self._type(item)

    def _type(self, of: tree.Type) -> None:
        self._note(of.name, Kind.TYPE, self._data.find(Kind.TYPE, of.name))
        body = of.body
        mentioned = body.bases if isinstance(body, tree.Extension) else (body.base,)
        if isinstance(body, tree.Actualisation):
            mentioned += body.actuals
        for name in mentioned:
            self._note(name, Kind.TYPE, self._data.find(Kind.TYPE, name))
        if isinstance(body, tree.Extension):
            self._sections(body.sections)
        else:
            self._renames(body.renames)

    def _sections(self, of: tree.Sections) -> None:
        for sorts in (of.formal_sorts, of.sorts):
            self._sorts(sorts or ())
        for lines in (of.formal_operations, of.operations):
            for line in lines or ():
                for it in line.operations:
                    self._note(it.name, Kind.OPERATION, self._data.operations(it.name, it.is_infix, len(line.arguments)))
                self._sorts((*line.arguments, line.result))
        for equations in (of.formal_equations, of.equations):
            if equations:
                self._equations(equations)

    def _equations(self, of: tree.Equations) -> None:
        for_all = self._declare_variables({}, of.variables)
        for group in of.groups:
            self._sorts([group.sort])
            scope = self._declare_variables(for_all, group.variables)
            for equation in group.equations:
                for premiss in equation.premisses:
                    self._premiss(premiss, scope)
                self._terms([equation.left, equation.right], scope)

    def _renames(self, of: tree.Renames) -> None:
        for sorts in of.sorts:
            self._sorts([sorts.new, sorts.old])
        for pair in of.operations:
            for it in (pair.new, pair.old):
                named = [found for found in self._data.find(Kind.OPERATION, it.name) if found.is_infix == it.is_infix]
                self._note(it.name, Kind.OPERATION, named)


def definition_thing(of: Definition, kind: Kind) -> Thing:
    """A specification or a process as what it declares."""
    heading: Heading = of.heading
    detail = gate_list(heading.gates) + variable_list(heading.parameters) + functionality(heading.exit_sorts)
    return Thing(kind, heading.name, of.place, detail)
