"""Equations with premisses, written with an `if`.

`c => l = r` and `d => l = s` become `l = if(c, r, s)` where of the tests just one holds, so that the last one is left out. Else
they become `l = if(c, r, if(d, s, else_f(x)))`, with an operation of which no equation says anything, as the equations say
nothing there; so does one that stands alone. `if` is an operation of the texts, or one that is added.
"""
from __future__ import annotations

from dataclasses import dataclass
from typing import Callable, Dict, Iterator, List, Optional, Sequence, Set, Tuple

from ..language import tree
from ..language.walking import all_of
from .places import tokens_of
from .sources import Edit
from .trees import TextTree
from .trying import Candidate

BOOL, TRUE, FALSE = "bool", "true", "false"


# A test for terms in the places of its variables.
Test = Callable[[Dict[str, str]], str]


class NoTest(Exception):
    """An equation cannot be written with an `if`: why."""


@dataclass(frozen=True)
class Found:
    """Equations with premisses and one left side, in the type and the group that they stand in."""

    type_: tree.Type
    sections: tree.Sections
    group: tree.Group
    equations: Tuple[tree.Equation, ...]


class Premisses:
    """The equations with premisses of a text."""

    def __init__(self, text: TextTree, source: str, texts: Sequence[TextTree]):
        self._text = text.text
        self._roots = text.roots
        self._source = source
        self._texts = texts
        self._names = {it.key for other in texts for it in other.names}

    def at(self, offset: int) -> Optional[Found]:
        """The equations that belong to the one whose `=>` stands at an offset."""
        for type_ in (it for root in self._roots for it in all_of(tree.Type, root)):
            equations = type_.body.sections.equations if isinstance(type_.body, tree.Extension) else None
            for group in equations.groups if equations else ():
                for it in group.equations:
                    if it.premisses and it.place.offset <= offset < it.place.end:
                        return self._with_one_left(type_, group, it)
        return None

    def _with_one_left(self, type_: tree.Type, group: tree.Group, one: tree.Equation) -> Found:
        """The equation with those next to it that have its left side but for the names of variables."""
        assert isinstance(type_.body, tree.Extension)
        variables = self.variables(Found(type_, type_.body.sections, group, ()))
        at = group.equations.index(one)
        end = at + 1
        for other in group.equations[at + 1:]:
            if not other.premisses or renaming(other.left, one.left, variables) is None:
                break
            end += 1
        return Found(type_, type_.body.sections, group, group.equations[at:end])

    def variables(self, found: Found) -> Dict[str, str]:
        """The variables of a group, with their sorts."""
        equations = found.sections.equations
        declared = (*(equations.variables if equations else ()), *found.group.variables)
        return {it.name.key: it.sort.text for it in declared}

    def tests(self, found: Found) -> List[Test]:
        """The tests of the equations, in the variables of the first one. `NoTest` where one of them is none."""
        variables = self.variables(found)
        tests = []
        for it in found.equations:
            for other in self._alone(it, variables):
                raise NoTest(f"{other} stands in the premiss or on the right side alone, so that no value is given for it")
            tests.append(self._test_of(it, renaming(it.left, found.equations[0].left, variables) or {}))
            tests[-1]({})
        return tests

    def used(self, found: Found) -> Set[str]:
        """The variables of the first left side."""
        return variables_in(found.equations[0].left, self.variables(found))

    def _test_of(self, it: tree.Equation, names: Dict[str, str]) -> Test:
        """The premisses of an equation as one term, for terms in the places of variables."""
        def test(terms: Dict[str, str]) -> str:
            instead = {old: terms.get(new.lower(), new) for old, new in names.items()}
            parts = [self._test(premiss, instead) for premiss in it.premisses]
            return parts[0] if len(parts) == 1 else " and ".join(f"({part})" for part in parts)
        return test

    def defined(self) -> Set[str]:
        """The operations at the heads of equations with premisses."""
        return {it.left.name.key for it in self._premised()}

    def _premised(self) -> Iterator[tree.Equation]:
        for sections in (it for root in self._roots for it in all_of(tree.Sections, root)):
            if sections.equations:
                yield from (it for it in all_of(tree.Equation, sections.equations) if it.premisses)

    def without(self) -> Tuple[Edit, ...]:
        """The edits that take out all equations with premisses."""
        found = list(self._premised())
        ends = [self._source.find(";", it.place.end) + 1 or it.place.end for it in found]
        return tuple(Edit(self._text, it.place.offset, end if not self._source[it.place.end:end - 1].strip() else it.place.end, b"")
                     for it, end in zip(found, ends))

    def candidates(self, found: Found, is_complete: bool) -> Iterator[Candidate]:
        """The equations with an `if`: by one that is there, and by one that is added. Where the tests are complete, the last
        of several equations is taken where no other one is."""
        for name in self._ifs(found):
            yield self._candidate(found, is_complete, name, False)
        yield self._candidate(found, is_complete, "if", True)

    def _candidate(self, found: Found, is_complete: bool, name: str, is_added: bool) -> Candidate:
        """The equations with this operation for `if`."""
        variables, first, sort = self.variables(found), found.equations[0], found.group.sort.text
        cases = [(test({}), self._written(it.right, renaming(it.left, first.left, variables) or {}))
                 for test, it in zip(self.tests(found), found.equations)]
        added = []
        if is_complete and len(cases) > 1:
            last = cases.pop()[1]
        else:
            last, declared = self._otherwise(first, variables, sort)
            added.append(declared)
        for test, right in reversed(cases):
            last = f"{name}({test}, {right}, {last})"
        left, indent = self._source[first.left.place.offset:first.left.place.end], " " * self._column(first.place.offset)
        lines = []
        if is_added:
            added.append(f"{name} : Bool, {sort}, {sort} -> {sort}")
            lines = self._equations(found, name)
        new = "".join(f"{it}\n{indent}" for it in lines) + f"{left} = {last}"
        edits = [Edit(self._text, first.place.offset, found.equations[-1].place.end, new.encode("latin-1")),
                 *self._declared(found, added)]
        return Candidate(f"{left} = {last}" + (f", with {'; '.join(added)}" if added else ""), tuple(edits))

    def _test(self, premiss: tree.Premiss, names: Dict[str, str]) -> str:
        """A premiss as a term of sort Bool."""
        left = self._written(premiss.left, names)
        if premiss.right is None:
            return left
        for one, other in ((premiss.left, premiss.right), (premiss.right, premiss.left)):
            if other.name.key in (TRUE, FALSE) and not other.arguments:
                test = self._written(one, names)
                return test if other.name.key == TRUE else f"not({test})"
        raise NoTest(f"the premiss {left} = {self._written(premiss.right, names)} is no test of sort Bool: declare an operation "
                     "that compares the two, such as _eq_, and write it as the premiss")

    def _alone(self, it: tree.Equation, variables: Dict[str, str]) -> Iterator[str]:
        """The variables of an equation that are not on its left side."""
        left = variables_in(it.left, variables)
        others = [it.right, *(side for premiss in it.premisses for side in (premiss.left, premiss.right) if side is not None)]
        yield from sorted({name for side in others for name in variables_in(side, variables)} - left)

    def _otherwise(self, it: tree.Equation, variables: Dict[str, str], sort: str) -> Tuple[str, str]:
        """A term of which nothing is said, and the declaration of its operation."""
        used = sorted(variables_in(it.left, variables))
        name = self._fresh(f"else_{it.left.name.text}" if it.left.name.text[:1].isalnum() else "else_of")
        sorts = ", ".join(variables[it] for it in used)
        return name + (f"({', '.join(used)})" if used else ""), f"{name} : {sorts}{' ' if sorts else ''}-> {sort}"

    def _ifs(self, found: Found) -> Iterator[str]:
        """The operations of the texts that are an `if` for the sort of the group."""
        sort = found.group.sort.key
        for text in self._texts:
            for root in text.roots:
                for sections in all_of(tree.Sections, root):
                    yield from (it.name.text for line in sections.operations or () for it in line.operations
                                if [one.key for one in line.arguments] == [BOOL, sort, sort] and line.result.key == sort
                                and not it.is_infix and is_if(it.name.key, sections))

    def _equations(self, found: Found, name: str) -> List[str]:
        """The equations of an `if`, and the head of the group, which goes on behind them."""
        sort, one, other = found.group.sort.text, self._fresh("one"), self._fresh("other")
        declared = ", ".join(f"{it.name.text} : {it.sort.text}" for it in found.group.variables)
        return [f"ofsort {sort} forall {one}, {other} : {sort}", f"  {name}(true, {one}, {other}) = {one};",
                f"  {name}(false, {one}, {other}) = {other};", f"ofsort {sort}" + (f" forall {declared}" if declared else "")]

    def _column(self, offset: int) -> int:
        """The bytes before an offset in its line."""
        return offset - self._source.rfind("\n", 0, offset) - 1

    def _fresh(self, name: str) -> str:
        """A name that is not taken."""
        new, number = name, 1
        while new.lower() in self._names:
            number += 1
            new = f"{name}{number}"
        return new

    def _declared(self, found: Found, added: Sequence[str]) -> Iterator[Edit]:
        """The declarations of operations, before those of the type."""
        if added:
            begin, end = found.type_.place.offset, found.type_.place.end
            words = tokens_of(self._source[begin:end].encode("latin-1"))
            place = next((it.place.end for it in words if it.key == "opns"), None)
            if place is not None:
                indent = "\n" + " " * (self._column(begin + place) - len("opns") + 2)
                yield self._insertion(begin + place, "".join(indent + it for it in added))
            else:
                place = next(it.place.offset for it in words if it.key == "eqns")
                indent = "\n" + " " * self._column(begin + place)
                yield self._insertion(begin + place, f"opns{''.join(f'{indent}  {it}' for it in added)}{indent}")

    def _insertion(self, offset: int, new: str) -> Edit:
        return Edit(self._text, offset, offset, new.encode("latin-1"))

    def _written(self, term: tree.Term, names: Dict[str, str]) -> str:
        """A term as it is written, with other names for variables."""
        begin, text = term.place.offset, self._source[term.place.offset:term.place.end]
        for it in sorted(all_of(tree.Term, term), key=lambda it: -it.name.place.offset):
            if not it.arguments and it.name.key in names:
                at = it.name.place.offset - begin
                text = text[:at] + names[it.name.key] + text[at + len(it.name.text):]
        return " ".join(text.split())


def is_if(name: str, sections: tree.Sections) -> bool:
    """Whether two equations say of an operation that it takes its second argument for `true`, and its third for `false`."""
    found = set()
    for it in all_of(tree.Equation, sections.equations) if sections.equations else ():
        arguments = it.left.arguments
        if it.left.name.key == name and len(arguments) == 3 and not it.premisses:
            chosen = {TRUE: arguments[1], FALSE: arguments[2]}.get(arguments[0].name.key)
            if chosen is not None and chosen.name.key == it.right.name.key and not (chosen.arguments or it.right.arguments):
                found.add(arguments[0].name.key)
    return found == {TRUE, FALSE}


def variables_in(term: tree.Term, variables: Dict[str, str]) -> Set[str]:
    """The variables of a term, by their keys."""
    return {it.name.key for it in all_of(tree.Term, term) if not it.arguments and it.name.key in variables}


def renaming(term: tree.Term, other: tree.Term, variables: Dict[str, str]) -> Optional[Dict[str, str]]:
    """The names of the variables of a term in another one that is the same but for them, or nothing."""
    names: Dict[str, str] = {}
    pairs = [(term, other)]
    while pairs:
        one, two = pairs.pop()
        if one.name.key in variables and not one.arguments:
            if two.arguments or variables.get(two.name.key) != variables[one.name.key]:
                return None
            if names.setdefault(one.name.key, two.name.text).lower() != two.name.key:
                return None
        elif one.name.key != two.name.key or len(one.arguments) != len(two.arguments) or one.is_infix != two.is_infix:
            return None
        pairs += list(zip(one.arguments, two.arguments))
    return names if len(set(it.lower() for it in names.values())) == len(names) else None
