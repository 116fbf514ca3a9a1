"""Where the terms of a text stand, and how the program is asked about other terms at the same place.

A question stands in the text itself, before what the term is in, so that it sees the same variables and operations: in a
behaviour as a guard, in a condition in its place, in a type as a premiss of a formal equation of its own. It asks whether a
term equals itself, so that any sort will do, or that of a given name.
"""
from __future__ import annotations

from dataclasses import dataclass, replace
from typing import Any, Iterator, List, Optional, Tuple

from ..language import tree
from ..language.reading import read_terms
from ..language.tokens import Place
from ..language.walking import parts_below
from .places import tokens_in
from .sources import WITH, Edit

HOSTS = (tree.Action, tree.Call, tree.Exit, tree.Let)
SECTIONS = ("sorts", "opns", "eqns")


@dataclass(frozen=True)
class Site:
    """A whole term of a text, and what it stands in: an equation of a type, a condition, or a behaviour. `wanted` is the sort
    that its place wants, where that is written there. That of a word behind `with` has the word's number, and is asked about
    in the specification, before its behaviour."""

    text: str
    term: tree.Term
    condition: Optional[tree.Premiss] = None
    behaviour: Optional[Any] = None
    type_: Optional[tree.Type] = None
    equations: Optional[tree.Equations] = None
    group: Optional[tree.Group] = None
    wanted: str = ""
    word: int = 0
    asked_in: str = ""

    @property
    def place_of_question(self) -> str:
        """The text that the question stands in."""
        return self.asked_in or self.text

    def question(self, source: str, term: str, sort: str = "") -> Tuple[Edit, Tuple[int, int]]:
        """The edit that asks about a term, and the offsets between which an answer about it stands."""
        asked = f"({term}) of {sort}" if sort else f"({term})"
        if self.type_ is not None:
            return self._in_type(source, asked)
        if self.condition is not None:
            begin, new, end = self.condition.place.offset, f"{asked} = {asked}", self.condition.place.end
        else:
            assert self.behaviour is not None
            begin, new = self.behaviour.place.offset, f"[{asked} = {asked}] -> "
            end = begin
        return Edit(self.place_of_question, begin, end, new.encode("latin-1")), (begin, begin + len(new))

    def _in_type(self, source: str, asked: str) -> Tuple[Edit, Tuple[int, int]]:
        """The same in a type, as the first of its formal equations: they stand before its sorts, operations and equations."""
        assert self.group is not None and self.equations is not None
        variables = {it.name.key: it for it in (*self.equations.variables, *self.group.variables)}
        fresh = "q"
        while fresh in source.lower():
            fresh += "q"
        declared = "".join(f"{it.name.text} : {it.sort.text}, " for it in variables.values())
        begin, word = self._first_group(source)
        head = f"{word} ofsort {self.group.sort.text} forall {declared}{fresh} : {self.group.sort.text} "
        new = f"{head}{asked} = {asked} => {fresh} = {fresh}; "
        return Edit(self.text, begin, begin, new.encode("latin-1")), (begin + len(head), begin + len(new))

    def _first_group(self, source: str) -> Tuple[int, str]:
        """Where the first formal equation of the type may stand, and the word that has to be before it."""
        assert self.type_ is not None and isinstance(self.type_.body, tree.Extension)
        formal = self.type_.body.sections.formal_equations
        if formal and formal.groups:
            return formal.groups[0].place.offset, ""
        begin, end = self.type_.place.offset, self.type_.place.end
        words = [it for it in tokens_in(source[begin:end].encode("latin-1")) if it.key in SECTIONS]
        return begin + words[0].place.offset, "" if formal else "formaleqns"


def find_site(text: str, root: Any, offset: int) -> Optional[Site]:
    """The whole term that a refusal tells by an offset: that of its first word, or of its infix operation."""
    for site in sites(text, root):
        if offset in (site.term.name.place.offset, site.term.place.offset):
            return site
    return None


def word_site(number: int, word: str, specification: tree.Specification, name: str) -> Optional[Site]:
    """That of a word behind `with`, by its number. `NoTree` where it is no term."""
    terms, parameters = read_terms(word), specification.heading.parameters
    if len(terms) != 1:
        return None
    wanted = parameters[number - 1].sort.text if number <= len(parameters) else ""
    return Site(WITH, terms[0], behaviour=specification.body, wanted=wanted, word=number, asked_in=name)


def sites(text: str, root: Any) -> Iterator[Site]:
    """The whole terms of a specification or of a list of items, with what they stand in."""
    waiting: List[Tuple[Any, Site]] = [(it, Site(text, NO_TERM)) for it in (root if isinstance(root, tuple) else (root,))]
    while waiting:
        part, inside = waiting.pop()
        if isinstance(part, tree.Term):
            yield replace(inside, term=part)
            continue
        inside = _inside(part, inside)
        waiting += [(it, _wanted(part, it, inside)) for it in parts_below(part)]


NO_TERM = tree.Term(tree.Name(""))


def _inside(part: Any, site: Site) -> Site:
    """What the terms below a part stand in."""
    if isinstance(part, tree.Type):
        return Site(site.text, NO_TERM, type_=part)
    if isinstance(part, tree.Equations):
        return replace(site, equations=part)
    if isinstance(part, tree.Group):
        return replace(site, group=part, wanted=part.sort.text)
    if isinstance(part, tree.Premiss):
        return replace(site, condition=part, wanted="" if part.right else "Bool")
    if isinstance(part, HOSTS):
        return Site(site.text, NO_TERM, behaviour=part)
    return site


def _wanted(part: Any, below: Any, site: Site) -> Site:
    """The same, with the sort of a binding."""
    return replace(site, wanted=part.variable.sort.text) if isinstance(part, tree.Binding) and below is part.term else site


def text_at(source: str, place: Place) -> str:
    """The text of a part."""
    return source[place.offset:place.end]
