"""A copy of a specification's texts whose `flatten` tells all equations, whether or not the program can use them.

Each equation `l = r` stands in the copy as `p(l, r) = ok`, with an operation `p` of its own that is declared in its type, so
that it goes through renamings and actualisations as the equation does. Such equations are turned by any order, and no two of
them lead apart. The libraries that come with the program are copied too, under names of their own.
"""
from __future__ import annotations

from dataclasses import dataclass, field
from typing import Dict, Iterator, List, Tuple

from ..checking.places import tokens_of
from ..checking.sources import LIBRARY_END, Place, Sources, place_at
from ..language import tree
from ..program import Words
from ..checking.texts import SHIPPED_KEYS, SHIPPED_PREFIX, Text, mentions, read_texts


@dataclass(frozen=True)
class Written:
    """An equation as it is written: its place, its tree, its text, and the number of the operation that marks it."""

    place: Place
    equation: tree.Equation
    text: str


@dataclass
class MarkedCopy:
    """The copy: its texts, the name that all fresh names begin with, and the equations by their numbers."""

    sources: Sources
    prefix: str
    equations: List[Written] = field(default_factory=list)

    def number(self, operation: str) -> int:
        """The number of the equation that this operation marks, or -1."""
        head = f"{self.prefix}p"
        return int(operation[len(head):]) if operation.lower().startswith(head) else -1


Insertion = Tuple[int, int, str]


def marked_copy(sources: Sources) -> MarkedCopy:
    """The copy of the texts."""
    texts = read_texts(sources)
    copy = MarkedCopy(sources, _fresh([it.text for it in texts]))
    given: Dict[str, bytes] = {}
    for number, it in enumerate(texts):
        changes = [change for type_ in it.types for change in _marked_type(copy, it, type_)]
        changes += [change for name in mentions(it) for change in _renamed_mention(copy, name)]
        if number == 0:
            changes.append(_mark_type(copy, it))
        given[_file(copy, it.name)] = _changed(it.text, changes).encode("latin-1")
    copy.sources = Sources(Words((sources.specification,)), given, sources.folder)
    return copy


def _fresh(texts: List[str]) -> str:
    """A word that is in none of the texts."""
    word = "q"
    while any(word in it.lower() for it in texts):
        word += "q"
    return word


def _file(copy: MarkedCopy, name: str) -> str:
    """The name of the file of a text in the copy."""
    if name.startswith(SHIPPED_PREFIX) and name[len(SHIPPED_PREFIX):].lower() in SHIPPED_KEYS:
        return copy.prefix + name[len(SHIPPED_PREFIX):] + LIBRARY_END
    return name


def _renamed_mention(copy: MarkedCopy, name: tree.Name) -> Iterator[Insertion]:
    """The mention of a library that comes with the program as that of its copy."""
    if name.key in SHIPPED_KEYS:
        new = copy.prefix + SHIPPED_KEYS[name.key][len(SHIPPED_PREFIX):]
        yield name.place.offset, name.place.end, new


def _mark_type(copy: MarkedCopy, text: Text) -> Insertion:
    """The type of the constant `ok`, before all others."""
    it = copy.prefix
    behaviour = next(token for token in tokens_of(text.text.encode("latin-1")) if token.key in ("behaviour", "behavior"))
    place = min([item.place.offset for item in text.items] + [behaviour.place.offset])
    return place, place, f"type {it}t is sorts {it}s opns {it}ok : -> {it}s endtype "


def _marked_type(copy: MarkedCopy, text: Text, type_: tree.Type) -> Iterator[Insertion]:
    """The changes of a type that has equations."""
    if not isinstance(type_.body, tree.Extension) or not type_.body.sections.equations:
        return
    sections, equations = type_.body.sections, type_.body.sections.equations
    profiles = []
    for group in equations.groups:
        yield group.sort.place.offset, group.sort.place.end, f"{copy.prefix}s"
        for equation in group.equations:
            if not equation.premisses:
                profiles.append(f"{copy.prefix}p{len(copy.equations)} : {group.sort.text}, {group.sort.text} -> {copy.prefix}s")
                yield from _marked_equation(copy, text, equation)
    begin = _begin(text, type_, "eqns")
    if profiles and sections.operations is None:
        profiles.insert(0, "opns")
    yield begin, begin, "".join(f"{it} " for it in profiles)
    bases = type_.body.bases
    if bases:
        yield bases[-1].place.end, bases[-1].place.end, f", {copy.prefix}t"
    else:
        end = _begin(text, type_, "is") + len("is")
        yield end, end, f" {copy.prefix}t"


def _marked_equation(copy: MarkedCopy, text: Text, equation: tree.Equation) -> Iterator[Insertion]:
    """The changes of an equation."""
    begin, end = equation.place.offset, equation.place.end
    sign = begin + next(it.place.offset for it in tokens_of(text.text[begin:end].encode("latin-1")) if it.text == "=")
    yield begin, begin, f"{copy.prefix}p{len(copy.equations)}("
    yield sign, sign + 1, ","
    yield end, end, f") = {copy.prefix}ok"
    place = place_at(text.name, text.text.encode("latin-1"), begin)
    copy.equations.append(Written(place, equation, " ".join(text.text[begin:end].split())))


def _begin(text: Text, type_: tree.Type, word: str) -> int:
    """Where a reserved word of a type stands."""
    begin, end = type_.place.offset, type_.place.end
    return begin + next(it.place.offset for it in tokens_of(text.text[begin:end].encode("latin-1")) if it.key == word)


def _changed(text: str, changes: List[Insertion]) -> str:
    """The text with the changes."""
    parts, last = [], 0
    for begin, end, new in sorted(changes, key=lambda it: (it[0], it[1])):
        parts += [text[last:begin], new]
        last = end
    return "".join(parts) + text[last:]
