"""What is declared twice: where, and changes that leave one of the two out, give it another name, or mention the other's type."""
from __future__ import annotations

import re
from collections import defaultdict
from dataclasses import dataclass
from typing import Dict, Iterator, List, Sequence, Tuple

from ..language import tree
from ..language.tokens import Place
from ..language.walking import all_of
from .names import Kind
from .report import Report
from .sources import Edit
from .texts import SHIPPED_PREFIX
from .trees import TextTree, Trees
from .trying import Candidate

DOUBLE_TYPE, DOUBLE_SORT, DOUBLE_OPERATION = 201, 204, 206
KINDS = {DOUBLE_TYPE: (Kind.TYPE,), DOUBLE_SORT: (Kind.SORT,), DOUBLE_OPERATION: (Kind.OPERATION, Kind.VARIABLE)}
MOST_TOLD = 4
SECTION = re.compile(r"\b(formal)?(sorts|opns)\b")
EVERYWHERE = Place(0, 0, 0, 1 << 30)


@dataclass(frozen=True)
class Declared:
    """A sort or an operation where a type declares it: what tells it from others, its name, and the part of the text that has to
    go with it."""

    text: str
    type_: tree.Type
    key: Tuple[str, ...]
    name: tree.Name
    begin: int
    end: int

    @property
    def shown(self) -> str:
        """Its place, with its text."""
        return f"{self.text}:{self.name.place}"


class Doubles:
    """What helps where a type, a sort or an operation is declared twice."""

    def __init__(self, report: Report, trees: Trees):
        assert report.outcome.refusal and report.span
        self._sources = report.sources
        self._trees = trees
        self._number, self._detail = report.outcome.refusal.number, report.outcome.refusal.detail.lower()
        self._text, self._offset = report.span.begin.text, report.sources.offset(report.span.begin)
        self._names = {it.key for text in trees.texts for it in text.names}

    def lines(self) -> List[str]:
        """Where both are declared."""
        if self._number == DOUBLE_TYPE:
            return [f"{it.name.text} is declared at {text.text}:{it.name.place} too" for text, it in self._other_types()][:MOST_TOLD]
        found = []
        for group in self._groups():
            found.append(f"{group[0].name.text} is declared at {' and at '.join(it.shown for it in group)}")
        return found[:MOST_TOLD]

    def candidates(self) -> Iterator[Candidate]:
        """The changes."""
        if self._number == DOUBLE_TYPE:
            yield from self._of_type()
            return
        for group in self._groups():
            own = [it for it in group if not it.text.startswith(SHIPPED_PREFIX)]
            for it in sorted(own, key=lambda one: (not self._is_here(one.text, one.name), -one.begin)):
                yield from self._left_out(it, [other for other in group if other is not it])
                yield self._renamed(it.text, it.name, it.type_.place)

    # ---- Types ----

    def _of_type(self) -> Iterator[Candidate]:
        """Another name for the second type, or one of the two left out."""
        here = next(((text, it) for text, it in self._types() if self._is_here(text.text, it.name)), None)
        if here is None or here[0].text.startswith(SHIPPED_PREFIX):
            return
        text, type_ = here
        yield self._renamed(text.text, type_.name, type_.name.place)
        yield self._renamed(text.text, type_.name, EVERYWHERE)
        source = (self._sources.read(text.text) or b"").decode("latin-1")
        is_copy = any(it.body == type_.body for _, it in self._other_types())
        left_out = self._edit(f"this type {type_.name.text} left out", text.text, type_.place.offset, type_.place.end)
        mentions = [it for other, _ in self._other_types() for it in self._without_mention(other, text, source)]
        yield from [left_out, *mentions] if is_copy else [*mentions, left_out]

    def _types(self) -> Iterator[Tuple[TextTree, tree.Type]]:
        return ((text, it) for text in self._trees.texts for root in text.roots for it in all_of(tree.Type, root))

    def _other_types(self) -> List[Tuple[TextTree, tree.Type]]:
        """The types of the name at the place, but for the one that stands there."""
        return [(text, it) for text, it in self._types() if it.name.key == self._detail and not self._is_here(text.text, it.name)]

    def _without_mention(self, library: TextTree, text: TextTree, source: str) -> Iterator[Candidate]:
        """A text without the mention of a library."""
        for item in (it for root in text.roots for it in all_of(tree.Library, root)):
            for at, name in enumerate(item.names):
                if library.text.lower() in (f"{SHIPPED_PREFIX}{name.key}", f"{name.key}.lib"):
                    begin, end = of_list([it.place for it in item.names], at)
                    if len(item.names) == 1:
                        begin, end = item.place.offset, item.place.end
                    yield self._edit(f"the mention of the library {name.text} left out", text.text, begin, end)

    # ---- Sorts and operations ----

    def _groups(self) -> List[List[Declared]]:
        """What is declared more than once, that of the name that the refusal tells first."""
        by_key: Dict[Tuple[str, ...], List[Declared]] = defaultdict(list)
        for text, type_ in self._types():
            if isinstance(type_.body, tree.Extension):
                source = (self._sources.read(text.text) or b"").decode("latin-1").lower()
                made = _sorts if self._number == DOUBLE_SORT else _operations
                for it in made(text.text, type_, type_.body.sections, source):
                    by_key[it.key].append(it)
        groups = [it for it in by_key.values() if len(it) > 1]
        return sorted(groups, key=lambda it: not any(self._is_here(one.text, one.name) or one.name.key == self._detail for one in it))

    def _left_out(self, it: Declared, others: Sequence[Declared]) -> Iterator[Candidate]:
        """Without one of two declarations; and with the mention of the type that has the other one."""
        edit = Edit(it.text, it.begin, it.end, b"")
        yield Candidate(f"{it.name.text} at {it.shown} left out", (edit,))
        assert isinstance(it.type_.body, tree.Extension)
        mentioned = {it.type_.name.key, *(base.key for base in it.type_.body.bases)}
        for other in others:
            if other.type_.name.key not in mentioned:
                says = f"{it.name.text} at {it.shown} left out, and {other.type_.name.text} mentioned by the type {it.type_.name.text}"
                yield Candidate(says, (edit, self._mention(it, other.type_.name.text)))

    def _mention(self, it: Declared, base: str) -> Edit:
        """A type that mentions one more."""
        assert isinstance(it.type_.body, tree.Extension)
        if it.type_.body.bases:
            end = it.type_.body.bases[-1].place.end
            return Edit(it.text, end, end, f", {base}".encode("latin-1"))
        source = (self._sources.read(it.text) or b"").decode("latin-1").lower()
        end = source.index("is", it.type_.name.place.end) + len("is")
        return Edit(it.text, end, end, f" {base}".encode("latin-1"))

    def _renamed(self, text: str, name: tree.Name, inside: Place) -> Candidate:
        """Another name where it is declared, and where it is used inside a part of the text."""
        number = 2
        while f"{name.key}{number}" in self._names:
            number += 1
        new = f"{name.text}{number}"
        places = {name.place.offset: name.place}
        for it in (one for tree_ in self._trees.texts if tree_.text == text for one in tree_.names):
            is_inside = inside.offset <= it.place.offset < inside.end
            if is_inside and it.key == name.key and not it.declares and it.kind in KINDS[self._number]:
                places[it.place.offset] = it.place
        edits = tuple(Edit(text, it.offset, it.end, new.encode("latin-1")) for it in places.values())
        used = f" and used ({len(edits) - 1})" if len(edits) > 1 else ""
        return Candidate(f"{new} for {name.text} at {text}:{name.place}, where it is declared{used}", edits)

    def _is_here(self, text: str, name: tree.Name) -> bool:
        """Whether a name stands at the place of the refusal."""
        return text == self._text and name.place.offset <= self._offset < name.place.end

    def _edit(self, says: str, text: str, begin: int, end: int) -> Candidate:
        return Candidate(says, (Edit(text, begin, end, b""),))


def _sorts(text: str, type_: tree.Type, sections: tree.Sections, source: str) -> Iterator[Declared]:
    """The sorts that a type declares."""
    for names in (sections.formal_sorts or (), sections.sorts or ()):
        for at, name in enumerate(names):
            begin, end = of_list([it.place for it in names], at)
            begin = begin if len(names) > 1 else _section_begin(source, begin)
            yield Declared(text, type_, (name.key,), name, begin, end)


def _operations(text: str, type_: tree.Type, sections: tree.Sections, source: str) -> Iterator[Declared]:
    """The operations that a type declares."""
    for lines in (sections.formal_operations or (), sections.operations or ()):
        for line in lines:
            for at, it in enumerate(line.operations):
                begin, end = of_list([one.place for one in line.operations], at)
                if len(line.operations) == 1:
                    end = line.result.place.end
                    begin = begin if len(lines) > 1 else _section_begin(source, begin)
                key = (it.name.key, str(it.is_infix), *(sort.key for sort in line.arguments), line.result.key)
                yield Declared(text, type_, key, it.name, begin, end)


def of_list(places: Sequence[Place], at: int) -> Tuple[int, int]:
    """The part of a list with commas that has to go with one of its members."""
    if at > 0:
        return places[at - 1].end, places[at].end
    return places[0].offset, places[1].offset if len(places) > 1 else places[0].end


def _section_begin(source: str, end: int) -> int:
    """Where the word of the section stands, whose only member begins here."""
    return max((it.start() for it in SECTION.finditer(source, 0, end)), default=end)
