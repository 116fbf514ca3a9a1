"""Values that are too few or too many, in a call and behind `with`, where words may be parts of one term; and conditions of one
term where there is no sort `Bool`."""
from __future__ import annotations

import re
from itertools import product
from typing import Iterator, List, Sequence, Tuple

from ..language import tree
from ..language.walking import all_of
from .names import Kind
from .outcome import COUNTS
from .report import Report
from .sources import WITH, Edit
from .trees import Trees
from .trying import Candidate

SYNTAX, NO_READING, VALUE_COUNT, NO_BOOL, START_VALUES = 104, 212, 305, 306, 701
MOST_TERMS, MOST_CHOICES = 4, 8
SIGNS = re.compile(r"[#%&*+\-./<=>@\\^~{}]+|of|lt|le|eq")


class Counts:
    """The changes for a number of values that is not the wanted one, and for a condition of one term."""

    def __init__(self, report: Report, trees: Trees):
        assert report.outcome.refusal and report.span
        self._sources = report.sources
        self._trees = trees
        self._number, self._detail = report.outcome.refusal.number, report.outcome.refusal.detail
        self._text, self._offset = report.span.begin.text, report.sources.offset(report.span.begin)

    def candidates(self) -> Iterator[Candidate]:
        """The changes."""
        if self._number == VALUE_COUNT:
            yield from self._values_of_call()
        elif self._number in (NO_BOOL, NO_READING):
            yield from self._two_sides()
        elif self._number == START_VALUES:
            yield from self._start_values()
        elif self._number == SYNTAX and self._text == WITH:
            yield from self._joined_words()

    # ---- Terms of a sort ----

    def _constants(self, sort: str) -> Iterator[str]:
        """The constants of a sort, with the sort behind those that others are called like."""
        lines = [line for text in self._trees.texts for line in text.lines if not line.arguments]
        named = [(it.name, line.result.key) for line in lines for it in line.operations]
        for name, result in named:
            if result == sort.lower():
                is_alone = sum(other.key == name.key for other, _ in named) == 1
                yield name.text if is_alone else f"{name.text} of {sort}"

    def _variables(self) -> Iterator[tree.Variable]:
        """The variables that are declared before the place in the definition around it, the nearest first."""
        declared = [it for text, it in self._trees.declared(Kind.VARIABLE)
                    if text == self._text and it.scope.offset <= self._offset < it.scope.end and it.place.offset < self._offset]
        inner = max((it.scope.offset for it in declared), default=0)
        offsets = {it.place.offset for it in declared if it.scope.offset == inner}
        text = next(it for it in self._trees.texts if it.text == self._text)
        found = [it for it in text.variables if it.place.offset in offsets]
        return iter(sorted(found, key=lambda it: -it.place.offset))

    def _terms(self, sort: str) -> List[str]:
        """Terms of a sort for the place: variables, and then constants."""
        variables = [it.name.text for it in self._variables() if it.sort.key == sort.lower()]
        return list(dict.fromkeys([*variables, *self._constants(sort)]))[:MOST_TERMS]

    # ---- Calls ----

    def _values_of_call(self) -> Iterator[Candidate]:
        """Values more in a call, or one of them left out."""
        root = self._trees.specification
        call = next((it for it in all_of(tree.Call, root) if it.name.place.offset == self._offset), None) if root else None
        if call is None or root is None:
            return
        for heading in (it.heading for it in all_of(tree.Process, root) if it.heading.name.key == call.name.key):
            if len(heading.parameters) > len(call.values):
                yield from self._with_values(call, heading)
            elif len(heading.parameters) < len(call.values):
                yield from self._without_values(call, len(heading.parameters))

    def _with_values(self, call: tree.Call, heading: tree.Heading) -> Iterator[Candidate]:
        """The call with terms for what is missing: at the end, and where one is missing, at any place."""
        count = len(call.values)
        missing = heading.parameters[count:]
        for chosen in list(product(*(self._terms(it.sort.text) for it in missing)))[:MOST_CHOICES]:
            shown = ", ".join(chosen)
            new = f", {shown}" if count else f"({shown})"
            end = call.values[-1].place.end if count else call.place.end
            yield self._candidate(f"{shown} added to the values of {call.name.text}", end, end, new)
        if len(missing) == 1:
            for at, value in enumerate(call.values):
                for term in self._terms(heading.parameters[at].sort.text)[:2]:
                    begin = value.place.offset
                    yield self._candidate(f"{term} added as value {at + 1} of {call.name.text}", begin, begin, f"{term}, ")

    def _without_values(self, call: tree.Call, wanted: int) -> Iterator[Candidate]:
        """The call without its last values, and where one is too many, without any of the others."""
        places = [it.place for it in call.values]
        begin, end = places[wanted - 1].end if wanted else self._values_begin(call), places[-1].end if wanted else call.place.end
        yield self._candidate(f"{self._shown(places[wanted].offset, places[-1].end)} left out", begin, end, "")
        if len(places) == wanted + 1 and wanted:
            for at in range(wanted):
                shown = self._shown(places[at].offset, places[at].end)
                yield self._candidate(f"{shown} left out", places[at].offset, places[at + 1].offset, "")

    def _values_begin(self, call: tree.Call) -> int:
        """Where the bracket of the values of a call may stand."""
        source = (self._sources.read(self._text) or b"").decode("latin-1")
        return source.index("]", call.gates[-1].place.end) + 1 if call.gates else call.name.place.end

    # ---- Conditions ----

    def _two_sides(self) -> Iterator[Candidate]:
        """A condition of one term as one of two: the term and each constant of its sort."""
        for text in self._trees.texts:
            conditions = [it for root in text.roots for it in all_of(tree.Premiss, root)] if text.text == self._text else []
            for it in conditions:
                if it.right is None and self._offset in (it.left.place.offset, it.left.name.place.offset):
                    shown = self._shown(it.left.place.offset, it.left.place.end)
                    end = it.left.place.end
                    for constant in [term for sort in self._sorts(it.left) for term in self._constants(sort)][:MOST_CHOICES]:
                        yield self._candidate(f"{shown} = {constant} for {shown}", end, end, f" = {constant}")

    def _sorts(self, term: tree.Term) -> Iterator[str]:
        """The sorts that a term may have, by the declarations of its name."""
        if not term.arguments:
            yield from (it.sort.text for it in self._variables() if it.name.key == term.name.key)
        for text in self._trees.texts:
            for line in text.lines:
                if any(it.name.key == term.name.key for it in line.operations) and len(line.arguments) == len(term.arguments):
                    yield line.result.text

    # ---- Start values ----

    def _start_values(self) -> Iterator[Candidate]:
        """Words behind `with` put together, left out, or more of them."""
        counts, root = COUNTS.fullmatch(self._detail), self._trees.specification
        if counts is None or root is None:
            return
        wanted, words = int(counts[1]), list(self._sources.words.values or ())
        if len(words) > wanted:
            yield from self._joined_words()
            yield Candidate(f"{' '.join(_quoted(it) for it in words[wanted:])} left out", self._words(words[:wanted]))
            return
        missing = root.heading.parameters[len(words):wanted]
        for chosen in list(product(*(list(self._constants(it.sort.text))[:MOST_TERMS] for it in missing)))[:MOST_CHOICES]:
            yield Candidate(f"{' '.join(_quoted(it) for it in chosen)} added behind with", self._words([*words, *chosen]))

    def _joined_words(self) -> Iterator[Candidate]:
        """Words behind `with` put together that are parts of one term."""
        words = list(self._sources.words.values or ())
        groups = _groups(words)
        if groups != words:
            yield Candidate(f"{' '.join(_quoted(it) for it in groups)} behind with", self._words(groups))

    def _words(self, new: Sequence[str]) -> Tuple[Edit, ...]:
        """The edits that put these words behind `with`."""
        old = [(self._sources.word(number) or b"") for number in range(1, len(self._sources.words.values or ()) + 1)]
        wanted = [it.encode("utf-8", "surrogateescape") for it in new]
        count = max(len(old), len(wanted))
        pairs = zip(old + [b""] * (count - len(old)), wanted + [b""] * (count - len(wanted)))
        return tuple(Edit(WITH, 0, len(one), other, number) for number, (one, other) in enumerate(pairs, 1) if one != other)

    def _shown(self, begin: int, end: int) -> str:
        """A part of the text, in one line."""
        return " ".join((self._sources.read(self._text) or b"").decode("latin-1")[begin:end].split())

    def _candidate(self, says: str, begin: int, end: int, new: str) -> Candidate:
        return Candidate(says, (Edit(self._text, begin, end, new.encode("latin-1")),))


def _groups(words: Sequence[str]) -> List[str]:
    """The words put together where brackets are open between them, and around signs that stand alone."""
    found: List[str] = []
    is_open = False
    for it in words:
        is_sign = SIGNS.fullmatch(it) is not None
        if found and (is_open or is_sign):
            found[-1] += f" {it}"
        else:
            found.append(it)
        is_open = is_sign or found[-1].count("(") > found[-1].count(")")
    return found


def _quoted(word: str) -> str:
    """A word as it is typed."""
    return word if word.isalnum() else f"'{word}'"
