"""What a term that has no reading, or two, is made of: the least part without a reading, and the sorts of parts, as the program
answers questions about them."""
from __future__ import annotations

from typing import Dict, Iterator, List, Optional, Tuple

from ..language import tree
from .names import Kind
from .report import Report
from .sites import Site, find_site, text_at, word_site
from .sources import WITH, Edit
from .trees import Trees
from .trying import Candidate, Trials

NO_READING, TWO_READINGS = 212, 213
MOST_GROUPED = 5


class NotAsked(Exception):
    """There were too many questions."""


class Readings:
    """The questions about the term of a refusal."""

    def __init__(self, trials: Trials, report: Report, trees: Trees, site: Site):
        self._trials = trials
        self._trees = trees
        self._site = site
        text = report.sources.word(site.word) if site.word else report.sources.read(site.text)
        self._source = (text or b"").decode("latin-1")
        self._known: Dict[Tuple[str, str], bool] = {}

    @property
    def name(self) -> str:
        """The name at the head of the term."""
        return self._site.term.name.text

    def least(self, term: Optional[tree.Term] = None) -> Optional[tree.Term]:
        """The least part without a reading, the earliest first; nothing where the whole has one."""
        term = term or self._site.term
        for it in term.arguments:
            found = self.least(it)
            if found is not None:
                return found
        is_plain = not term.arguments and not term.marks
        return None if is_plain or self.has_reading(term) else term

    def has_reading(self, term: tree.Term, sort: str = "") -> bool:
        """Whether a term has a reading at the place, of any sort or of the given one."""
        text = text_at(self._source, term.place)
        if (text, sort) not in self._known:
            self._known[text, sort] = self._ask(text, sort)
        return self._known[text, sort]

    def _ask(self, text: str, sort: str) -> bool:
        if self._trials.is_over:
            raise NotAsked
        edit, (begin, end) = self._site.question(self._source, text, sort)
        outcome = self._trials.outcome((edit,))
        it = outcome.refusal
        if it is None or it.at is None or it.at.text != self._site.place_of_question or it.number == TWO_READINGS:
            return True
        offset = self._trials.offset((edit,), it.at)
        return not begin <= offset < end

    def sorts(self, term: tree.Term) -> List[str]:
        """The sorts of a term's readings, among those that its variable or operation is declared with."""
        return [it for it in self._candidates(term) if self.has_reading(term, it)]

    def _candidates(self, term: tree.Term) -> List[str]:
        """The sorts that a term may have: those that are declared with its name, and those that renamings make."""
        found = {it.lower(): it for it in self._declared_sorts(term)}
        return list(found.values())

    def _declared_sorts(self, term: tree.Term) -> Iterator[str]:
        for text in self._trees.texts:
            for it in text.variables:
                if it.name.key == term.name.key and not term.arguments:
                    yield it.sort.text
            for line in text.lines:
                if any(it.name.key == term.name.key for it in line.operations):
                    yield line.result.text
        yield from (it.name for _, it in self._trees.declared(Kind.SORT) if it.is_pair)

    def lines(self) -> Iterator[str]:
        """What stands at the place of a term without a reading."""
        part = self.least()
        if part is None:
            yield from self._wanted_lines()
            return
        if part is not self._site.term:
            yield f"the least part without a reading is {self._text(part)}"
        for it in part.arguments:
            yield f"{self._text(it)} is of sort {' or '.join(self.sorts(it)) or 'another name'}, by the program's answer to it alone"
        yield from profiles(self._trees, part.name.text)

    def _wanted_lines(self) -> Iterator[str]:
        """What stands there where the term has a reading, but of another sort."""
        sorts = self.sorts(self._site.term)
        if sorts:
            yield f"{self._text(self._site.term)} is of sort {' or '.join(sorts)}, by the program's answer to it alone"
        condition = self._site.condition
        other = condition and condition.right and (
            condition.right if condition.left == self._site.term else condition.left)
        if other:
            yield f"{self._text(other)} is of sort {' or '.join(self.sorts(other)) or 'another name'}: two sides need one sort"
        elif self._site.wanted:
            yield f"its place wants the sort {self._site.wanted}"

    def _text(self, term: tree.Term) -> str:
        return " ".join(text_at(self._source, term.place).split())

    def marked(self) -> Iterator[Candidate]:
        """For a term with two readings: the term with each sort behind `of`."""
        text = text_at(self._source, self._site.term.place)
        for sort in self.sorts(self._site.term):
            edit = Edit(self._site.text, self._site.term.place.offset, self._site.term.place.end,
                        f"({text} of {sort})".encode("latin-1"), self._site.word)
            yield Candidate(f"({text} of {sort}) for {text}", (edit,))

    def grouped(self) -> Iterator[Candidate]:
        """For each chain of infix operations: other brackets."""
        for term in self._chains(self._site.term):
            operands, names = self._chain(term)
            begin, end = term.arguments[0].place.offset, term.arguments[1].place.end
            old = " ".join(self._source[begin:end].split())
            for grouping in _groupings(operands, names):
                new = grouping[1:-1]
                if new != old:
                    yield Candidate(f"{new} for {old}", (Edit(self._site.text, begin, end, new.encode("latin-1"), self._site.word),))

    def _chains(self, term: tree.Term) -> Iterator[tree.Term]:
        """The terms that are chains of several infix operations without brackets."""
        below = list(term.arguments)
        if term.is_infix:
            operands, names = self._chain(term)
            if 2 <= len(names) <= MOST_GROUPED:
                yield term
            while below[0].is_infix and not self._is_bracketed(below[0]):
                below[:1] = below[0].arguments
        for it in below:
            yield from self._chains(it)

    def _chain(self, term: tree.Term) -> Tuple[List[str], List[str]]:
        """The operands of a chain of infix operations, and the operations between them. (Brackets round the whole are left.)"""
        left, right = term.arguments
        if left.is_infix and not self._is_bracketed(left):
            operands, names = self._chain(left)
        else:
            operands, names = [self._text(left)], []
        return [*operands, self._text(right)], [*names, term.name.text]

    def _is_bracketed(self, term: tree.Term) -> bool:
        """Whether an infix term stands in brackets."""
        return term.arguments[0].place.offset > term.place.offset


def _groupings(operands: List[str], names: List[str]) -> Iterator[str]:
    """A chain with brackets round each operation, in all ways; those that group to the right first."""
    if not names:
        yield operands[0]
        return
    for at in range(len(names)):
        for left in _groupings(operands[:at + 1], names[:at]):
            for right in _groupings(operands[at + 1:], names[at + 1:]):
                yield f"({left} {names[at]} {right})"


def profiles(trees: Trees, name: str) -> Iterator[str]:
    """The lines that declare operations of a name, with their places."""
    for text in trees.texts:
        for line in text.lines:
            for it in line.operations:
                if it.name.key == name.lower():
                    shown = f"_{it.name.text}_" if it.is_infix else it.name.text
                    sorts = ", ".join(sort.text for sort in line.arguments)
                    yield f"declared: {shown} : {sorts}{' ' if sorts else ''}-> {line.result.text} at {text.text}:{it.place}"


def readings_of(trials: Trials, report: Report, trees: Trees) -> Optional[Readings]:
    """The questions about the term at the place of a refusal, if there is one."""
    assert report.span
    at, sources = report.span.begin, report.sources
    site = None
    if at.text == WITH and trees.specification:
        word = (sources.word(at.line) or b"").decode("latin-1")
        site = word_site(at.line, word, trees.specification, sources.specification)
    for text in trees.texts:
        if text.text == at.text:
            site = find_site(text.text, text.root, sources.offset(at))
    return Readings(trials, report, trees, site) if site else None
