"""Changes of one name that may have been misspelled: at the place of a refusal, where it is declared, or near by."""
from __future__ import annotations

import os
from typing import Dict, Iterable, Iterator, List, Sequence, Tuple

from ..language.reading import has_grammar
from ..language.tokens import RESERVED, Token
from ..language.tokens import Kind as TokenKind
from .names import Kind, Occurrence
from .near import is_near, nearest, strangeness
from .outcome import Refusal
from .places import tokens_of
from .report import Report, span_of
from ..shipped import SHIPPED
from .sources import LIBRARY_END, WITH, Edit, Sources
from .texts import SHIPPED_PREFIX
from .trees import Trees
from .trying import Candidate

# What the name at the place of a refusal is of.
KINDS: Dict[int, Tuple[Kind, ...]] = {
    106: (Kind.LIBRARY,), 201: (Kind.TYPE,), 202: (Kind.TYPE,), 203: (Kind.TYPE,), 204: (Kind.SORT,), 205: (Kind.SORT,),
    206: (Kind.OPERATION,), 207: (Kind.OPERATION,), 208: (Kind.TYPE,), 209: (Kind.OPERATION, Kind.SORT),
    211: (Kind.VARIABLE, Kind.OPERATION), 301: (Kind.GATE,), 302: (Kind.PROCESS,), 303: tuple(Kind), 304: (Kind.PROCESS,),
    305: (Kind.PROCESS,), 402: (Kind.PROCESS,), 501: (Kind.OPERATION,), 502: (Kind.OPERATION,)}
SYNTAX, MISSING_ACTUAL = 104, 209
# The reserved words that stand where a name may, so that a misspelled one is read as a name.
BESIDE: Dict[int, Tuple[str, ...]] = {301: ("i", "stop", "exit"), 302: ("stop", "exit"), 503: ("left", "right")}
STEPS_BACK = 6


class Misspellings:
    """The changes of one name for a refusal, the likeliest first."""

    def __init__(self, report: Report, trees: Trees):
        assert report.outcome.refusal and report.span
        self._sources = report.sources
        self._trees = trees
        self._refusal: Refusal = report.outcome.refusal
        self._at = report.span.begin
        self._text = self._at.text
        self._offset = self._sources.offset(self._at)
        text = self._sources.word(self._at.line) if self._text == WITH else self._sources.read(self._text)
        self._tokens = tokens_of(text or b"")
        self._token = next((it for it in self._tokens if it.place.offset == self._offset), None)

    def near(self) -> List[str]:
        """The names that may be meant at the place."""
        return nearest(self._known(), self._token.text) if self._token and self._is_word(self._token) else []

    def candidates(self) -> Iterator[Candidate]:
        """The changes."""
        if self._refusal.number == SYNTAX:
            yield from self._words_before()
            return
        yield from self._here_and_where_declared()
        yield from self._around()

    def _here_and_where_declared(self) -> Iterator[Candidate]:
        """Another name at the place, or the name of the place where one is declared that nobody uses."""
        if self._token is None or not self._is_word(self._token):
            return
        wanted = self._token.text
        ranked = [(strangeness(it, wanted), number, 0, self._edit(self._token, it)) for number, it in enumerate(self.near())]
        declared = [(text, it) for text, it in self._unused() if is_near(it.name, wanted)]
        ranked += [(strangeness(it.name, wanted), number, 1, self._renamed(text, it, wanted))
                   for number, (text, it) in enumerate(declared)]
        if self._refusal.number == MISSING_ACTUAL:
            ranked += [(strangeness(new, it.name), 0, 0, self._renamed(text, it, new))
                       for text, it in self._trees.declared(*KINDS[MISSING_ACTUAL]) if it.key == self._refusal.detail.lower()
                       for new in nearest(self._names(*KINDS[MISSING_ACTUAL]), it.name)]
        yield from (it for _, _, _, it in sorted(ranked, key=lambda it: it[:3]))

    def _known(self) -> Iterable[str]:
        """The names that may stand at the place: first those of the scopes around it, and of them those that nobody uses."""
        number = self._refusal.number
        kinds = KINDS.get(number, ())
        yield from BESIDE.get(number, ())
        if kinds and not has_grammar():  # Then there are no trees.
            yield from (it.text for it in self._tokens if it.kind is TokenKind.NAME)
        scope = max((it.scope.offset for text, it in self._trees.declared(*Kind)
                     if text == self._text and it.scope.offset <= self._offset < it.scope.end), default=-1)
        declared = [(text == self._text and it.scope.offset == scope, it) for text, it in self._trees.declared(*kinds)]
        inner = [it for is_inside, it in declared if is_inside]
        yield from (it.name for it in sorted(inner, key=self._is_used))
        yield from (it.name for is_inside, it in declared if not is_inside and it.kind not in (Kind.VARIABLE, Kind.GATE))
        if Kind.LIBRARY in kinds:
            yield from library_names(self._sources)
        if number in (201, 204, 206, 303):
            yield from self._undeclared(kinds)

    def _is_used(self, declared: Occurrence) -> bool:
        """Whether a declared name is used in its scope."""
        return any(it.key == declared.key and it.scope == declared.scope for _, it in self._trees.used(*Kind))

    def _names(self, *kinds: Kind) -> Iterator[str]:
        """The names of these kinds, declared or used."""
        yield from (it.name for _, it in self._trees.declared(*kinds))
        yield from (it.name for _, it in self._trees.used(*kinds))

    def _undeclared(self, kinds: Sequence[Kind]) -> Iterator[str]:
        """The names of these kinds that are used and declared nowhere."""
        declared = {it.key for _, it in self._trees.declared(*Kind)}
        yield from (it.name for _, it in self._trees.used(*kinds) if it.key not in declared)

    def _unused(self) -> Iterator[Tuple[str, Occurrence]]:
        """Where names of the kinds of the refusal are declared, those first that nobody uses."""
        kinds = KINDS.get(self._refusal.number, ())
        used = {it.key for _, it in self._trees.used(*Kind)}
        found = [(text, it) for text, it in self._trees.declared(*kinds) if not text.startswith(SHIPPED_PREFIX)]
        return iter(sorted(found, key=lambda it: it[1].key in used))

    def _around(self) -> Iterator[Candidate]:
        """Other names in the equation or the event of the place: nearest ones first."""
        ranked = []
        for token in self._construct():
            kinds = {it.kind for text in self._trees.texts if text.text == self._text for it in text.names
                     if it.place.offset == token.place.offset}
            if kinds & {Kind.VARIABLE, Kind.OPERATION}:
                kinds |= {Kind.VARIABLE, Kind.OPERATION}
            names = [it.name for _, it in self._trees.declared(*kinds)]
            ranked += [(strangeness(it, token.text), abs(token.place.offset - self._offset), self._edit(token, it))
                       for it in nearest(names, token.text)]
        yield from (it for _, _, it in sorted(ranked, key=lambda it: it[:2]))

    def _construct(self) -> List[Token]:
        """The words from the last `;` or reserved word before the place to the next one behind it."""
        here = next((number for number, it in enumerate(self._tokens) if it.place.offset >= self._offset), 0)
        begin, end = here, here
        while begin > 0 and self._tokens[begin - 1].text != ";" and here - begin < 40:
            begin -= 1
        while end < len(self._tokens) and self._tokens[end].text != ";" and end - here < 40:
            end += 1
        return [it for it in self._tokens[begin:end] if self._is_word(it) and it.kind is not TokenKind.RESERVED]

    def _words_before(self) -> Iterator[Candidate]:
        """For what does not fit: reserved words in the place of names near to them, and names in that of reserved words."""
        here = next((number for number, it in enumerate(self._tokens) if it.place.offset >= self._offset), len(self._tokens))
        frequent = [it.text for it in self._tokens if it.kind is TokenKind.NAME]
        ranked = []
        for back, token in enumerate(reversed(self._tokens[max(0, here - STEPS_BACK):here + 1])):
            if self._is_word(token):
                words: Iterable[str] = frequent if token.kind is TokenKind.RESERVED else sorted(RESERVED)
                ranked += [(strangeness(it, token.text)[0], back, strangeness(it, token.text), self._edit(token, it))
                           for it in nearest(words, token.text)]
                if token.kind is TokenKind.RESERVED:
                    ranked += [(strangeness(it, token.text)[0], back, strangeness(it, token.text), self._edit(token, it))
                               for it in nearest(sorted(RESERVED), token.text)]
        yield from (it for _, _, _, it in sorted(ranked, key=lambda it: it[:3]))

    def _is_word(self, token: Token) -> bool:
        return token.kind in (TokenKind.NAME, TokenKind.DIGIT_NAME, TokenKind.RESERVED, TokenKind.SIGN_NAME)

    def _edit(self, token: Token, new: str) -> Candidate:
        """Another word in the place of a token."""
        word = self._at.line if self._text == WITH else 0
        edit = Edit(self._text, token.place.offset, token.place.end, new.encode("latin-1"), word)
        return Candidate(f"{new} for {token.text} at {_shown(self._sources, edit)}", (edit,))

    def _renamed(self, text: str, it: Occurrence, new: str) -> Candidate:
        """Another name where one is declared."""
        edit = Edit(text, it.place.offset, it.place.end, new.encode("latin-1"))
        return Candidate(f"{new} for {it.name} at {_shown(self._sources, edit)}, where it is declared", (edit,))


def library_names(sources: Sources) -> List[str]:
    """The libraries that can be mentioned."""
    files = [it[:-len(LIBRARY_END)] for it in os.listdir(sources.folder) if it.endswith(LIBRARY_END)]
    return [it[len(SHIPPED_PREFIX):] for it in SHIPPED] + sorted(files)


def unread_candidates(sources: Sources, unread: str) -> Iterator[Candidate]:
    """For a library that cannot be read: the mentions of others."""
    name = unread[:-len(LIBRARY_END)] if unread.endswith(LIBRARY_END) else unread
    for new in nearest(library_names(sources), name):
        for token in tokens_of(sources.read(sources.specification) or b""):
            if token.text == name:
                edit = Edit(sources.specification, token.place.offset, token.place.end, new.encode("latin-1"))
                yield Candidate(f"{new} for {name} at {_shown(sources, edit)}", (edit,))
                break


def _shown(sources: Sources, edit: Edit) -> str:
    """The place of an edit."""
    begin = span_of(sources, edit).begin
    return f"{begin.line}:{begin.column}" if begin.text == sources.specification else str(begin)
