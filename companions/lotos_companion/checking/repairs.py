"""Changes that mend what is not misspelled: a missing sign, a mention, a gate that has to be handed on, an order file."""
from __future__ import annotations

import re
from typing import Callable, Dict, Iterator, List, Optional, Set, Tuple

from ..language import tree
from ..language.reading import NoGrammar, fitting
from ..language.tokens import Kind as TokenKind
from ..language.tokens import Token
from ..language.walking import all_of
from .doubles import of_list
from .misspelling import library_names
from .names import Kind
from .outcome import Refusal
from .places import tokens_of
from .report import Report
from .sources import LIBRARY_END, WITH, Edit, Sources
from .texts import SHIPPED_PREFIX
from .trees import Trees
from .trying import Candidate

MOST_INSERTED, MOST_NUMERAL = 8, 64
# What is missing most often.
OFTEN = (";", ")", "]", ",", "in", "->", "endproc", "endtype", "endspec", "endlib", "where", "=", ":", "[]", "(")


class Repairs:
    """The changes for one refusal, by its number."""

    def __init__(self, report: Report, trees: Trees):
        assert report.outcome.refusal and report.span
        self._sources: Sources = report.sources
        self._trees = trees
        self._refusal: Refusal = report.outcome.refusal
        self._text = report.span.begin.text
        self._word = report.span.begin.line if self._text == WITH else 0
        self._length = report.span.end.column - report.span.begin.column
        self._offset = self._sources.offset(report.span.begin)
        text = self._sources.word(self._word) if self._word else self._sources.read(self._text)
        self._source = (text or b"").decode("latin-1")
        self._tokens = tokens_of(text or b"")
        self._at = next((number for number, it in enumerate(self._tokens) if it.place.offset >= self._offset), len(self._tokens))

    @property
    def _token(self) -> Optional[Token]:
        return self._tokens[self._at] if self._at < len(self._tokens) else None

    def candidates(self) -> Iterator[Candidate]:
        """The changes."""
        makers: Dict[int, Callable[[], Iterator[Candidate]]] = {
            101: self._bad_byte, 102: self._open_comment, 104: self._syntax, 202: self._library,
            203: self._without_mention, 205: self._mention, 208: self._formal, 209: self._pair, 211: self._numeral_or_mention,
            301: self._gate, 304: self._gates_of_call, 306: self._boolean, 401: self._functionality, 402: self._guarded,
            501: self._other_form, 502: self._dropped_item}
        maker = makers.get(self._refusal.number)
        if maker:
            yield from maker()

    @property
    def is_numeral(self) -> bool:
        """Whether a number stands at the place."""
        return bool(self._token and re.fullmatch(r"[1-9]\d?", self._token.text) and int(self._token.text) <= MOST_NUMERAL)

    def evidence(self) -> Iterator[str]:
        """What stands at the place."""
        number = self._refusal.number
        if number == 104:
            words = self._fitting()
            if words:
                yield "by the grammar there may stand here: " + "  ".join(_shown(it) for it in words)
        elif number in (304, 305):
            for text in self._trees.texts:
                for heading in (it.heading for root in text.roots for it in all_of(tree.Process, root)):
                    if self._token and heading.name.key == self._token.key:
                        gates = ", ".join(it.text for it in heading.gates)
                        values = ", ".join(f"{it.name.text} : {it.sort.text}" for it in heading.parameters)
                        yield f"declared: {heading.name.text}[{gates}]({values}) at {text.text}:{heading.name.place}"
        elif number == 301 and self._trees.texts:
            names = self._gates()
            yield "gates of the definition around: " + (", ".join(names) or "none")
        elif number == 302 and self._trees.texts:
            names = [it.name for _, it in self._trees.declared(Kind.PROCESS)]
            yield "processes of the text: " + (", ".join(dict.fromkeys(names)) or "none")

    def _gates(self) -> List[str]:
        """The gates that are declared in the definition around the place."""
        found = [it for text, it in self._trees.declared(Kind.GATE)
                 if text == self._text and it.scope.offset <= self._offset < it.scope.end]
        inner = max((it.scope.offset for it in found), default=0)
        return list(dict.fromkeys(it.name for it in found if it.scope.offset == inner))

    def _bad_byte(self) -> Iterator[Candidate]:
        """The rest of the line put into a comment, or the letter left out."""
        end = self._offset + len(self._source[self._offset:].split("\n", 1)[0].rstrip())
        yield self._candidate("the rest of the line in a comment", self._offset, end, f"(* {self._source[self._offset:end]} *)")
        yield self._candidate("the letter left out", self._offset, self._offset + self._length, "")

    def _open_comment(self) -> Iterator[Candidate]:
        """A blank that parts what is no comment, or the end of the comment behind its line or behind the text."""
        if self._source.startswith("(*)", self._offset):
            yield self._candidate("a blank behind the ( of (*)", self._offset + 1, self._offset + 1, " ")
        end = self._offset + len(self._source[self._offset:].split("\n", 1)[0].rstrip())
        yield self._candidate("*) at the end of the line", end, end, " *)")
        yield self._candidate("*) at the end of the text", len(self._source), len(self._source), " *)")

    def _without_mention(self) -> Iterator[Candidate]:
        """A type without the mention at the place."""
        for text in self._trees.texts:
            for body in (it for root in text.roots for it in all_of(tree.Extension, root)) if text.text == self._text else ():
                for at, base in enumerate(body.bases):
                    if base.place.offset == self._offset:
                        begin, end = of_list([it.place for it in body.bases], at)
                        yield self._candidate(f"the mention of {base.text} left out", begin, end, "")

    def _syntax(self) -> Iterator[Candidate]:
        """A word or sign put in before the one that does not fit, or that one left out."""
        words = self._fitting()
        wanted = [it for it in OFTEN if it in words] + [it for it in words if it not in OFTEN and it not in NO_WORDS]
        begin = self._tokens[self._at - 1].place.end if self._at else 0
        for it in wanted[:MOST_INSERTED]:
            new = it if it in (";", ",", ")", "]") else f" {it} "
            yield self._candidate(f"{it} put in before {self._shown()}", begin, begin, new)
        if self._token:
            yield self._candidate(f"{self._shown()} left out", self._token.place.offset, self._token.place.end, "")
        yield from self._condition_before()

    def _condition_before(self) -> Iterator[Candidate]:
        """A condition behind a gate without an offer, put before the gate."""
        begin = next((number for number in range(self._at, 0, -1) if self._tokens[number:] and self._tokens[number].text == "["), 0)
        end = next((number for number in range(begin, len(self._tokens)) if self._tokens[number].text == "]"), 0)
        if begin and end and self._tokens[begin - 1].kind is TokenKind.NAME:
            gate, first, last = self._tokens[begin - 1], self._tokens[begin].place.offset, self._tokens[end].place.end
            new = f"{self._source[first:last]} -> {gate.text}"
            yield self._candidate(f"{new} for {self._source[gate.place.offset:last]}", gate.place.offset, last, new)

    def _shown(self) -> str:
        return self._token.text if self._token else "the end"

    def _fitting(self) -> Tuple[str, ...]:
        """The words and signs that may fit at the place, by the grammar."""
        starts = ("order",) if self._text == self._sources.order else ("specification", "items")
        start = starts[-1] if self._text.endswith(LIBRARY_END) else starts[0]
        try:
            return fitting(self._source, start)
        except NoGrammar:
            return ()

    def _library(self) -> Iterator[Candidate]:
        """The library of a type that is not there."""
        names = {it.lower(): it for it in library_names(self._sources)}
        if self._token and self._token.key in names:
            yield from self._with_library(names[self._token.key])

    def _with_library(self, name: str) -> Iterator[Candidate]:
        """The mention of a library, before the types of the specification."""
        text = self._sources.specification
        tokens = tokens_of(self._sources.read(text) or b"")
        place = next((it.place.offset for it in tokens if it.key in ("library", "type", "behaviour", "behavior")), None)
        if place is not None:
            edit = Edit(text, place, place, f"library {name} endlib ".encode("latin-1"))
            yield Candidate(f"library {name} endlib before the types", (edit,))

    def _boolean(self) -> Iterator[Candidate]:
        yield from self._with_library("Boolean")

    def _mention(self, kinds: Tuple[Kind, ...] = (Kind.SORT,)) -> Iterator[Candidate]:
        """The mention of a type that declares the name, in the type around the place; or of a library that does."""
        if self._token is None:
            return
        wanted = self._token.key
        around = self._type_around()
        declaring = [type_ for text in self._trees.texts for root in text.roots for type_ in all_of(tree.Type, root)
                     if any(it.key == wanted and it.scope.offset == type_.place.offset
                            for it in text.names if it.declares and it.kind in kinds)]
        for type_ in declaring:
            if around and type_.name.key != around.name.key:
                yield self._with_base(around, type_.name.text)
        if not declaring:
            for name in library_names(self._sources):
                yield from self._with_library(name)

    def _type_around(self) -> Optional[tree.Type]:
        """The type that the place stands in, if it is an extension."""
        for text in self._trees.texts:
            if text.text == self._text:
                for root in text.roots:
                    for it in all_of(tree.Type, root):
                        if it.place.offset <= self._offset < it.place.end and isinstance(it.body, tree.Extension):
                            return it
        return None

    def _with_base(self, type_: tree.Type, base: str) -> Candidate:
        """A type that mentions another one too."""
        assert isinstance(type_.body, tree.Extension)
        says = f"{base} mentioned by the type {type_.name.text}"
        if type_.body.bases:
            end = type_.body.bases[-1].place.end
            return self._candidate(says, end, end, f", {base}")
        end = next(it.place.end for it in self._tokens if it.key == "is" and it.place.offset > type_.name.place.offset)
        return self._candidate(says, end, end, f" {base}")

    def _numeral_or_mention(self) -> Iterator[Candidate]:
        """A number by `Succ`, or the mention of a type."""
        if self._token and self.is_numeral:
            count = int(self._token.text)
            new = "Succ(" * count + "0" + ")" * count
            yield self._candidate(f"{new} for {self._token.text}", self._token.place.offset, self._token.place.end, new)
        yield from self._mention((Kind.OPERATION,))

    def _gate(self) -> Iterator[Candidate]:
        """The gate handed on to the process around the place, in its heading and in the calls of it."""
        root = self._trees.specification
        around = [it for it in all_of(tree.Process, root) if it.place.offset <= self._offset < it.place.end] if root else []
        if not around or self._token is None:
            return
        heading = around[-1].heading
        gate = self._token.text
        edits = [self._with_gate(heading.name, heading.gates, gate)]
        edits += [self._with_gate(it.name, it.gates, gate) for it in all_of(tree.Call, root) if it.name.key == heading.name.key]
        yield Candidate(f"the gate {gate} handed on to {heading.name.text}, in its heading and its calls", tuple(edits))

    def _with_gate(self, name: tree.Name, gates: tree.Names, gate: str) -> Edit:
        """A list of gates with one more."""
        end = gates[-1].place.end if gates else name.place.end
        return Edit(self._text, end, end, (f", {gate}" if gates else f"[{gate}]").encode("latin-1"))

    def _gates_of_call(self) -> Iterator[Candidate]:
        """A gate more in a call, of those of the definition around, or the last one left out."""
        calls = all_of(tree.Call, self._trees.specification) if self._trees.specification else iter(())
        for it in calls:
            if it.name.place.offset == self._offset:
                given = [gate.key for gate in it.gates]
                for gate in self._gates():
                    if gate.lower() not in given:
                        edit = self._with_gate(it.name, it.gates, gate)
                        yield Candidate(f"the gate {gate} added to the call of {it.name.text}", (edit,))
                if len(it.gates) > 1:
                    begin, end = it.gates[-2].place.end, it.gates[-1].place.end
                    yield self._candidate(f"the gate {it.gates[-1].text} left out", begin, end, "")

    def _functionality(self) -> Iterator[Candidate]:
        """The functionality of a body where its definition declares another one."""
        begin = next((number for number in range(self._at, len(self._tokens))
                      if self._tokens[number].key in ("noexit", "exit")), None)
        if begin is None or self._token is None or self._token.kind is not TokenKind.NAME:
            return
        end = begin
        if self._tokens[begin].key == "exit" and self._tokens[begin + 1].text == "(":
            end = next(number for number in range(begin, len(self._tokens)) if self._tokens[number].text == ")")
        first, last = self._tokens[begin].place.offset, self._tokens[end].place.end
        for new in self._refusal.detail.split(" and "):
            if new != self._source[first:last]:
                yield self._candidate(f"{new} for {self._source[first:last]} behind {self._token.text}", first, last, new)

    def _pair(self) -> Iterator[Candidate]:
        """A pair for what is not filled: a name that the other texts declare, for the formal one."""
        types = self._types_here()
        if not types or not isinstance(types[0].body, tree.Actualisation):
            return
        end = self._source.rfind(self._source[types[0].place.end - len("endtype"):types[0].place.end], 0, types[0].place.end)
        word = "opnnames" if not types[0].body.renames.operations else ""
        actuals = {it.key for it in types[0].body.actuals}
        for text in self._trees.texts:
            for type_ in (it for root in text.roots for it in all_of(tree.Type, root) if it.name.key in actuals):
                for line in all_of(tree.OperationLine, type_):
                    for it in line.operations:
                        new = f"_{it.name.text}_" if it.is_infix else it.name.text
                        yield self._candidate(f"the pair {new} for {self._refusal.detail}", end, end,
                                              f"{word} {new} for {self._refusal.detail} ")

    def _formal(self) -> Iterator[Candidate]:
        """What is filled as formal in its type, or the type renamed in place of filled."""
        for type_ in self._types_here():
            assert isinstance(type_.body, tree.Actualisation)
            base = next(((text, it) for text in self._trees.texts for root in text.roots for it in all_of(tree.Type, root)
                         if it.name.key == type_.body.base.key), None)
            olds = {it.old.key for it in type_.body.renames.sorts}
            if base and isinstance(base[1].body, tree.Extension) and not base[0].text.startswith(SHIPPED_PREFIX):
                yield from _formal_sorts(base[0].text, base[1], olds, (self._sources.read(base[0].text) or b"").decode("latin-1"))
            words = [it for it in self._tokens if type_.place.offset <= it.place.offset < type_.place.end]
            begin = next(it.place.offset for it in words if it.key == "actualizedby")
            end = next((it.place.end for it in words if it.key == "using"), type_.body.actuals[-1].place.end)
            yield self._candidate(f"renamedby for {' '.join(self._source[begin:end].split())}", begin, end, "renamedby")

    def _types_here(self) -> List[tree.Type]:
        """The type around the place that fills another one."""
        types = [it for text in self._trees.texts if text.text == self._text for root in text.roots for it in all_of(tree.Type, root)]
        return [it for it in types if it.place.offset <= self._offset < it.place.end and isinstance(it.body, tree.Actualisation)]

    def _guarded(self) -> Iterator[Candidate]:
        """An internal event before a call."""
        yield self._candidate(f"i; before {self._shown()}", self._offset, self._offset, "i; ")

    def _other_form(self) -> Iterator[Candidate]:
        """An operation between its arguments, or not."""
        begin = self._offset
        if self._token:
            is_between = self._at and self._tokens[self._at - 1].text == "_"
            new = self._token.text if is_between else f"_{self._token.text}_"
            first, last = (begin - 1, self._token.place.end + 1) if is_between else (begin, self._token.place.end)
            yield self._candidate(f"{new} for {self._source[first:last]}", first, last, new)

    def _dropped_item(self) -> Iterator[Candidate]:
        """An item of the order file left out."""
        begin = self._source.rfind(";", 0, self._offset) + 1
        end = self._source.find(";", self._offset) + 1
        if end:
            yield self._candidate(f"{self._source[begin:end].strip()} left out", begin, end, "")

    def _candidate(self, says: str, begin: int, end: int, new: str) -> Candidate:
        return Candidate(says, (Edit(self._text, begin, end, new.encode("latin-1"), self._word),))


def _formal_sorts(text: str, type_: tree.Type, olds: Set[str], source: str) -> Iterator[Candidate]:
    """The sorts of a type that are filled, behind formalsorts."""
    assert isinstance(type_.body, tree.Extension)
    sorts = type_.body.sections.sorts or ()
    filled, others = [it for it in sorts if it.key in olds], [it for it in sorts if it.key not in olds]
    if filled and not type_.body.sections.formal_sorts:
        begin = max(it.start() for it in re.finditer(r"\bsorts\b", source[:sorts[0].place.offset], re.I))
        new = f"formalsorts {', '.join(it.text for it in filled)}" + (f" sorts {', '.join(it.text for it in others)}" if others else "")
        edit = Edit(text, begin, sorts[-1].place.end, new.encode("latin-1"))
        yield Candidate(f"{new} in the type {type_.name.text}", (edit,))


NO_WORDS = ("NAME", "DIGIT_NAME", "SIGN_NAME", "RELABEL", "$END")


def _shown(word: str) -> str:
    """A word or sign of the grammar, or what stands for all names."""
    return {"NAME": "a name", "DIGIT_NAME": "a name with digits first", "SIGN_NAME": "a name of signs", "$END": "the end"}.get(word, word)
