"""What stands at the place of a refusal by a limit: how much there is, what takes most of it, and changes where one can be tried.

Such a text may be long or deep, so that it is read by its words alone.
"""
from __future__ import annotations

import re
from collections import Counter
from dataclasses import dataclass
from typing import Callable, Dict, Iterator, List, Optional, Tuple

from ..language.tokens import Kind as TokenKind
from ..language.tokens import Token
from .places import tokens_of
from .report import Report
from .sources import Edit, place_at
from .texts import SHIPPED_PREFIX
from .trees import read_trees
from .trying import Candidate

TOO_LONG, TOO_DEEP, LIBRARIES, TOO_LARGE = 103, 105, 106, 214
LONGEST = 1_048_576
MOST_TYPES, MOST_LIBRARIES = 3, 12
COMMENT = re.compile(r"\(\*.*?\*\)", re.S)
TYPE = re.compile(r"\btype\s+([A-Za-z0-9_]+).*?\bendtype\b", re.S | re.I)
# What opens a construct that what follows stands in, and what ends those that are open.
OPENING, ENDING = (";", "->", "in", ">>"), ("[]", "|||", "||", "]|", "[>")
DEFINITIONS = ("specification", "process", "type")


class LimitHelp:
    """What is told where a limit is passed, and the changes."""

    def __init__(self, report: Report):
        assert report.outcome.refusal and report.span
        self._sources = report.sources
        self._number = report.outcome.refusal.number
        self._text = report.span.begin.text
        self._offset = report.sources.offset(report.span.begin)
        self._bytes = report.sources.read(self._text) or b""
        self._tokens = tokens_of(self._bytes) if self._number != TOO_LONG else []

    def lines(self) -> List[str]:
        """What stands there."""
        makers: Dict[int, Callable[[], Iterator[str]]] = {
            TOO_LONG: self._length, TOO_DEEP: self._depth, LIBRARIES: self._libraries, TOO_LARGE: self._count}
        return list(makers[self._number]())

    def candidates(self) -> Iterator[Candidate]:
        """The changes."""
        if self._number == LIBRARIES:
            yield from self._without_library()
        elif self._number == TOO_LARGE:
            yield from self._with_argument()

    # ---- A text that is too long ----

    def _length(self) -> Iterator[str]:
        """The bytes of the text, and those of its types."""
        yield f"it has {len(self._bytes):,} bytes, {len(self._bytes) - LONGEST:,} more than the limit"
        source = COMMENT.sub(lambda it: " " * len(it[0]), self._bytes.decode("latin-1"))
        types = [(it.end() - it.start(), it[1], it.start(1)) for it in TYPE.finditer(source)]
        if types:
            yield f"{_many(len(types), 'type')} of it have {sum(size for size, _, _ in types):,} bytes, the longest:"
            for size, name, offset in sorted(types, key=lambda it: (-it[0], it[2]))[:MOST_TYPES]:
                yield f"  {name} at {self._place(offset)} has {size:,} bytes"
        else:
            yield "it has no types that could be moved"

    # ---- What is too deep ----

    def _depth(self) -> Iterator[str]:
        """The definition around the place, and what is open there."""
        tokens = [it for it in self._tokens if it.place.offset <= self._offset]
        around = _around(tokens)
        if around:
            yield f"it stands in the {around[0].key} {around[1].text} at {self._place(around[1].place.offset)}"
        opened = _opened(tokens[tokens.index(around[1]):] if around else tokens)
        if opened:
            shown = ", ".join(f"{count} times {sign}" for sign, count in opened.most_common())
            yield f"what it stands in opens, by the signs before it: {shown}"

    # ---- Too many libraries ----

    def _libraries(self) -> Iterator[str]:
        """How many libraries each text mentions, and which nobody uses."""
        trees = read_trees(self._sources)
        for text in trees.texts[:1]:
            names = [it.name for it in text.names if it.kind.value == "library"]
            yield f"{text.text} mentions {_many(len(names), 'library', 'libraries')}; those that they mention count too"
        unused = self._unused()
        if unused:
            shown = ", ".join(unused[:MOST_LIBRARIES])
            yield f"of these no other text uses a name: {shown}" + (f" and {len(unused) - MOST_LIBRARIES} more" if len(
                unused) > MOST_LIBRARIES else "")

    def _unused(self) -> List[str]:
        """The libraries that declare no name that another text uses: that of the place first, then the later mentioned first."""
        texts = read_trees(self._sources).texts
        used = {text.text: {it.key for it in text.names if not it.declares and it.kind.value != "library"} for text in texts}
        found = []
        for text in reversed(texts[1:]):
            others = set().union(*(names for name, names in used.items() if name != text.text))
            if not others & {it.key for it in text.names if it.declares}:
                found.append(text.text[:-len(".lib")] if text.text.endswith(".lib") else text.text[len(SHIPPED_PREFIX):])
        here = next((it for it in self._tokens if it.place.offset == self._offset), None)
        return sorted(found, key=lambda it: here is None or it.lower() != here.key)

    def _without_library(self) -> Iterator[Candidate]:
        """The specification without the mention of a library that nobody uses."""
        text = self._sources.specification
        tokens = tokens_of(self._sources.read(text) or b"")
        for name in self._unused():
            for at, token in enumerate(tokens):
                if token.key == name.lower() and _is_mention(tokens, at):
                    is_first = tokens[at - 1].text != ","
                    begin = token.place.offset if is_first else tokens[at - 1].place.offset
                    end = tokens[at + 1].place.end if is_first and tokens[at + 1].text == "," else token.place.end
                    yield Candidate(f"the mention of {name} left out", (Edit(text, begin, end, b""),))
                    break

    # ---- Too much data ----

    def _count(self) -> Iterator[str]:
        """The types that declare most, and the longest list."""
        types = _sizes(self._tokens)
        for it in sorted(types, key=lambda one: (-one.all, one.name.place.offset))[:MOST_TYPES]:
            yield (f"the type {it.name.text} at {self._place(it.name.place.offset)} declares {_many(it.sorts, 'sort')}, "
                   f"{_many(it.operations, 'operation')} and {_many(it.equations, 'equation')} itself")
        longest = self._longest_list()
        if longest:
            yield (f"the longest list has {_many(len(longest[0]), 'operation')}, from {longest[0][0].text} at "
                   f"{self._place(longest[0][0].place.offset)} to {longest[0][-1].text}")

    def _longest_list(self) -> Optional[Tuple[List[Token], List[Token]]]:
        """The longest list of operations with one profile, and the words of the profile."""
        lists = list(_lists(self._tokens))
        return max(lists, key=lambda it: len(it[0])) if lists else None

    def _with_argument(self) -> Iterator[Candidate]:
        """A list of constants as one operation of a number."""
        longest = self._longest_list()
        if longest and longest[1][0].text == "->" and len(longest[0]) > 1:
            names, profile = longest
            new = re.sub(r"[0-9_]+$", "", names[0].text) or names[0].text
            edit = Edit(self._text, names[0].place.offset, profile[-1].place.end, f"{new} : Nat -> {profile[-1].text}".encode("latin-1"))
            yield Candidate(f"{new} : Nat -> {profile[-1].text} for the list of {_many(len(names), 'constant')}", (edit,))

    def _place(self, offset: int) -> str:
        return str(place_at(self._text, self._bytes, offset))


@dataclass
class Size:
    """What a type declares itself."""

    name: Token
    sorts: int = 0
    operations: int = 0
    equations: int = 0

    @property
    def all(self) -> int:
        """All of it."""
        return self.sorts + self.operations + self.equations


def _sizes(tokens: List[Token]) -> List[Size]:
    """What each type of a text declares, by its signs."""
    found: List[Size] = []
    section = ""
    for before, it in zip([tokens[0], *tokens], tokens):
        if before.key == "type" and it is not before:
            found.append(Size(it))
            section = ""
        elif it.key.replace("formal", "") in ("sorts", "opns", "eqns"):
            section = it.key.replace("formal", "")
            if section == "sorts" and found:
                found[-1].sorts += 1
        elif it.key == "endtype":
            section = ""
        elif found and section == "sorts" and it.text == ",":
            found[-1].sorts += 1
        elif found and section == "eqns" and it.text == "=":
            found[-1].equations += 1
    for names, _ in _lists(tokens):
        owner = [it for it in found if it.name.place.offset < names[0].place.offset]
        if owner:
            owner[-1].operations += len(names)
    return found


def _lists(tokens: List[Token]) -> Iterator[Tuple[List[Token], List[Token]]]:
    """Each list of operations behind opns, with the words of its profile from the arguments on."""
    is_inside, at = False, 0
    names: List[Token] = []
    while at < len(tokens):
        it = tokens[at]
        if it.key in ("opns", "formalopns"):
            is_inside, names = True, []
        elif it.kind is TokenKind.RESERVED and it.text != "->":
            is_inside = False
        elif is_inside and it.text == ":":
            arrow = next((number for number in range(at, len(tokens)) if tokens[number].text == "->"), len(tokens) - 2)
            yield names, tokens[at + 1:arrow + 2]
            at, names = arrow + 1, []
        elif is_inside and it.text not in (",", "_"):
            names.append(it)
        at += 1


def _around(tokens: List[Token]) -> Optional[Tuple[Token, Token]]:
    """The word and the name of the innermost definition that is open at the end of these."""
    stack: List[Tuple[Token, Token]] = []
    for before, it in zip(tokens, tokens[1:]):
        if before.key in DEFINITIONS:
            stack.append((before, it))
        elif it.key in ("endproc", "endtype") and stack:
            stack.pop()
    return stack[-1] if stack else None


def _opened(tokens: List[Token]) -> "Counter[str]":
    """How often each sign opens something that the end of these stands in: of brackets those of terms alone."""
    levels: "List[Counter[str]]" = [Counter()]
    for before, it in zip(tokens, tokens[1:]):
        if it.text == "(":
            levels.append(Counter({"(": 1} if before.kind in (TokenKind.NAME, TokenKind.DIGIT_NAME) else {}))
        elif it.text == ")" and len(levels) > 1:
            levels.pop()
        elif it.key in (":=", "behaviour", "behavior", "where", "eqns", "opns"):
            levels = [Counter()]
        elif it.text in ENDING:
            kept = {sign: count for sign, count in levels[-1].items() if sign in (*ENDING, "(")}
            levels[-1] = Counter({**kept, it.text: kept.get(it.text, 0) + 1})
        elif it.key in OPENING:
            levels[-1][it.key] += 1
    return sum(levels, Counter())


def _is_mention(tokens: List[Token], at: int) -> bool:
    """Whether a word stands between library and endlib."""
    words = [it.key for it in tokens[:at] if it.key in ("library", "endlib")]
    return bool(words) and words[-1] == "library"


def _many(count: int, one: str, several: str = "") -> str:
    """A number with what it counts."""
    return f"{count:,} {one if count == 1 else several or one + 's'}"
