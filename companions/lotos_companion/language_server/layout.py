"""The layout of a text: how far each line is indented, and no blanks behind it. No token and no comment changes."""
from __future__ import annotations

from dataclasses import dataclass
from enum import Enum
from typing import Dict, List, Optional, Set

from ..language.tokens import Kind, NoToken, Token, tokens

STEP = 2
OPENING = {"specification": "endspec", "process": "endproc", "type": "endtype", "library": "endlib"}
CLOSING = frozenset(OPENING.values())
# The words that stand as far left as the definition that they belong to, and those of the sections of a type.
OUTER = frozenset(("behaviour", "behavior", "where"))
SECTIONS = frozenset(("formalsorts", "formalopns", "formaleqns", "sorts", "opns", "eqns", "sortnames", "opnnames"))
# What stands between two lines of one item: behind the first, or before the second.
GOES_ON_BEHIND = frozenset((",", "->", ":", "for", "of", "=", "=>", "forall"))
GOES_ON_BEFORE = frozenset((",", "->", ":", "for", "of", "=", "=>", "forall", ")", "]"))


def laid_out(text: str) -> Optional[str]:
    """The text in its layout, or nothing where a comment does not end or a letter begins no token. The lines of a behaviour keep
    their indentation against its first line, and those of a comment against the line in which it begins."""
    try:
        listed = list(tokens(text, with_comments=True))
    except NoToken:
        return None
    by_line: Dict[int, List[Token]] = {}
    within: Set[int] = set()
    for token in listed:
        by_line.setdefault(token.place.line, []).append(token)
        within.update(range(token.place.line + 1, token.place.line + token.text.count("\n") + 1))
    layout, made = _Layout(), []
    for number, line in enumerate(text.split("\n"), 1):
        here = by_line.get(number, [])
        if number in within:
            made.append(line)
        else:
            first = next((it for it in here if it.kind is not Kind.COMMENT), None) or _next_word(by_line, number)
            made.append(layout.line(line, first, bool(here)))
        for token in here:
            layout.follow(token)
    return "\n".join(made)


def _next_word(by_line: Dict[int, List[Token]], number: int) -> Optional[Token]:
    """The first word behind a line that has none: a comment stands as what follows it."""
    later = sorted(it for it in by_line if it > number)
    return next((token for it in later for token in by_line[it] if token.kind is not Kind.COMMENT), None)


def _width(line: str) -> int:
    """How far a line is indented; a tab reaches to the next eighth column."""
    blanks = line[:len(line) - len(line.lstrip(" \t\r"))]
    return len(blanks.replace("\r", "").expandtabs(8))


class _Next(Enum):
    """What may come next among equations: an equation begins, its sort or its variables are told, or it goes on."""

    EQUATION = "an equation"
    SORT = "the sort of the equations"
    VARIABLES = "variables"
    SORT_OF_VARIABLES = "the sort of variables"
    REST = "the rest of an equation"


@dataclass
class _Block:
    """A definition, type or mention of libraries that is open: the word that ends it, and how far it is indented; for a type, how
    far what stands in its section is, and what comes next."""

    closing: str
    indent: int
    section: str = ""
    inner: int = 0
    next: _Next = _Next.REST


class _Layout:
    """The layout, line by line: what is open, the word before, and how far the lines of a behaviour are moved."""

    def __init__(self) -> None:
        self._blocks: List[_Block] = []
        self._before: Optional[Token] = None
        self._brackets = 0
        self._shift = 0
        self._indent = 0

    def line(self, line: str, first: Optional[Token], has_tokens: bool) -> str:
        """A line in its layout, where this is its first word, or the first one behind a comment."""
        if not has_tokens:
            return ""
        old = _width(line)
        wanted = self._wanted(first) if first else None
        if wanted is not None:
            self._shift = wanted - old
        self._indent = max(old + self._shift, 0)
        return " " * self._indent + line.strip(" \t\r")

    def follow(self, token: Token) -> None:
        """Follows what a token opens and ends."""
        if token.kind is Kind.COMMENT:
            return
        word = _word(token)
        if word in OPENING:
            self._blocks.append(_Block(OPENING[word], self._indent))
            self._brackets = 0
        elif word in CLOSING:
            while self._blocks and self._blocks.pop().closing != word:
                continue
            self._brackets = 0
        elif self._is_in_type:
            self._follow_in_type(self._blocks[-1], word, token)
        self._brackets += {"(": 1, "[": 1, "|[": 1, ")": -1, "]": -1, "]|": -1}.get(token.text, 0)
        self._before = token

    def _follow_in_type(self, block: _Block, word: str, token: Token) -> None:
        if word in SECTIONS or word == "ofsort":
            block.section = word if word in SECTIONS else block.section
            block.inner = self._indent + STEP
            block.next = _Next.SORT if word == "ofsort" else _Next.REST
        elif word == "forall" or token.text == "," and block.next is _Next.EQUATION:
            block.next = _Next.VARIABLES
        elif block.next is _Next.VARIABLES:
            block.next = _Next.SORT_OF_VARIABLES if token.text == ":" else _Next.VARIABLES
        elif block.next in (_Next.SORT, _Next.SORT_OF_VARIABLES) or token.text == ";":
            block.next = _Next.EQUATION
        else:
            block.next = _Next.REST

    @property
    def _is_in_type(self) -> bool:
        return bool(self._blocks) and self._blocks[-1].closing == "endtype"

    def _wanted(self, first: Token) -> Optional[int]:
        """The indentation of a line that begins with this word, or nothing where it goes on with what stands before it."""
        word = _word(first)
        if word in CLOSING:
            return next((it.indent for it in reversed(self._blocks) if it.closing == word), None)
        if self._is_in_type:
            return self._wanted_in_type(self._blocks[-1], word, first)
        indent = self._blocks[-1].indent if self._blocks else -STEP
        if word in OUTER:
            return max(indent, 0)
        begins = self._before is not None and (self._before.text == ":=" or _word(self._before) in ("behaviour", "behavior"))
        return indent + STEP if word in OPENING or begins else None

    def _wanted_in_type(self, block: _Block, word: str, first: Token) -> Optional[int]:
        if word in SECTIONS:
            return block.indent + STEP
        if word == "ofsort":
            return block.indent + 2 * STEP
        before = self._before.text.lower() if self._before else ""
        if not block.section or self._brackets > 0 or before in GOES_ON_BEHIND or first.text.lower() in GOES_ON_BEFORE:
            return None
        if block.section.endswith("eqns"):
            return block.inner if block.next is _Next.EQUATION else None
        return block.inner


def _word(token: Token) -> str:
    """A reserved word, in small letters, or nothing."""
    return token.key if token.kind is Kind.RESERVED else ""
