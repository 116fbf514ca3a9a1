"""The tokens of a text in LOTOS, as `lotos` tells them apart, with their places and with the comments between them."""
from __future__ import annotations

import re
from dataclasses import dataclass
from enum import Enum
from typing import Iterator, List, Optional

from ..reserved_words import BEHAVIOURS, STRUCTURE, TYPES

# The words that no name may be, in any letter case.
RESERVED = frozenset(STRUCTURE + TYPES + BEHAVIOURS)
RESERVED_SIGNS = frozenset(("=", "=>", "->", ">>"))
BLANKS = re.compile(r"[ \t\r\n]+")
COMMENT_END = "*)"
SHAPES = re.compile(
    r"(?P<word>[A-Za-z](?:_*[A-Za-z0-9])*)"
    r"|(?P<digit_name>[0-9](?:_*[A-Za-z0-9])*)"
    r"|(?P<mark>\|\|\||\|\||\|\[|\[\]|\[>|:=)"
    r"|(?P<run>[#%&*+\-./<=>@\\^~{}]+)"
    r"|(?P<letter>[()\[\],;:!?_])")


class Kind(Enum):
    """What a token is. The words and marks that are reserved stand for themselves."""

    RESERVED = "a reserved word"
    NAME = "a name"
    DIGIT_NAME = "a name that begins with a digit"
    SIGN_NAME = "a name of signs"
    MARK = "a mark"
    COMMENT = "a comment"


@dataclass(frozen=True)
class Place:
    """Where something stands in a text: its first line and column, from 1, and the offsets of its begin and end, from 0.

    All of them count characters. (The program's own places count bytes: where comments hold other letters than those of
    ASCII its columns are larger.)
    """

    line: int
    column: int
    offset: int
    end: int

    def to(self, last: Place) -> Place:
        """The place from the begin of this one to the end of another."""
        return Place(self.line, self.column, self.offset, last.end)

    def __str__(self) -> str:
        return f"{self.line}:{self.column}"


@dataclass(frozen=True)
class Token:
    """A token: its kind, its text as it was written, and its place."""

    kind: Kind
    text: str
    place: Place

    @property
    def key(self) -> str:
        """The text without regard to the case of letters."""
        return self.text.lower()


class NoToken(Exception):
    """At a place of a text there begins no token, or a comment that does not end."""

    def __init__(self, place: Place, is_comment: bool):
        super().__init__(f"a comment without its end at {place}" if is_comment else f"no token begins at {place}")
        self.place = place
        self.is_comment = is_comment


class Lines:
    """The lines of a text, for places by their offsets, which are asked in rising order."""

    def __init__(self, text: str):
        self._text = text
        self._line, self._begin, self._end = 1, 0, text.find("\n")

    def place(self, offset: int, end: int) -> Place:
        """The place between two offsets."""
        while 0 <= self._end < offset:
            self._line, self._begin = self._line + 1, self._end + 1
            self._end = self._text.find("\n", self._begin)
        return Place(self._line, offset - self._begin + 1, offset, end)


def tokens(text: str, with_comments: bool = False) -> Iterator[Token]:
    """The tokens of a text. `NoToken` at the first place where there is none."""
    lines, offset = Lines(text), 0
    in_set = False  # Behind `|[`, up to the first `]`: there alone `]|` is one token.
    while True:
        blank = BLANKS.match(text, offset)
        offset = blank.end() if blank else offset
        if offset >= len(text):
            return
        token = _comment(text, offset, lines) or _token(text, offset, lines, in_set)
        offset = token.place.end
        if token.kind is not Kind.COMMENT:
            in_set = token.text == "|[" or in_set and "]" not in token.text
        elif not with_comments:
            continue
        yield token


def comments(text: str) -> List[Token]:
    """The comments of a text."""
    return [it for it in tokens(text, with_comments=True) if it.kind is Kind.COMMENT]


def _comment(text: str, offset: int, lines: Lines) -> Optional[Token]:
    """The comment that begins here."""
    if not text.startswith("(*", offset):
        return None
    end = text.find(COMMENT_END, offset + 2)
    if end < 0:
        raise NoToken(lines.place(offset, len(text)), True)
    end += len(COMMENT_END)
    return Token(Kind.COMMENT, text[offset:end], lines.place(offset, end))


def _token(text: str, offset: int, lines: Lines, in_set: bool) -> Token:
    """The token that begins here."""
    if in_set and text.startswith("]|", offset):
        return Token(Kind.MARK, "]|", lines.place(offset, offset + 2))
    found = SHAPES.match(text, offset)
    if not found:
        raise NoToken(lines.place(offset, offset + 1), False)
    place = lines.place(offset, found.end())
    return Token(_kind(found.lastgroup or "", found[0]), found[0], place)


def _kind(shape: str, text: str) -> Kind:
    if shape == "word":
        return Kind.RESERVED if text.lower() in RESERVED else Kind.NAME
    if shape == "run":
        return Kind.MARK if text in RESERVED_SIGNS else Kind.SIGN_NAME
    return Kind.DIGIT_NAME if shape == "digit_name" else Kind.MARK
