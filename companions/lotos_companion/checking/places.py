"""The part of a text that a refusal is about: the word or sign at its place, or more where the refusal says so."""
from __future__ import annotations

import re
from typing import Iterator, List, Optional

from ..language.tokens import NoToken, Token, tokens
from .outcome import COUNTS, Refusal
from .report import Span
from .sources import WITH, Place, Sources, place_at

BAD_BYTE, OPEN_COMMENT, START_VALUES = 101, 102, 701
EQUATIONS = (601, 602)
BEHIND_EQUATION = (";", "ofsort", "endtype")


def tokens_in(text: bytes) -> Iterator[Token]:
    """The tokens of a text up to the first place where there is none. (A character is a byte.)"""
    try:
        yield from tokens(text.decode("latin-1"))
    except NoToken:
        pass


def tokens_of(text: bytes) -> List[Token]:
    """The same in a list."""
    return list(tokens_in(text))


def span_at(sources: Sources, place: Optional[Place], number: int) -> Optional[Span]:
    """The part of its text that begins at a place. Nothing where the text cannot be read."""
    line = sources.line(place) if place else None
    if place is None or line is None:
        return None
    begin = place.column - 1
    if number == BAD_BYTE:
        end = begin + _letter_length(line, begin)
    elif number == OPEN_COMMENT:
        end = begin + 2
    elif number in EQUATIONS:
        return Span(place, _equation_end(sources, place))
    else:
        end = _word_end(sources, place, line)
    return Span(place, Place(place.text, place.line, end + 1))


def _equation_end(sources: Sources, place: Place) -> Place:
    """Where the equation ends that begins at a place."""
    text = sources.read(place.text) or b""
    offset = end = sources.offset(place)
    for token in tokens_in(text):
        if token.place.offset >= offset:
            if token.key in BEHIND_EQUATION:
                break
            end = token.place.end
    return place_at(place.text, text, end)


def refused_place(sources: Sources, refusal: Refusal) -> Optional[Place]:
    """The place of a refusal. One of the number of start values has none: then it is the first word too many, or the end."""
    counts = COUNTS.fullmatch(refusal.detail)
    if refusal.number == START_VALUES and counts:
        return Place(WITH, min(int(counts[1]), int(counts[2])) + 1, 1)
    return refusal.at


def _letter_length(line: bytes, begin: int) -> int:
    """The bytes of the letter that begins here: of one that is no UTF-8, one."""
    for length in range(1, 5):
        try:
            line[begin:begin + length].decode("utf-8")
        except UnicodeDecodeError:
            continue
        return length
    return 1


def _word_end(sources: Sources, place: Place, line: bytes) -> int:
    """Where the word or sign ends that begins at a place, in its line."""
    begin = place.column - 1
    text = line if place.text == WITH else sources.read(place.text) or b""
    offset = begin if place.text == WITH else sources.offset(place)
    for token in tokens_in(text):
        if token.place.offset == offset:
            return begin + len(token.text)
        if token.place.offset > offset:
            break
    found = re.compile(rb"[A-Za-z0-9_]+").match(line, begin)
    return found.end() if found else begin + 1
