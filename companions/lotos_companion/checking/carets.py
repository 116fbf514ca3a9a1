"""A line of a text with a mark below a part of it, as a terminal shows both: tabs, wide letters and bytes that are no UTF-8."""
from __future__ import annotations

import unicodedata
from typing import List, Tuple

from ..output import visible

WIDTH = 100
TAB = 8


def caret_lines(line: bytes, begin: int, end: int) -> Tuple[str, str]:
    """The line as it is shown, and a line with `^` below its bytes from `begin` to `end`, from 0; one at least. Of a long
    line the part around the mark."""
    text = line.rstrip(b"\r").decode("utf-8", "surrogateescape")
    shown: List[str] = []
    place, at, marked = 0, 0, [-1, -1]
    for letter in text:
        if marked[0] < 0 <= at - begin:
            marked[0] = place
        if marked[1] < 0 <= at - end:
            marked[1] = place
        shown.append(" " * (TAB - place % TAB) if letter == "\t" else visible(letter))
        place += _columns(shown[-1])
        at += len(letter.encode("utf-8", "surrogateescape"))
    first = marked[0] if marked[0] >= 0 else place
    last = marked[1] if marked[1] >= 0 else place
    return _window("".join(shown), first, max(last, first + 1))


def _columns(text: str) -> int:
    """The columns that a text takes on a terminal."""
    return sum(0 if unicodedata.combining(it) else 2 if unicodedata.east_asian_width(it) in "WF" else 1 for it in text)


def _window(text: str, first: int, last: int) -> Tuple[str, str]:
    """The part of a line around its mark, and the line with the mark."""
    if _columns(text) <= WIDTH:
        return text, " " * first + "^" * (last - first)
    begin = max(0, first - WIDTH // 2)
    head = ".." if begin else ""
    place, part = 0, []
    for letter in text:
        if begin <= place < begin + WIDTH:
            part.append(letter)
        elif place < begin < place + _columns(letter):
            part.append(" ")  # The half of a wide letter.
        place += _columns(letter)
    marks = "^" * (min(last, begin + WIDTH) - first)
    return head + "".join(part) + (".." if place > begin + WIDTH else ""), " " * (len(head) + first - begin) + marks
