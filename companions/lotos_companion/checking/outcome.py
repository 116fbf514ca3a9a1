"""What the program answers to `check`: accepted, or a refusal with its number, place and detail."""
from __future__ import annotations

import re
from dataclasses import dataclass
from typing import Iterable, Optional, Tuple

from .sources import WITH, Place

REFUSED = re.compile(r"refused (\d{3}) ([A-Z]\w+)(?: at (.*)| (.*))?", re.S)
BEHIND_TEXT = re.compile(r":(\d+):(\d+)(?= |:|$)")
COUNTS = re.compile(r"wanted (\d+) given (\d+)")


@dataclass(frozen=True)
class Refusal:
    """A refusal as it is printed: `at` is its place, `also` that of a second equation, `detail` what stands behind."""

    number: int
    name: str
    at: Optional[Place]
    also: Optional[Place]
    detail: str


@dataclass(frozen=True)
class Outcome:
    """The answer of the program: its status, the lines that it printed, and the refusal if it is one."""

    status: int
    lines: Tuple[str, ...]
    refusal: Optional[Refusal] = None

    @property
    def is_accepted(self) -> bool:
        """Whether the specification is accepted."""
        return self.status == 0 and self.first.startswith("accepted ")

    @property
    def first(self) -> str:
        """The first line, empty where there is none."""
        return self.lines[0] if self.lines else ""

    @property
    def unread(self) -> str:
        """The name of a file that could not be read."""
        return self.first[len("cannot read "):] if self.status == 3 and self.first.startswith("cannot read ") else ""


def read_refusal(line: str, names: Iterable[str]) -> Optional[Refusal]:
    """A refusal from its line; `names` are those that a text may have, since a name may hold any signs."""
    found = REFUSED.fullmatch(line)
    if not found:
        return None
    number, name, placed, bare = int(found[1]), found[2], found[3], found[4] or ""
    if placed is None:
        return Refusal(number, name, None, None, bare)
    known = sorted({*names, WITH}, key=len, reverse=True)
    at, rest = _place(placed, known)
    also = None
    if number == 602 and rest.startswith(" with "):
        also, rest = _place(rest[len(" with "):], known)
        rest = rest[1:] if rest.startswith(":") else rest
    return Refusal(number, name, at, also, rest[1:])


def _place(text: str, known: Iterable[str]) -> Tuple[Optional[Place], str]:
    """The place that a text begins with, and what stands behind it."""
    for name in known:
        found = BEHIND_TEXT.match(text, len(name)) if text.startswith(name) else None
        if found:
            return Place(name, int(found[1]), int(found[2])), text[found.end():]
    found = re.match(r"(.*?):(\d+):(\d+)(?= |:|$)", text, re.S)
    if found:
        return Place(found[1], int(found[2]), int(found[3])), text[found.end():]
    return None, f" {text}"
