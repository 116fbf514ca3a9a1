"""The program's fixed texts: how the answer to a line ends, and what a menu, an entry and a label are made of."""
from __future__ import annotations

import re
from dataclasses import dataclass
from enum import Enum
from functools import lru_cache
from typing import List, Optional, Tuple


class Ending(Enum):
    """How one tells where an answer ends, once its first line is there."""

    LINE = "the first line is the whole answer"
    MENU = "the first line is the head of a menu, and its entries follow"
    LINE_AND_MENU = "a menu follows the first line"
    MARK = "the answer says nothing of its end: a line that is always refused is asked behind it"


# The line that is asked where an answer does not tell its own end, and what the program answers to it.
MARK_LINE = "end-of-answer"
MARK_ANSWER = "refused 801 BadCommand"

# The lines whose answers are one line, and those whose answers are one line or end in a menu.
ONE_LINE = ("save", "show", "normal", "equal")
WITH_MENU = ("menu", "step", "undo", "replay")
MENU_FOLLOWS = re.compile(r"did .+|undone|replayed \d+")
MENU_HEAD = re.compile(r"events (\d+)")
REFUSAL = re.compile(r"refused (\d{3}) [A-Z][A-Za-z]+( .*)?")


def tells_its_end(line: str) -> bool:
    """Whether the answer to this line tells its own end."""
    return line.split(" ")[0] in ONE_LINE + WITH_MENU


def ending(line: str, first: str) -> Ending:
    """How the answer to this line ends that begins with `first`."""
    word = line.split(" ")[0]
    if word in ONE_LINE:
        return Ending.LINE
    if word not in WITH_MENU:
        return Ending.MARK
    if MENU_HEAD.fullmatch(first):
        return Ending.MENU
    return Ending.LINE_AND_MENU if MENU_FOLLOWS.fullmatch(first) else Ending.LINE


def menu_length(head: str) -> Optional[int]:
    """The number of entries that the head of a menu tells, or nothing if it is none."""
    found = MENU_HEAD.fullmatch(head)
    return int(found[1]) if found else None


@dataclass(frozen=True)
class Label:
    """A label: `i`, `exit`, or a gate; and the texts of its values."""

    text: str
    gate: str
    values: Tuple[str, ...]

    @classmethod
    def read(cls, text: str) -> Label:
        """A label from its text. (No term has a `!` in it.)"""
        if text == "exit" or text.startswith("exit("):
            return cls(text, "exit", tuple(split_terms(text[5:-1])))
        gate, *values = text.split(" !")
        return cls(text, gate, tuple(values))

    @property
    def is_internal(self) -> bool:
        """Whether it is that of an internal event."""
        return self.text == "i"


@dataclass(frozen=True)
class Entry:
    """An entry of a menu: its whole line, its number and label, its variables with their sorts, and its conditions."""

    line: str
    number: str
    label: Label
    variables: Tuple[str, ...]
    sorts: Tuple[str, ...]
    conditions: str

    @classmethod
    @lru_cache(1 << 16)
    def read(cls, line: str) -> Entry:
        """An entry from its line. (`for` is a reserved word, so that no term has it.)"""
        number, _, rest = line.partition(": ")
        label, _, behind = rest.partition(" for ")
        listed, _, conditions = behind.partition(" if ")
        pairs = [it.partition(":") for it in listed.split(", ")] if listed else []
        variables, sorts = tuple(it[0] for it in pairs), tuple(it[2] for it in pairs)
        return cls(line, number, Label.read(label), variables, sorts, conditions)


@dataclass(frozen=True)
class Menu:
    """A menu: its head and the lines of its entries."""

    head: str
    lines: Tuple[str, ...]

    @property
    def entries(self) -> List[Entry]:
        """The entries, read."""
        return [Entry.read(it) for it in self.lines]


@dataclass(frozen=True)
class Answer:
    """The whole answer to a line: the lines before its menu, and the menu if it has one."""

    said: Tuple[str, ...]
    menu: Optional[Menu] = None

    @property
    def lines(self) -> Tuple[str, ...]:
        """All lines as they were printed."""
        return self.said + ((self.menu.head, *self.menu.lines) if self.menu else ())

    @property
    def first(self) -> str:
        """The first line, empty where there is none."""
        return self.lines[0] if self.lines else ""

    @property
    def label(self) -> Optional[str]:
        """The label that a step came to, or nothing if this answers no step that was taken."""
        return self.first[len("did "):] if self.menu and self.first.startswith("did ") else None


def split_terms(text: str) -> List[str]:
    """The terms of a list, which commas outside of brackets part."""
    terms, depth, begin = [], 0, 0
    for place, letter in enumerate(text):
        depth += {"(": 1, ")": -1}.get(letter, 0)
        if letter == "," and depth == 0:
            terms.append(text[begin:place].strip())
            begin = place + 1
    last = text[begin:].strip()
    return terms + [last] if terms or last else []
