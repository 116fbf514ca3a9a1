"""The texts of a check: the specification, its libraries, the order file and the words behind `with`.

Texts are kept as bytes, and read as Latin-1 where their tokens are asked for: so a character is a byte, as the program counts
columns.
"""
from __future__ import annotations

import os
from dataclasses import dataclass, field
from typing import Dict, Mapping, Optional, Tuple

from ..program import Words
from ..shipped import SHIPPED

WITH = "with"
LIBRARY_END = ".lib"
ORDER_END = ".order"


@dataclass(frozen=True)
class Place:
    """A place as the program tells it: the text, the line from 1, and the column in bytes from 1."""

    text: str
    line: int
    column: int

    def __str__(self) -> str:
        return f"{self.text}:{self.line}:{self.column}"


@dataclass(frozen=True)
class Edit:
    """Bytes of a text, from the offset `begin` to `end`, in whose place others stand. Of `with` the word's number is kept too;
    a word of which nothing is left goes, and one may stand behind the last. An edit of the order file of a check that has none
    gives it one."""

    text: str
    begin: int
    end: int
    new: bytes
    word: int = 0


@dataclass(frozen=True)
class Sources:
    """The texts, by the names that the program tells them by. `given` are those that need not stand on the disk."""

    words: Words
    given: Mapping[str, bytes] = field(default_factory=dict)
    folder: str = "."

    @property
    def specification(self) -> str:
        """The name of the specification."""
        return self.words.files[0]

    @property
    def order(self) -> Optional[str]:
        """The name of the order file, if there is one."""
        return self.words.files[1] if len(self.words.files) > 1 else None

    def read(self, name: str) -> Optional[bytes]:
        """A text, or nothing where it cannot be read."""
        if name in self.given:
            return self.given[name]
        if name in SHIPPED:
            return SHIPPED[name].encode("ascii")
        path = os.path.join(self.folder, name)
        if not os.path.isfile(path):  # A pipe can be read once, and that is for the program.
            return None
        try:
            with open(path, "rb") as file:
                return file.read()
        except (OSError, ValueError):
            return None

    def word(self, number: int) -> Optional[bytes]:
        """A word behind `with`, from 1."""
        values = self.words.values or ()
        return values[number - 1].encode("utf-8", "surrogateescape") if 1 <= number <= len(values) else None

    def line(self, place: Place) -> Optional[bytes]:
        """The line of a place, without its end. For `with` it is the word, and an empty line behind the last one."""
        if place.text == WITH:
            return b"" if place.line == len(self.words.values or ()) + 1 else self.word(place.line)
        text = self.read(place.text)
        lines = text.split(b"\n") if text is not None else []
        return lines[place.line - 1] if 1 <= place.line <= len(lines) else None

    def offset(self, place: Place) -> int:
        """The offset of a place in its text."""
        if place.text == WITH:
            return place.column - 1
        lines = (self.read(place.text) or b"").split(b"\n")[:place.line - 1]
        return sum(len(it) + 1 for it in lines) + place.column - 1

    def edited(self, edits: Tuple[Edit, ...]) -> Sources:
        """The texts with edits, which do not overlap."""
        given: Dict[str, bytes] = dict(self.given)
        values = list(self.words.values or ())
        for edit in sorted(edits, key=lambda it: it.begin, reverse=True):
            if edit.text == WITH:
                old = self.word(edit.word) or b""
                values += [""] * (edit.word - len(values))
                values[edit.word - 1] = (old[:edit.begin] + edit.new + old[edit.end:]).decode("utf-8", "surrogateescape")
            else:
                text = given[edit.text] if edit.text in given else self.read(edit.text) or b""
                given[edit.text] = text[:edit.begin] + edit.new + text[edit.end:]
        files = self.words.files + tuple(it.text for it in edits if it.text.endswith(ORDER_END) and len(self.words.files) == 1)
        if any(it.text == WITH for it in edits):
            values = [it for it in values if it]
        words = Words(files, tuple(values) if values or self.words.values is not None else None)
        return Sources(words, given, self.folder)


def place_at(name: str, text: bytes, offset: int) -> Place:
    """The place of an offset in a text."""
    begin = text.rfind(b"\n", 0, offset) + 1
    return Place(name, text.count(b"\n", 0, offset) + 1, offset - begin + 1)
