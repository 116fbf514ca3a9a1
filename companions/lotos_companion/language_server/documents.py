"""The texts that an editor has open, and places in them as the editor counts them."""
from __future__ import annotations

from bisect import bisect_right
from dataclasses import dataclass
from functools import cached_property
from typing import Any, Dict, List, Tuple
from urllib.parse import unquote, urlsplit

Position = Dict[str, int]
Range = Dict[str, Position]


def path_of(uri: str) -> str:
    """The name of the file that an address stands for; the address itself where it is that of no file."""
    parts = urlsplit(uri)
    return unquote(parts.path) if parts.scheme == "file" else uri


@dataclass(frozen=True)
class Document:
    """A text at one of its versions. Places in it are offsets of characters; an editor counts lines, and in a line the units of
    an encoding (`utf-8` or `utf-16`), from nought."""

    uri: str
    version: int
    text: str
    encoding: str = "utf-16"

    @property
    def path(self) -> str:
        """The name of its file."""
        return path_of(self.uri)

    @property
    def bytes(self) -> bytes:
        """The text as the program reads it."""
        return self.text.encode("utf-8", "surrogatepass")

    @cached_property
    def _begins(self) -> List[int]:
        """Where each line begins. Lines end as the program ends them, at a line feed."""
        return [0] + [at + 1 for at, letter in enumerate(self.text) if letter == "\n"]

    def _line(self, number: int) -> Tuple[int, int]:
        """Where a line begins, and where it ends before its line feed."""
        begins = self._begins
        if number >= len(begins):
            return len(self.text), len(self.text)
        end = begins[number + 1] - 1 if number + 1 < len(begins) else len(self.text)
        return begins[number], end

    def offset(self, position: Position) -> int:
        """The offset of a place; what stands behind the end of a line or of the text is taken as that end."""
        begin, end = self._line(max(position["line"], 0))
        units, at = max(position["character"], 0), begin
        while at < end and units > 0:
            units -= self._width(self.text[at])
            at += 1
        return at

    def position(self, offset: int) -> Position:
        """The place of an offset."""
        offset = min(max(offset, 0), len(self.text))
        line = bisect_right(self._begins, offset) - 1
        before = self.text[self._begins[line]:offset]
        return {"line": line, "character": sum(map(self._width, before))}

    def range(self, begin: int, end: int) -> Range:
        """The range between two offsets."""
        return {"start": self.position(begin), "end": self.position(max(begin, end))}

    def at_bytes(self, line: int, column: int) -> int:
        """The offset of a place as the program tells it: a line and a column from 1, the column in bytes."""
        begin, end = self._line(max(line - 1, 0))
        before = self.text[begin:end].encode("utf-8", "surrogatepass")[:max(column - 1, 0)]
        return begin + len(before.decode("utf-8", "ignore"))

    def after_bytes(self, count: int) -> int:
        """The offset behind so many bytes of the text."""
        return len(self.bytes[:count].decode("utf-8", "ignore"))

    def changed(self, version: int, changes: List[Dict[str, Any]]) -> Document:
        """The text behind changes: each gives a new text for a range, or for the whole."""
        text = self.text
        for change in changes:
            new = str(change["text"])
            if change.get("range") is None:
                text = new
            else:
                now = Document(self.uri, version, text, self.encoding)
                begin, end = now.offset(change["range"]["start"]), now.offset(change["range"]["end"])
                text = text[:begin] + new + text[max(begin, end):]
        return Document(self.uri, version, text, self.encoding)

    def _width(self, letter: str) -> int:
        """The units of a character."""
        if self.encoding == "utf-8":
            return len(letter.encode("utf-8", "surrogatepass"))
        return 2 if ord(letter) > 0xFFFF else 1
