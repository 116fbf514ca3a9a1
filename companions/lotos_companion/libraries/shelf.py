"""The library files that come with the companions: where they stand, what each has, and which others it mentions."""
from __future__ import annotations

import difflib
import os
import re
import sys
from dataclasses import dataclass
from typing import Dict, Iterable, List, Tuple

from ..program import TOP
from ..shipped import SHIPPED_BY_NAME

# The companions of a repository or a package have the files beside them; an installed package of Python has them in its share.
FOLDERS = (os.path.join(TOP, "companions", "libraries"), os.path.join(sys.prefix, "share", "lotos", "libraries"))
COMMENT = re.compile(r"\(\*(.*?)\*\)", re.S)
MENTION = re.compile(r"\blibrary\b(.*?)\bendlib\b", re.S | re.I)
TYPE = re.compile(r"\btype\s+(\w+)\s+is\b", re.I)


class NoShelf(Exception):
    """The folder of the library files is not there."""


class NoLibrary(Exception):
    """No library has this name; the text says which ones have one like it."""


@dataclass(frozen=True)
class Library:
    """A library file: its name, its text, what its first comment says, its types, and the libraries that it mentions."""

    name: str
    text: str

    @property
    def file(self) -> str:
        """The name of its file."""
        return f"{self.name}.lib"

    @property
    def summary(self) -> str:
        """The first comment, on one line."""
        found = COMMENT.search(self.text)
        return " ".join(found[1].split()) if found else ""

    @property
    def types(self) -> Tuple[str, ...]:
        """The names of its types, in their order."""
        return tuple(TYPE.findall(self._bare))

    @property
    def mentions(self) -> Tuple[str, ...]:
        """The libraries that it mentions and that are files."""
        names = (it.strip() for found in MENTION.findall(self._bare) for it in found.split(","))
        return tuple(it for it in names if it.lower() not in SHIPPED_BY_NAME)

    @property
    def _bare(self) -> str:
        return COMMENT.sub(" ", self.text)


class Shelf:
    """All libraries, by their names."""

    def __init__(self, libraries: Iterable[Library]):
        self.libraries: Dict[str, Library] = {it.name.lower(): it for it in libraries}

    @classmethod
    def found(cls) -> Shelf:
        """The libraries that come with the companions."""
        folder = next((it for it in FOLDERS if os.path.isdir(it)), None)
        if folder is None:
            raise NoShelf(f"there is no folder {FOLDERS[0]}")
        names = sorted(it for it in os.listdir(folder) if it.endswith(".lib"))
        return cls(Library(it[:-len(".lib")], read_text(os.path.join(folder, it))) for it in names)

    def named(self, name: str) -> Library:
        """The library that is meant by a name, in any letter case and with or without `.lib`."""
        key = re.sub(r"\.lib$", "", name, flags=re.I).lower()
        if key in self.libraries:
            return self.libraries[key]
        if key in SHIPPED_BY_NAME:  # the program has it: no file is read for it
            raise NoLibrary(f"{name} comes with the program: mention it, and no file is wanted")
        near = [self.libraries[it].name for it in difflib.get_close_matches(key, self.libraries, 3, 0.6)]
        raise NoLibrary(f"there is no library {name}: " + (f"is it {' or '.join(near)}?" if near else "`list` has their names"))

    def with_mentions(self, names: Iterable[str]) -> List[Library]:
        """The libraries with these names and all that they mention, each once, those that are mentioned first."""
        wanted: Dict[str, Library] = {}

        def add(library: Library) -> None:
            if library.name not in wanted:
                for it in library.mentions:
                    add(self.named(it))
                wanted[library.name] = library

        for library in [self.named(it) for it in names]:
            add(library)
        return list(wanted.values())


def read_text(path: str) -> str:
    """The text of a file, byte for byte."""
    with open(path, encoding="utf-8", errors="surrogateescape", newline="") as file:
        return file.read()
