"""The tests of a project, found by the names of their files, and the specification that each is of."""
from __future__ import annotations

import os
from dataclasses import dataclass
from enum import Enum
from typing import Dict, Iterator, List, Optional, Sequence

from ..program import Words, WrongWords


class CaseKind(Enum):
    """What a test is, by the end of its file's name."""

    SCENARIO = ".scenario"
    SESSION = ".session"
    TRACE = ".trace"


# Traces are kept beside sessions that save them, and are tests where they are named.
IN_FOLDERS = (CaseKind.SCENARIO, CaseKind.SESSION)


class NotFound(Exception):
    """A word names no test and no folder."""


class NoSpecification(Exception):
    """The specification of a test is not there; the text says which one."""


@dataclass(frozen=True)
class CaseFile:
    """A test: its file, and what it is."""

    path: str
    kind: CaseKind

    @property
    def stem(self) -> str:
        """The path without the end that tells the kind."""
        return self.path[:-len(self.kind.value)]

    @property
    def folder(self) -> str:
        """The folder that it stands in."""
        return os.path.dirname(self.path) or "."


def find_tests(words: Sequence[str]) -> List[CaseFile]:
    """The tests that the words name, each once and in the order of names: files, and all scenarios and sessions below folders.
    `NotFound` where a word names nothing."""
    found: Dict[str, CaseFile] = {}
    for word in words or (".",):
        for case in _below(word) if os.path.isdir(word) else [_file(word)]:
            found[case.path] = case
    return [found[it] for it in sorted(found)]


def _file(path: str) -> CaseFile:
    kind = _kind(path)
    if kind is None or not os.path.exists(path):
        raise NotFound(path)
    return CaseFile(os.path.normpath(path), kind)


def _kind(path: str) -> Optional[CaseKind]:
    return next((it for it in CaseKind if path.endswith(it.value)), None)


def _below(folder: str) -> Iterator[CaseFile]:
    """The tests in a folder and in those below it, but for hidden ones."""
    for place, folders, files in os.walk(folder):
        folders[:] = sorted(it for it in folders if not it.startswith("."))
        for name in sorted(files):
            kind = _kind(name)
            if kind in IN_FOLDERS and not name.startswith("."):
                yield CaseFile(os.path.normpath(os.path.join(place, name)), kind)


def shard(tests: Sequence[CaseFile], number: int, count: int) -> List[CaseFile]:
    """The share of one of so many machines, from 1: each test is in one share."""
    return list(tests[number - 1::count])


@dataclass(frozen=True)
class Place:
    """The words behind `run` for a test, and the folder in which the program is run: that of the specification, since its
    libraries stand there."""

    words: Words
    folder: str

    @property
    def specification(self) -> str:
        """The path of the specification."""
        return os.path.join(self.folder, self.words.files[0])


def place_of(case: CaseFile, words: Optional[Sequence[str]] = None) -> Place:
    """Where a test is run, and with which words: those that are given, else those of the file `.words` beside it, else the
    specification whose name is the first part of the test's. `NoSpecification` where it is not there."""
    if words is None:
        words = _words_beside(case)
    try:
        read = Words.read(words)
    except WrongWords:
        raise NoSpecification(f"{' '.join(words)}: none of SPEC [ORDER] [with TERM..]") from None
    path = os.path.join(case.folder, read.files[0])
    if not os.path.exists(path):
        raise NoSpecification(f"there is no {path}")
    folder = os.path.dirname(path) or "."
    others = [os.path.relpath(os.path.join(case.folder, it), folder) for it in read.files[1:]]
    return Place(Words((os.path.basename(path), *others), read.values), folder)


def _words_beside(case: CaseFile) -> List[str]:
    """The words of the file beside a test, or the specification that is named like it."""
    try:
        with open(f"{case.stem}.words", encoding="utf-8", errors="surrogateescape") as file:
            return file.read().split()
    except FileNotFoundError:
        return [os.path.basename(case.stem).partition(".")[0] + ".lotos"]
