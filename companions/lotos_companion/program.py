"""Where the program is, and the words that it is run with."""
from __future__ import annotations

import os
import shutil
from dataclasses import dataclass
from typing import List, Optional, Sequence, Tuple

TOP = os.path.dirname(os.path.dirname(os.path.dirname(os.path.realpath(__file__))))


class NoProgram(Exception):
    """There is no program that can be run; the text says what to do."""


class WrongWords(Exception):
    """The words are none that the program's `run` takes."""


@dataclass(frozen=True)
class Words:
    """What stands behind `run`: one or two names of files, and start values or none."""

    files: Tuple[str, ...]
    values: Optional[Tuple[str, ...]] = None

    @classmethod
    def read(cls, words: Sequence[str]) -> Words:
        """The words as the program reads them: the first `with` ends the names of files."""
        end = words.index("with") if "with" in words else len(words)
        files, values = tuple(words[:end]), None
        if end < len(words):
            values = tuple(words[end + 1:])
        if len(files) not in (1, 2):
            raise WrongWords
        return cls(files, values)

    def line(self, verb: str) -> List[str]:
        """The words behind the program's name."""
        behind = [] if self.values is None else ["with", *self.values]
        return [verb, *self.files, *behind]


def find_program(option: Optional[str]) -> str:
    """The program that an option names, else the variable LOTOS, else the launcher of this repository, else the PATH."""
    named = option or os.environ.get("LOTOS")
    if named:
        return _runnable(named)
    launcher = os.path.join(TOP, "lotos")
    if os.access(launcher, os.X_OK) and not _wants_build(launcher):
        return launcher
    found = shutil.which("lotos")
    if found and not _wants_build(found):
        return found
    if os.access(launcher, os.X_OK):
        raise NoProgram(f"the program is not built: {launcher} build makes it")
    raise NoProgram("there is no program lotos in the PATH: name it by --program FILE or by the variable LOTOS")


def _runnable(named: str) -> str:
    """The named program, if it can be run."""
    found = named if os.path.dirname(named) else shutil.which(named)
    if not found or not os.path.isfile(found) or not os.access(found, os.X_OK):
        raise NoProgram(f"{named} is no program that can be run")
    if _wants_build(found):
        raise NoProgram(f"the program is not built: {found} build makes it")
    return found


def _wants_build(path: str) -> bool:
    """Whether this is the launcher of a repository where no program stands: it would build one before it answers."""
    root = os.path.dirname(os.path.realpath(path))
    programs = [os.path.join(root, place, "lotos_main") for place in ("crates/lotos_main/out", "build/first_look")]
    is_launcher = os.path.isdir(os.path.join(root, "crates", "lotos_main"))
    return is_launcher and not any(os.access(it, os.X_OK) for it in programs)
