"""Sessions as tests: lines as the program takes them, with the answers wanted in the file `.report` beside them."""
from __future__ import annotations

import os
import shutil
import subprocess
import tempfile
from contextlib import contextmanager
from dataclasses import dataclass
from difflib import unified_diff
from typing import Dict, Iterator, List, Optional, Sequence, Tuple

from .found import Place, CaseFile
from .outcomes import Ending

REFUSED = 1
MOST_LINES = 20


@dataclass(frozen=True)
class SessionFile:
    """A session: what is typed, the answers that are wanted, and the names of the traces that it saves."""

    typed: bytes
    wanted: str
    saved: Tuple[str, ...]

    @property
    def status(self) -> int:
        """The status with which it is to end."""
        return REFUSED if self.wanted.startswith("refused") else 0


def write_text(path: str, text: str) -> None:
    """Writes a file."""
    with open(path, "w", encoding="utf-8", errors="surrogateescape", newline="") as file:
        file.write(text)


def read_text(path: str) -> str:
    """The text of a file; bytes that are no UTF-8 are kept."""
    with open(path, encoding="utf-8", errors="surrogateescape", newline="") as file:
        return file.read()


def read_session(case: CaseFile) -> SessionFile:
    """A session with what stands beside it. `OSError` where a file is not there."""
    typed = read_text(case.path)
    saved = tuple(dict.fromkeys(it[len("save "):].strip() for it in typed.split("\n") if it.startswith("save ")))
    return SessionFile(typed.encode("utf-8", "surrogateescape"), read_text(f"{case.stem}.report"), saved)


@contextmanager
def shadow(folders: Sequence[str], without: Sequence[str]) -> Iterator[str]:
    """A folder with links to all that stands in some folders, but for what is saved under some names: that harms nothing."""
    top = tempfile.mkdtemp(prefix="lotos-test-")
    made = os.path.join(top, "folder")
    try:
        os.mkdir(made)
        linked = {os.path.normpath(it).split(os.sep)[0] for it in without}
        for name in without:
            os.makedirs(os.path.join(made, os.path.dirname(name)), exist_ok=True)
        for folder in folders:
            for name in sorted(set(os.listdir(folder)) - linked):
                linked.add(name)
                os.symlink(os.path.abspath(os.path.join(folder, name)), os.path.join(made, name))
        yield made
    finally:
        shutil.rmtree(top, ignore_errors=True)


@dataclass(frozen=True)
class Ran:
    """What came of lines: the status, what was answered, and the traces that were saved, by their names."""

    status: int
    answered: str
    saved: Dict[str, str]


def run_lines(program: str, case: CaseFile, place: Place, session: SessionFile) -> Ran:
    """Has the program answer the lines of a session, in a folder of its own."""
    with shadow((case.folder, place.folder), session.saved) as folder:
        done = subprocess.run([program, *_inside(place).words.line("run")], input=session.typed, stdout=subprocess.PIPE,
                              stderr=subprocess.DEVNULL, cwd=folder, check=False, start_new_session=True)
        paths = {it: os.path.join(folder, it) for it in session.saved}
        saved = {name: read_text(path) for name, path in paths.items() if os.path.exists(path)}
    return Ran(done.returncode, done.stdout.decode("utf-8", "surrogateescape"), saved)


def run_session(program: str, case: CaseFile, place: Place) -> Tuple[Ending, Tuple[str, ...]]:
    """Runs a session: how it ended, and what is said of it."""
    session = read_session(case)
    ran = run_lines(program, case, place, session)
    said = _differences(session, ran.status, ran.answered)
    for name in session.saved:
        said += _saved(case, name, ran.saved.get(name))
    return (Ending.FAILED if said else Ending.PASSED), tuple(said)


def _inside(place: Place) -> Place:
    """The place with names that hold in a folder with links."""
    first, *others = place.words.files
    paths = [os.path.abspath(os.path.join(place.folder, it)) if os.path.dirname(it) else it for it in others]
    return Place(type(place.words)((first, *paths), place.words.values), place.folder)


def _differences(session: SessionFile, status: int, answered: str) -> List[str]:
    """What is not as it is wanted."""
    said = [] if status == session.status else [f"ends with the status {status}, not {session.status}"]
    return said + _lines_that_differ(session.wanted, answered, "wanted", "answered")


def _lines_that_differ(wanted: str, found: str, one: str, other: str) -> List[str]:
    """The first lines that differ, as `diff -u` has them."""
    lines = list(unified_diff(wanted.splitlines(), found.splitlines(), one, other, lineterm="", n=2))
    if not lines and wanted != found:
        return ["the ends of lines differ"]
    return lines[:MOST_LINES] + ([f".. and {len(lines) - MOST_LINES} lines more"] if len(lines) > MOST_LINES else [])


def _saved(case: CaseFile, name: str, saved: Optional[str]) -> List[str]:
    """What is not right with a trace that the session saves, if one of this name stands beside it."""
    kept = os.path.join(case.folder, name)
    if not os.path.exists(kept):
        return []
    return [f"{name} is not saved"] if saved is None else _lines_that_differ(read_text(kept), saved, name, "saved")
