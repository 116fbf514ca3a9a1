"""A folder in which the program is asked about texts that need not stand on the disk."""
from __future__ import annotations

import os
import shutil
import subprocess
import tempfile
import time
from types import TracebackType
from typing import Callable, List, Optional, Sequence, Tuple, Type

from ..program import NoProgram
from .outcome import Outcome, read_refusal
from ..shipped import SHIPPED
from .sources import LIBRARY_END, Sources

SPECIFICATION, ORDER = "specification", "order"
PAUSE = 0.1


class Stale(Exception):
    """What is asked is no longer wanted."""


class Desk:
    """A folder of its own for calls of the program. `asked` counts them, and `last` is how many seconds the last one took. A
    call that takes longer than `seconds` has no answer. As soon as `is_stale` holds, `Stale` is raised."""

    def __init__(self, program: str, folder: str = ".", seconds: Optional[float] = None):
        self._program = program
        self._libraries = folder
        self._folder = tempfile.mkdtemp(prefix="lotos-check-")
        self._standing: List[str] = []
        self.seconds = seconds
        self.asked = 0
        self.last = 0.0
        self.is_stale: Callable[[], bool] = lambda: False

    def __enter__(self) -> Desk:
        return self

    def __exit__(self, kind: Optional[Type[BaseException]], fault: Optional[BaseException],
                 trace: Optional[TracebackType]) -> None:
        shutil.rmtree(self._folder, ignore_errors=True)

    def check(self, sources: Sources) -> Outcome:
        """The answer of `check`, with the names of the texts as they were given."""
        values = [] if sources.words.values is None else ["with", *sources.words.values]
        status, lines = self._ask("check", sources, values)
        names = [*sources.words.files, *(it for it in SHIPPED), *(it for it in sources.given)]
        first = _named(lines[0], sources) if lines else ""
        return Outcome(status, (first, *lines[1:]) if lines else (), read_refusal(first, names))

    def flatten(self, sources: Sources) -> Tuple[int, Tuple[str, ...]]:
        """The status and the lines of `flatten`."""
        return self._ask("flatten", sources, [])

    def session(self, sources: Sources, lines: Sequence[str]) -> Tuple[str, ...]:
        """What a session prints for lines, behind its report."""
        values = [] if sources.words.values is None else ["with", *sources.words.values]
        return self._ask("run", sources, values, "".join(f"{it}\n" for it in lines))[1]

    def _ask(self, verb: str, sources: Sources, values: List[str], typed: str = "") -> Tuple[int, Tuple[str, ...]]:
        """Puts the texts into the folder and asks the program."""
        if self.is_stale():
            raise Stale
        self._put(sources)
        self.asked += 1
        names = [SPECIFICATION, ORDER][:len(sources.words.files)]
        begin = time.monotonic()
        try:
            process = subprocess.Popen([self._program, verb, *names, *values], cwd=self._folder, stdin=subprocess.PIPE,
                                       stdout=subprocess.PIPE)
        except (OSError, ValueError) as fault:
            raise NoProgram(f"{self._program} cannot be run: {fault}") from None
        try:
            printed = self._wait(process, typed.encode("utf-8", "surrogateescape"), begin)
        finally:
            process.kill()
            process.wait()
            self.last = time.monotonic() - begin
        if printed is None:
            return -1, ()
        return process.returncode, tuple(printed.decode("utf-8", "surrogateescape").split("\n")[:-1])

    def _wait(self, process: "subprocess.Popen[bytes]", typed: bytes, begin: float) -> Optional[bytes]:
        """What the program prints, or nothing where it takes too long. `Stale` as soon as nobody wants to know."""
        waiting: Optional[bytes] = typed
        while True:
            try:
                return process.communicate(waiting, timeout=PAUSE)[0]
            except subprocess.TimeoutExpired:
                waiting = None  # What is typed is given once.
                if self.is_stale():
                    raise Stale from None
                if self.seconds is not None and time.monotonic() > begin + self.seconds:
                    return None

    def _put(self, sources: Sources) -> None:
        """Puts the texts into the folder: those that are given, and the libraries of the folder of the call."""
        for name in self._standing:
            os.unlink(os.path.join(self._folder, name))
        self._standing = []
        for name, inner in zip(sources.words.files, (SPECIFICATION, ORDER)):
            text = sources.read(name)
            if text is not None:
                self._write(inner, text)
        given = {name: text for name, text in sources.given.items() if name not in sources.words.files}
        for name, text in given.items():
            self._write(name, text)
        for name in os.listdir(self._libraries):
            if name.endswith(LIBRARY_END) and name not in given:
                os.symlink(os.path.abspath(os.path.join(self._libraries, name)), os.path.join(self._folder, name))
                self._standing.append(name)

    def _write(self, name: str, text: bytes) -> None:
        with open(os.path.join(self._folder, name), "wb") as file:
            file.write(text)
        self._standing.append(name)


def _named(line: str, sources: Sources) -> str:
    """The first line of an answer, with the names that the user gave to the files."""
    for name, inner in zip(sources.words.files, (SPECIFICATION, ORDER)):
        line = line.replace(f" at {inner}:", f" at {name}:", 1).replace(f" with {inner}:", f" with {name}:", 1)
        if line == f"cannot read {inner}":
            line = f"cannot read {name}"
    return line
