"""What is written: the program's own lines, and on a terminal in colours and without control characters."""
from __future__ import annotations

import os
import re
import shutil
import sys
from typing import Callable, Iterable, Tuple

from . import output
from .changes import changed_parts

# The colours of the parts of a line, by what the line is.
GREY, RED, GREEN, YELLOW, BLUE, BOLD = "90", "31", "32", "33", "36", "1"
LINES: Tuple[Tuple[re.Pattern[str], Tuple[str, ...]], ...] = (
    (re.compile(r"(refused \d{3} [A-Z]\w+.*|cannot read .*|usage: .*|input failed|input too long)"), (RED,)),
    (re.compile(r"(accepted )(.*)"), (GREEN, BOLD)),
    (re.compile(r"(data: .*)"), (GREY,)),
    (re.compile(r"(events \d+)"), (BOLD,)),
    (re.compile(r"(did )(i)( \(.*\))"), (GREEN, BOLD, "")),
    (re.compile(r"(did )(.*)"), (GREEN, BOLD)),
    (re.compile(r"(undone|replayed \d+|saved .*|equal|different|nothing to undo)"), (GREEN,)),
    (re.compile(r"(\d+: )(i)( \(.*?\))??( for .*| if .*)?"), (BLUE, YELLOW, "", GREY)),
    (re.compile(r"(\d+: )(.*?)( for \$1:.*)?"), (BLUE, "", GREY)),
    (re.compile(r"(lotos-trace .*|at .*)"), (GREY,)),
    (re.compile(r"((?:\d+)(?: .*)? => )(.*)"), (GREY, "")),
    (re.compile(r"(step \d+: .*|parts .*|the menus differ .*|all \d+ steps .*|behind the last step)"), (BOLD,)),
    (re.compile(r"(  > .*)"), (GREEN,)),
    (re.compile(r"(    at .*)"), (GREY,)),
)


def wants_colour(when: str) -> bool:
    """Whether there are colours, by the words `always`, `never` and `auto`: there on a terminal that shows them."""
    if when != "auto":
        return when == "always"
    return sys.stdout.isatty() and "NO_COLOR" not in os.environ and os.environ.get("TERM", "dumb") != "dumb"


class Screen:
    """Where lines are written. `change` is what is done to each of the program's lines, as a choice that is shown."""

    def __init__(self, colour: bool):
        self.colour = colour
        self.is_terminal = sys.stdout.isatty()
        self._has_progress = False
        self.change: Callable[[str], str] = lambda line: line

    @property
    def height(self) -> int:
        """The lines that fit on the terminal."""
        return shutil.get_terminal_size().lines

    def program_says(self, lines: Iterable[str], indent: str = "") -> None:
        """Writes lines of the program."""
        for line in lines:
            self._write(indent + self._painted(self._clean(self.change(line))))
        output.flush()

    def says_changed(self, line: str, before: str, indent: str) -> None:
        """Writes a line of the program; in colours, what is in another line too is grey."""
        if not self.colour:
            self.program_says([line], indent)
            return
        parts = [self._paint("" if is_new else GREY, self._clean(text))
                 for is_new, text in changed_parts(self.change(line), self.change(before))]
        self._write(indent + "".join(parts))
        output.flush()

    def own(self, line: str, stands_out: bool = False) -> None:
        """Writes a line that is the companion's own."""
        line = self._clean(f"# {line}")
        self._write(self._paint(BOLD if stands_out else GREY, line))
        output.flush()

    def progress(self, line: str) -> None:
        """Shows for a while, on a terminal alone, how far something is: in the line where the next one is written."""
        if self.is_terminal and os.environ.get("TERM", "dumb") != "dumb":
            output.write(f"\r# {self._clean(line)}\x1b[K\r")
            output.flush()
            self._has_progress = True

    def plain(self, line: str) -> None:
        """Writes a line as it is."""
        self._write(self._clean(line))

    def _write(self, line: str) -> None:
        if self._has_progress:
            output.write("\r\x1b[K")
            self._has_progress = False
        output.write(line + "\n")

    def _clean(self, line: str) -> str:
        """A line whose control characters a terminal does not obey."""
        return output.visible(line) if self.is_terminal or self.colour else line

    def _painted(self, line: str) -> str:
        """A line of the program in its colours."""
        if self.colour:
            for form, colours in LINES:
                found = form.fullmatch(line)
                if found:
                    return "".join(self._paint(colour, part) for colour, part in zip(colours, found.groups()) if part)
        return line

    def _paint(self, colour: str, text: str) -> str:
        return f"\x1b[{colour}m{text}\x1b[0m" if self.colour and colour else text
