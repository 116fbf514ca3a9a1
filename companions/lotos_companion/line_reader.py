"""Where lines come from: a prompt with a history and completion, or an input that is no terminal."""
from __future__ import annotations

import os
import sys
from collections import deque
from typing import Callable, Deque, List, Optional, Sequence

from .completion import Ending

try:
    import readline
except ImportError:  # Some builds of Python have none: then lines are plain.
    readline = None  # type: ignore[assignment]

HISTORY_LINES = 2000
Complete = Callable[[str], Sequence[Ending]]


def history_file() -> str:
    """The file of the history: in the folder for the state of programs."""
    folder = os.environ.get("XDG_STATE_HOME") or os.path.expanduser("~/.local/state")
    return os.path.join(folder, "lotos-shell", "history")


def is_terminal() -> bool:
    """Whether somebody types and looks."""
    return sys.stdin.isatty() and sys.stdout.isatty()


class LineReader:
    """Reads lines from an input that is no terminal. Nobody can be asked there."""

    is_terminal = False

    def read(self, prompt: str) -> Optional[str]:
        """The next line, or nothing at the end of the input."""
        line = sys.stdin.buffer.readline()
        return line.decode("utf-8", "surrogateescape") if line else None

    def drop(self) -> None:
        """Throws away lines that wait, if there are any."""

    def agrees(self, question: str) -> bool:
        """Whether a question is answered by yes."""
        return False

    def keep_history(self) -> None:
        """Writes the history where there is one."""


class TerminalReader(LineReader):
    """Reads lines at a prompt. Of several lines that are pasted one after another is read."""

    is_terminal = True

    def __init__(self, colour: bool):
        self._colour = colour
        self._waiting: Deque[str] = deque()

    def read(self, prompt: str) -> Optional[str]:
        """The next line, or nothing at the end of the input. `KeyboardInterrupt` throws away what waits."""
        if self._waiting:
            line = self._waiting.popleft()
            print(f"{prompt}{line}")
            return line
        try:
            first, *more = self.typed(prompt).splitlines() or [""]
        except EOFError:
            print()
            return None
        self._waiting.extend(it for it in more if it.strip())
        return first

    def drop(self) -> None:
        """Throws away the lines that wait."""
        self._waiting.clear()

    def typed(self, prompt: str) -> str:
        """What is typed, up to Enter. `EOFError` at the end."""
        raise NotImplementedError

    def agrees(self, question: str) -> bool:
        """Whether a question is answered by yes: by the next of the lines that wait, or by what is typed."""
        if self._waiting:
            said = self._waiting.popleft()
            print(f"# {question} [y/N] {said}")
        else:
            try:
                said = self.asked(f"# {question} [y/N] ")
            except (EOFError, KeyboardInterrupt):
                print()
                return False
        return said.strip().lower() in ("y", "yes")

    def asked(self, question: str) -> str:
        """What is typed behind a question. It is not kept in the history."""
        raise NotImplementedError


class PlainReader(TerminalReader):
    """Lines as Python itself reads them, by the library of GNU where it is there."""

    def __init__(self, complete: Complete, colour: bool):
        super().__init__(colour)
        self._complete_line = complete
        self._found: List[str] = []
        if readline:
            self._prepare()

    def typed(self, prompt: str) -> str:
        """What is typed, up to Enter."""
        return input(f"\x01\x1b[36m\x02{prompt}\x01\x1b[0m\x02" if self._colour and readline else prompt)

    def asked(self, question: str) -> str:
        """What is typed behind a question."""
        said = input(question)
        if readline and readline.get_current_history_length() and said:
            readline.remove_history_item(readline.get_current_history_length() - 1)
        return said

    def keep_history(self) -> None:
        """Writes the history where it can be written."""
        if readline:
            try:
                os.makedirs(os.path.dirname(history_file()), exist_ok=True)
                readline.write_history_file(history_file())
            except OSError:
                pass

    def _prepare(self) -> None:
        try:
            readline.read_history_file(history_file())
        except OSError:
            pass
        readline.set_history_length(HISTORY_LINES)
        readline.set_completer_delims(" \t,(")
        readline.set_completer(self._complete)
        readline.parse_and_bind("tab: complete")
        readline.parse_and_bind("set show-all-if-ambiguous on")

    def _complete(self, _word: str, number: int) -> Optional[str]:
        """The words that can stand where the cursor is, one by one."""
        if number == 0:
            line, begin = readline.get_line_buffer()[:readline.get_endidx()], readline.get_begidx()
            found = [line[:it.begin] + it.text for it in self._complete_line(line)]
            self._found = [it[begin:] for it in found if it.startswith(line[:begin])]
        return self._found[number] if number < len(self._found) else None


def make_reader(complete: Complete, colour: bool) -> LineReader:
    """The reader for this input: that of prompt-toolkit in a terminal, where it is there."""
    if not is_terminal():
        return LineReader()
    try:
        from .prompt_reader import PromptReader
    except ImportError:
        return PlainReader(complete, colour)
    return PromptReader(complete, colour)
