"""A session of the program at the other end of two pipes: one line goes in, its whole answer comes out."""
from __future__ import annotations

import subprocess
from typing import IO, List, Tuple

from .answers import MARK_ANSWER, MARK_LINE, Answer, Ending, Menu, ending, menu_length, tells_its_end
from .program import NoProgram, Words


class Ended(Exception):
    """The program ended before its answer was whole: its status (below nought: that of a signal), and the lines it wrote."""

    def __init__(self, status: int, lines: Tuple[str, ...]):
        super().__init__(f"the program ended with the status {status}")
        self.status = status
        self.lines = lines

    @property
    def how(self) -> str:
        """How it ended."""
        return f"by the signal {-self.status}" if self.status < 0 else f"with the status {self.status}"


class Session:
    """A running program that answers lines. Text goes both ways as UTF-8, and bytes that are none are kept as they are."""

    def __init__(self, program: str, words: Words):
        # In a session of its own, so that a Ctrl-C reaches the companion alone. What the companion was given as open
        # files stays open, since their names may be among the words.
        try:
            self._process = subprocess.Popen([program, *words.line("run")], stdin=subprocess.PIPE, close_fds=False,
                                             stdout=subprocess.PIPE, start_new_session=True)
        except (OSError, ValueError) as fault:
            raise NoProgram(f"{program} cannot be run: {fault}") from None
        assert self._process.stdin and self._process.stdout
        self._input: IO[bytes] = self._process.stdin
        self._output: IO[bytes] = self._process.stdout
        self._lines: List[str] = []

    def opening(self) -> Answer:
        """The head of the report and the first menu. `Ended` where the specification is not accepted."""
        self._lines = []
        first = self._read()
        if not first.startswith("accepted "):
            self._read_to_end()
        return Answer((first, self._read()), self._read_menu(self._read()))

    def ask(self, line: str) -> Answer:
        """The whole answer to a line. An empty line has none, and `quit` ends the program."""
        line = line.strip(" \t\r\n")
        self._lines = []
        if not line:
            return Answer(())
        if line == "quit":
            return Answer(self._finish(line))
        self._write(line if tells_its_end(line) else f"{line}\n{MARK_LINE}")
        first = self._read()
        how = ending(line, first)
        if how is Ending.MENU:
            return Answer((), self._read_menu(first))
        if how is Ending.LINE_AND_MENU:
            return Answer((first,), self._read_menu(self._read()))
        return Answer((first, *self._read_to_mark())) if how is Ending.MARK else Answer((first,))

    def close(self) -> int:
        """Ends the input, and waits for the program's end: its status."""
        try:
            self._input.close()
        except OSError:
            pass
        self._output.close()
        return self._process.wait()

    def kill(self) -> None:
        """Ends the program at once, whatever it does."""
        self._process.kill()
        self.close()

    def stop(self) -> None:
        """Ends the program at once; its answer ends there, and who waits for it gets `Ended`."""
        self._process.kill()

    def _finish(self, line: str) -> Tuple[str, ...]:
        """Says the last line; what is written from there to the end."""
        self._write(line)
        self._input.close()
        rest = self._output.read().decode("utf-8", "surrogateescape")
        return tuple(rest.split("\n")[:-1])

    def _write(self, text: str) -> None:
        try:
            self._input.write(text.encode("utf-8", "surrogateescape") + b"\n")
            self._input.flush()
        except OSError:
            self._read_to_end()

    def _read(self) -> str:
        """The next line. `Ended` where there is none."""
        line = self._output.readline().decode("utf-8", "surrogateescape")
        if not line.endswith("\n"):
            self._lines += [line] if line else []
            raise Ended(self.close(), tuple(self._lines))
        self._lines.append(line[:-1])
        return line[:-1]

    def _read_menu(self, head: str) -> Menu:
        """The menu whose head is read."""
        length = menu_length(head)
        if length is None:
            self.kill()
            raise Ended(self._process.returncode, tuple(self._lines))
        return Menu(head, tuple(self._read() for _ in range(length)))

    def _read_to_mark(self) -> List[str]:
        """The lines before the answer to the mark."""
        lines: List[str] = []
        while True:
            line = self._read()
            if line == MARK_ANSWER:
                return lines
            lines.append(line)

    def _read_to_end(self) -> None:
        """Reads what is left, and raises `Ended`."""
        while True:
            self._read()
