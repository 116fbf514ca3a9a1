"""A session of the program that is given many lines before its answers are read, by pipes that do not block."""
from __future__ import annotations

import os
import selectors
import subprocess
from typing import List, Optional, Sequence

from ..answers import MARK_ANSWER, MARK_LINE
from ..program import NoProgram, Words
from ..session import Ended

MARK = f"{MARK_LINE}\n".encode()
MARKED = f"{MARK_ANSWER}\n".encode()
PIECE = 1 << 18


class Conversation:
    """A running program. Each text that it is given is ended by a line that is always refused, which ends its answer."""

    def __init__(self, program: str, words: Words):
        try:
            self.process = subprocess.Popen([program, *words.line("run")], stdin=subprocess.PIPE, stdout=subprocess.PIPE,
                                            bufsize=0, close_fds=False, start_new_session=True)
        except (OSError, ValueError) as fault:
            raise NoProgram(f"{program} cannot be run: {fault}") from None
        assert self.process.stdin and self.process.stdout
        self.input, self.output = self.process.stdin.fileno(), self.process.stdout.fileno()
        for pipe in (self.input, self.output):
            os.set_blocking(pipe, False)
        self._unsaid = bytearray()
        self._heard = bytearray()
        self._searched = 0
        self.has_ended = False

    def say(self, lines: bytes) -> None:
        """Puts whole lines, and the line that ends their answer, into the queue of what the program is given."""
        self._unsaid += lines + MARK

    @property
    def has_more(self) -> bool:
        """Whether there is more to be written."""
        return bool(self._unsaid) and not self.has_ended

    def write(self) -> None:
        """Writes what the pipe takes."""
        try:
            done = os.write(self.input, memoryview(self._unsaid)[:PIECE])
        except BlockingIOError:
            return
        except OSError:
            self._unsaid.clear()
            return
        del self._unsaid[:done]

    def read(self) -> None:
        """Reads what the pipe has."""
        try:
            piece = os.read(self.output, PIECE)
        except BlockingIOError:
            return
        if piece:
            self._heard += piece
        else:
            self.has_ended = True

    def answer(self) -> Optional[List[bytes]]:
        """The lines of the next whole answer, or nothing where it is not there yet. `Ended` where it never will be."""
        place = self._heard.find(MARKED, self._searched)
        while place > 0 and self._heard[place - 1] != 10:
            place = self._heard.find(MARKED, place + 1)
        if place < 0:
            self._searched = max(0, len(self._heard) - len(MARKED))
            if self.has_ended:
                raise Ended(self.process.wait(), tuple(_texts(bytes(self._heard))))
            return None
        lines = bytes(self._heard[:place]).split(b"\n")
        del self._heard[:place + len(MARKED)]
        self._searched = 0
        return lines

    def kill(self) -> None:
        """Ends the program at once."""
        self.process.kill()
        for pipe in (self.process.stdin, self.process.stdout):
            if pipe:
                pipe.close()
        self.process.wait()


def _texts(heard: bytes) -> List[str]:
    """The lines of what was written, the last one without its end too."""
    lines = heard.decode("utf-8", "surrogateescape").split("\n")
    return lines if lines[-1] else lines[:-1]


def pump(conversations: Sequence[Conversation], timeout: float) -> None:
    """Waits until one of the programs takes or gives something, and lets all of them that do."""
    with selectors.DefaultSelector() as selector:
        for it in conversations:
            if not it.has_ended:
                selector.register(it.output, selectors.EVENT_READ, it.read)
            if it.has_more:
                selector.register(it.input, selectors.EVENT_WRITE, it.write)
        if selector.get_map():
            for key, _ in selector.select(timeout):
                key.data()
