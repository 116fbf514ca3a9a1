"""A session with an account of its steps, so that steps can be taken again and the session can be begun anew."""
from __future__ import annotations

import re
from typing import Iterator, List, Optional, Sequence, Tuple

from .answers import Answer, Menu
from .program import Words
from .session import Session
from .signature import Signature, read_signature
from .traces import Step, read_trace

STEP_LINE = re.compile(r"step +([^ ]+) *(.*)")


def read_step_line(line: str) -> Tuple[str, str]:
    """The number and the values of a line that takes a step."""
    found = STEP_LINE.fullmatch(line)
    return (found[1], found[2]) if found else ("0", "")


class Parted(Exception):
    """A step that was taken before is no longer possible, or comes to another event: the step, and what was answered."""

    def __init__(self, step: Step, answer: Answer):
        super().__init__(f"{step.line} is answered by {answer.first}")
        self.step = step
        self.answer = answer


class Play:
    """A session, the name of its specification, the steps that led to its state, and those that were undone, the last one
    last."""

    def __init__(self, program: str, words: Words):
        self._program = program
        self._words = words
        self._session: Optional[Session] = None
        self._signature: Optional[Signature] = None
        self.name = ""
        self.done: List[Step] = []
        self.undone: List[Step] = []
        self.menu = Menu("events 0", ())

    @property
    def program(self) -> str:
        """The program."""
        return self._program

    @property
    def words(self) -> Words:
        """The files and the values that it was begun with."""
        return self._words

    @property
    def signature(self) -> Signature:
        """The sorts and operations of its data, which are read when somebody asks for them first."""
        if self._signature is None:
            self._signature = read_signature(self._program, self._words)
        return self._signature

    @property
    def is_open(self) -> bool:
        """Whether there is a program that answers."""
        return self._session is not None

    def open(self) -> Answer:
        """Begins in the first state. `Ended` where the specification is not accepted."""
        self.kill()
        self._session = Session(self._program, self._words)
        self._signature = None
        answer = self._session.opening()
        self.name = answer.said[0][len("accepted "):]
        self.done, self.undone = [], []
        self._see(answer)
        return answer

    def reopen(self, done: Sequence[Step], undone: Sequence[Step]) -> Answer:
        """Begins anew and takes these steps, with those to redo behind them. `Parted` at the first that does not fit."""
        wanted, later = list(done), list(undone)
        answer = self.open()
        return self.retake(wanted, later) or answer

    def retake(self, done: Sequence[Step], undone: Sequence[Step]) -> Optional[Answer]:
        """Takes these steps from the first state on, and keeps others to redo: the last answer. `Parted` as in `take`."""
        answer = None
        for step in done:
            answer = self.take(step)
        self.undone = list(undone)
        return answer

    def another_answer(self, line: str) -> str:
        """The first line that a session that begins anew answers to a line."""
        anew = self.another()
        try:
            anew.open()
            return anew.ask(line).first
        finally:
            anew.kill()

    def another(self) -> Play:
        """One of the same program and words that has not begun."""
        return Play(self._program, self._words)

    def ask(self, line: str) -> Answer:
        """The answer to a line, which the account follows."""
        if self._session is None:
            raise ValueError("there is no session")
        answer = self._session.ask(line)
        self._follow(line.strip(" \t\r\n"), answer)
        return answer

    def take(self, step: Step) -> Answer:
        """Takes a step again. `Parted` where it is not possible or comes to another event; then the state stays as it was,
        and there is nothing to redo."""
        answer = self.ask(step.line)
        if answer.label == step.label:
            return answer
        if answer.label is not None:
            self.ask("undo")
        self.undone = []
        raise Parted(step, answer)

    def move(self, place: int) -> Iterator[Answer]:
        """The answers on the way to the state behind so many of the steps."""
        while len(self.done) > place:
            yield self.ask("undo")
        while len(self.done) < place and self.undone:
            yield self.take(self.undone[-1])

    def quit(self) -> int:
        """Ends the program as the end of its input does: its status."""
        session, self._session = self._session, None
        return session.close() if session else 0

    def kill(self) -> None:
        """Ends the program at once."""
        session, self._session = self._session, None
        if session:
            session.kill()

    def stop(self) -> None:
        """Ends the program at once; whoever waits for its answer is told by `Ended`."""
        if self._session:
            self._session.stop()

    def _follow(self, line: str, answer: Answer) -> None:
        """Keeps the account of what a line did."""
        if answer.label is not None:
            self._add(line, answer.label)
        elif answer.menu and answer.first == "undone":
            self.undone.append(self.done.pop())
        elif answer.menu and answer.first.startswith("replayed "):
            self.undone = []
            self.done = self._kept_steps()
        self._see(answer)

    def _add(self, line: str, label: str) -> None:
        """Adds a step that was taken: the one that was undone last, or another one, behind which nothing is undone."""
        number, values = read_step_line(line)
        step = Step(number, values, label)
        if self.undone and self.undone[-1].line == step.line:
            self.undone.pop()
        else:
            self.undone = []
        self.done.append(step)

    def _kept_steps(self) -> List[Step]:
        """The steps that the program's own trace has."""
        assert self._session
        return list(read_trace(self._session.ask("trace").lines).steps)

    def _see(self, answer: Answer) -> None:
        if answer.menu:
            self.menu = answer.menu
