"""A session of a text that was made of the flat one: it takes the steps of a first session after it, and undoes them."""
from __future__ import annotations

import os
import subprocess
import tempfile
from dataclasses import dataclass, replace
from typing import Generic, List, Sequence, Tuple, TypeVar

from ..answers import Answer, Menu
from ..program import NoProgram, Words
from ..session import Ended, Session
from ..traces import Step

LARGEST_SOURCE = 1 << 20
# Texts that are made of a flat one are longer, and the program reads 1,048,576 bytes; reading half of that takes seconds here.
LARGEST_FLAT = 1 << 19
Told = TypeVar("Told")


class NoNames(Exception):
    """There are no names, and why."""


@dataclass(frozen=True)
class Taken(Generic[Told]):
    """A step that was taken: the first session's, how many were taken here for it, and what is told of it."""

    step: Step
    count: int
    told: Told


class Follower(Generic[Told]):
    """Follows a first session. `NoNames` where it cannot, and nothing is to be asked behind that."""

    def __init__(self, program: str, words: Words, text: str, called: str):
        self._called = called
        self._session, opening = self._begun(program, words, text)
        self.taken: List[Taken[Told]] = []
        self._menu = opening.menu or Menu("events 0", ())

    def _begun(self, program: str, words: Words, text: str) -> Tuple[Session, Answer]:
        """The session of the text, and the program's first answer. The text stands in a file as long as it is read."""
        session = None
        try:
            with tempfile.TemporaryDirectory() as folder:
                path = os.path.join(folder, f"{self._called}.lotos")
                with open(path, "w", encoding="utf-8", errors="surrogateescape") as file:
                    file.write(text)
                session = Session(program, Words((path, *words.files[1:]), words.values))
                return session, session.opening()
        except Ended as end:
            raise NoNames(f"the {self._called} text is answered by {end.lines[0] if end.lines else end.how}") from None
        except (OSError, NoProgram) as fault:
            raise NoNames(f"the {self._called} text cannot be run: {fault}") from None
        except BaseException:
            if session:
                session.kill()
            raise

    def kill(self) -> None:
        """Ends the program at once."""
        self._session.kill()

    def follow(self, done: Sequence[Step]) -> None:
        """Comes to the state behind these steps of the first session."""
        more = len(done) - len(self.taken)
        if more == 1 and self._is_behind(done, 0):
            self._keep(done[-1])
        elif more == -1 and self._is_behind(done, 1):
            self._take_back()
        elif more != 0 or not self._is_behind(done, 0):
            self._go(done)

    def _take(self, step: Step) -> Tuple[int, Told]:
        """Takes a step of the first session: how many steps that are here, and what is told of it."""
        raise NotImplementedError

    def _keep(self, step: Step) -> None:
        self.taken.append(Taken(step, *self._take(step)))

    def _is_behind(self, done: Sequence[Step], but: int) -> bool:
        """Whether the steps that were taken, but for so many at the end, are the first of these. (The steps of an account are
        kept as they are, so that the last one tells those before it.)"""
        last = len(self.taken) - 1 - but
        return last < 0 or self.taken[last].step is done[last]

    def _go(self, done: Sequence[Step]) -> None:
        """Comes to the state behind any steps."""
        same = 0
        while same < min(len(done), len(self.taken)) and _is_same(done[same], self.taken[same].step):
            self.taken[same] = replace(self.taken[same], step=done[same])
            same += 1
        while len(self.taken) > same:
            self._take_back()
        for step in done[same:]:
            self._keep(step)

    def _take_back(self) -> None:
        for _ in range(self.taken.pop().count):
            self._ask("undo")

    def _ask(self, line: str) -> Answer:
        """The answer to a line that takes or takes back a step."""
        try:
            answer = self._session.ask(line)
        except Ended as end:
            raise NoNames(f"the {self._called} session ended {end.how}") from None
        if answer.menu is None:
            raise NoNames(f"the {self._called} session answers {line} by {answer.first}")
        self._menu = answer.menu
        return answer


def _is_same(one: Step, other: Step) -> bool:
    return (one.line, one.label) == (other.line, other.label)


def flat_and_own_text(program: str, words: Words) -> Tuple[str, str]:
    """The flat text of a specification, and its own. `NoNames` where there is none."""
    if not all(map(os.path.isfile, words.files)):
        raise NoNames("the specification is no plain file, and can be read once alone")
    try:
        flat = subprocess.run([program, *Words(words.files).line("flatten")], stdin=subprocess.DEVNULL, stdout=subprocess.PIPE,
                              check=False)
        with open(words.files[0], encoding="utf-8", errors="surrogateescape") as file:
            source = file.read(LARGEST_SOURCE + 1)
    except (OSError, ValueError) as fault:
        raise NoNames(str(fault)) from None
    text = flat.stdout.decode("utf-8", "surrogateescape")
    if len(text) > LARGEST_FLAT:
        raise NoNames(f"the flat text has more than {LARGEST_FLAT} letters")
    if flat.returncode != 0:
        raise NoNames(f"the text is not flattened: {text.strip() or f'status {flat.returncode}'}")
    return text, source
