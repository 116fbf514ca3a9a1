"""A session with the names of its hidden events, which a second session tells."""
from __future__ import annotations

from typing import Callable, List, Optional, Sequence, TypeVar

from ..answers import Answer
from ..play import Play
from ..program import Words
from .following import NoNames
from .hidden_events import HiddenEvent
from .second_session import SecondSession

Told = TypeVar("Told")


class NamedPlay(Play):
    """A `Play` whose events `i` have names.

    `names` has one for each entry of the menu, or `None`; `step_names` one for each step of `done`. Where there are no names,
    `why_off` says why, and all of them are `None`. What is answered is the program's in any case: names change no answer.
    """

    def __init__(self, program: str, words: Words, with_names: bool = True):
        super().__init__(program, words)
        self.has_wanted_names = with_names
        self._second: Optional[SecondSession] = None
        self.why_off: Optional[str] = None if with_names else "names are not wanted"

    @property
    def names(self) -> List[Optional[HiddenEvent]]:
        """The names of the entries of the menu, in their order."""
        names = self._guarded(lambda second: second.names())
        return [None] * len(self.menu.lines) if names is None else list(names)

    @property
    def step_names(self) -> List[Optional[HiddenEvent]]:
        """The names of the steps that were taken, in their order."""
        return [it.told for it in self._second.taken] if self._second else [None] * len(self.done)

    def open(self) -> Answer:
        """Begins in the first state, the second session with it."""
        answer = super().open()
        if self.has_wanted_names:
            self.why_off = None
            try:
                self._second = SecondSession(self._program, self._words)
            except NoNames as fault:
                self.why_off = str(fault)
            self._follow_names()
        return answer

    def ask(self, line: str) -> Answer:
        """The answer to a line, which the account and the names follow."""
        answer = super().ask(line)
        if answer.menu:
            self._follow_names()
        return answer

    def quit(self) -> int:
        """Ends the program as the end of its input does, and the second session: the first one's status."""
        self._end_second()
        return super().quit()

    def kill(self) -> None:
        """Ends both sessions at once."""
        self._end_second()
        super().kill()

    def _follow_names(self) -> None:
        """Brings the second session to the state of the first one."""
        self._guarded(lambda second: second.follow_and_compare(self.done, self.menu))

    def _guarded(self, call: Callable[[SecondSession], Told]) -> Optional[Told]:
        """What a call of the second session comes to, or nothing where there is none. It ends where it differs, and where the call
        is interrupted: then it may be anywhere."""
        if not self._second:
            return None
        try:
            return call(self._second)
        except NoNames as fault:
            self._end_names(str(fault))
        except BaseException:
            self._end_names("the second session was interrupted")
            raise
        return None

    def _end_names(self, why: str) -> None:
        self.why_off = why
        self._end_second()

    def _end_second(self) -> None:
        second, self._second = self._second, None
        if second:
            second.kill()


def named_lines(lines: Sequence[str], names: Sequence[Optional[HiddenEvent]]) -> List[str]:
    """The lines of a menu's entries, each `i` with its name behind it."""
    return [named_line(line, name) for line, name in zip(lines, names)]


def named_line(line: str, name: Optional[HiddenEvent]) -> str:
    """The line of an entry with a name behind its `i`."""
    if name is None:
        return line
    number, _, behind = line.partition(": i")
    return f"{number}: i ({name.text}){behind}"
