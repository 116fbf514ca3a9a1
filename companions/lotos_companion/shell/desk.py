"""What the commands of the shell share: the session, the tree of its branches, the screen, and how answers are shown."""
from __future__ import annotations

from typing import Dict, Iterable, List, Optional, Sequence, Tuple

from ..answers import REFUSAL, Answer, Entry, split_terms
from ..branches import Branches
from ..fitting_values import Fitting, Values
from ..line_reader import LineReader
from ..numbers import Numbers, numbers_of
from ..play import Parted, Play
from ..screen import Screen
from ..session import Ended
from ..traces import Step
from .names import Names

Steps = List[Step]


class Desk:
    """The place where commands work. `home` is the way that is taken again if a command that left it is ended."""

    def __init__(self, play: Play, screen: Screen, names: Names):
        self.play = play
        self.names = names
        self.screen = screen
        self.reader = LineReader()
        self.tree = Branches()
        self.home: Optional[Tuple[Steps, Steps]] = None
        self.with_numbers = False
        self._numbers: Optional[Numbers] = None
        self._fitting: Dict[Tuple[str, ...], Tuple[List[Values], str]] = {}

    def follow(self) -> None:
        """Has the tree know where the session is."""
        self.tree.follow(self.play.done, self.play.undone)
        self.tree.call(self.names.steps(self.play))

    # ---- Numbers ----

    @property
    def numbers(self) -> Numbers:
        """The numerals of the data."""
        if self._numbers is None:
            self._numbers = numbers_of(self.play)
        return self._numbers

    def set_numbers(self, wanted: bool) -> None:
        """Has numbers read and shown as decimal ones, or not."""
        self.with_numbers = wanted
        self.screen.change = self._shown if wanted else lambda line: line

    def _shown(self, line: str) -> str:
        if "(0" not in line or not self.play.is_open:
            return line
        try:
            return self.numbers.to_decimals(line)
        except Ended:  # The program is asked of names that are numbers, and may have ended with this line.
            return line

    def readings(self, text: str) -> List[str]:
        """What a text with terms may mean: itself, where numbers are not decimal."""
        return self.numbers.readings(text) if self.with_numbers else [text]

    def begin(self, play: Play) -> None:
        """Takes a session in place of the one that there was."""
        self.play = play
        self._numbers = None
        self._fitting = {}

    # ---- What is said ----

    def own(self, line: str) -> None:
        """Says a line of the shell's own."""
        self.screen.own(line)

    def own_text(self, line: str, stands_out: bool = False) -> None:
        """Says a line of the shell's own that has terms in it."""
        self.screen.own(self.screen.change(line), stands_out)

    def say(self, answer: Answer, is_whole: bool = False) -> None:
        """Shows an answer; on a terminal no more of its menu than fits, unless the whole is asked for."""
        self.screen.program_says(self.names.said(self.play, answer))
        if answer.menu:
            self.screen.program_says([answer.menu.head])
            self.say_lines(self.names.lines(self.play), is_whole)

    def say_lines(self, lines: Sequence[str], is_whole: bool = False) -> None:
        """Shows lines of the menu; on a terminal no more than fit, unless all are asked for."""
        most = len(lines) if is_whole or not self.reader.is_terminal else max(self.screen.height - 5, 10)
        self.screen.program_says(lines[:most])
        if len(lines) > most:
            self.own(f"and {len(lines) - most} more: menu shows all, find TEXT those with a text")

    def say_menu(self) -> None:
        """Shows the present menu."""
        self.say(Answer((), self.play.menu))

    def say_entries(self, entries: Iterable[Entry]) -> None:
        """Shows some entries of the menu, as `say_lines` does."""
        self.say_lines(self.names.lines(self.play, entries))

    def say_parted(self, parted: Parted) -> None:
        """Shows what is answered now to a step that came to another event before."""
        step, label = parted.step, parted.answer.label
        if label is None:
            self.screen.program_says(parted.answer.said)
            self.own_text(f"{step.line} came to {step.label} before")
        else:
            self.own_text(f"{step.line} came to {step.label} before, and comes to {label} now")

    def say_moves(self, answers: Iterable[Answer]) -> int:
        """Shows the first line of each answer as it comes, and the menu of the last one: how many they are."""
        count = 0
        for count, answer in enumerate(answers, 1):
            self.screen.program_says(self.names.said(self.play, answer))
        if count:
            self.say_menu()
        return count

    def usage(self, words: str) -> None:
        """Says how a command is written."""
        self.own(f"usage: {words}")

    # ---- What is asked ----

    def ask_step(self, number: str, terms: str) -> Answer:
        """Asks for a step with terms for the variables of an entry."""
        entry = self.entry(number)
        readings = [terms]
        if self.with_numbers and entry:
            readings = self.numbers.readings_at(split_terms(terms), entry.sorts)
            if readings == [", ".join(split_terms(terms))]:
                readings = [terms]
        return self._ask_readings(f"step {number}", terms, readings)

    def ask_with_terms(self, before: str, terms: str) -> Answer:
        """Asks a line with terms behind it."""
        return self._ask_readings(before, terms, self.readings(terms))

    def _ask_readings(self, before: str, terms: str, readings: Sequence[str]) -> Answer:
        """Asks a line with what terms may mean: numbers in them are names of the data, or numerals where these are refused. The
        line that is asked is shown where it is another one."""
        answer, reading = Answer(()), terms
        for reading in readings:
            answer = self.play.ask(f"{before} {reading}")
            if not answer.first.startswith("refused 804 "):
                break
        if reading != terms:
            self.own(f"{before} {reading}")
        return answer

    def normal(self, term: str) -> Optional[str]:
        """The normal form of a term, or nothing where it is none."""
        for reading in self.readings(term):
            answer = self.play.ask(f"normal {reading}").first
            if answer and not REFUSAL.fullmatch(answer):
                return answer
        return None

    def fitting(self, entry: Entry, most: int, seconds: float) -> Tuple[List[Values], str]:
        """Values that fit an entry, and what ended the search. They are kept, since they depend on its sorts and conditions."""
        key = (*entry.sorts, entry.conditions, str(most))
        if key not in self._fitting:
            search = Fitting(self.play, entry, most, seconds)
            found = list(search)
            self._fitting[key] = (found, search.why_ended)
        return self._fitting[key]

    def entry(self, number: str) -> Optional[Entry]:
        """The entry of the menu with a number."""
        return next((it for it in self.play.menu.entries if it.number == number), None)

    def take_way(self, steps: Sequence[Step]) -> Iterable[Answer]:
        """The answers on the way to the state behind these steps: back to where the ways part, and forth."""
        common = 0
        for one, other in zip(self.play.done, steps):
            if (one.line, one.label) != (other.line, other.label):
                break
            common += 1
        yield from self.play.move(common)
        for step in steps[common:]:
            yield self.play.take(step)


def counted(number: int, word: str = "step") -> str:
    """A number of things."""
    return f"{number} {word}{'' if number == 1 else 's'}"


def decimal(text: str) -> Optional[int]:
    """A number that was typed, or nothing if it is none."""
    return int(text) if text.isascii() and text.isdigit() and len(text) < 10 else None
