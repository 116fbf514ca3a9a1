"""The shell itself: lines are read and answered, and the session is taken up again where a command or the program ended."""
from __future__ import annotations

from typing import Dict, List, NamedTuple, Optional

from ..answers import Entry
from ..completion import Ending, Known, endings
from ..line_reader import make_reader
from ..play import Parted
from ..program import Words
from ..screen import Screen
from ..session import Ended
from .chance import Chance
from .choosing import Choosing, values_to_complete
from .desk import Desk
from .keeping import Keeping
from .looking import Looking
from .moving import Moving
from .names import Names
from .table import PROGRAM_LINES, Command, Group


class Ways(NamedTuple):
    """How the shell shows: with decimal numbers, with names of hidden events, or the program's lines alone."""

    numbers: bool = False
    names: bool = False
    plain: bool = False


class Shell:
    """A prompt before a session. What it says of events is the program's text; its own lines begin with `#`."""

    def __init__(self, program: str, words: Words, screen: Screen, ways: Ways = Ways()):
        names = Names(ways.names and not ways.plain)
        self._desk = Desk(names.new_play(program, words), screen, names)
        self._screen = screen
        self._is_plain = ways.plain
        self._choosing = Choosing(self._desk)
        looking = Looking(self._desk, lambda: self._groups)
        self._groups: List[Group] = [] if ways.plain else [
            Group("taking events", {**self._choosing.commands(), **Chance(self._desk).commands()}),
            Group("back and forth", Moving(self._desk).commands()),
            Group("looking", looking.commands()),
            Group("files", Keeping(self._desk).commands())]
        self._commands: Dict[str, Command] = {word: it for group in self._groups for word, it in group.commands.items()}
        self._desk.reader = make_reader(self._endings, screen.colour)
        self._desk.set_numbers(ways.numbers and not ways.plain)

    def run(self) -> int:
        """Shows the first menu and answers lines, up to the end: the status."""
        try:
            return self._run()
        finally:
            self._desk.play.kill()

    def _run(self) -> int:
        try:
            opening = self._desk.play.open()
        except Ended as end:
            self._screen.program_says(end.lines)
            return _status(end)
        self._desk.say(opening)
        if self._desk.reader.is_terminal and not self._is_plain:
            self._desk.own("help lists the commands, Tab completes, Ctrl-D ends the session")
        self._say_news()
        status = self._serve_lines()
        self._desk.reader.keep_history()
        return status

    def _serve_lines(self) -> int:
        while True:
            try:
                line = self._desk.reader.read(self._prompt())
            except KeyboardInterrupt:
                self._desk.reader.drop()
                continue
            text = "quit" if line is None else line.strip(" \t\r\n")
            if text == "quit":
                return self._desk.play.quit()
            ended = self._serve(text)
            if ended is not None:
                return ended

    def _serve(self, line: str) -> Optional[int]:
        """Answers one line; a status where the session cannot go on."""
        desk = self._desk
        try:
            if not desk.play.is_open:
                desk.play.reopen(desk.play.done, desk.play.undone)
            self._answer(line)
            desk.follow()
            self._say_news()
        except KeyboardInterrupt:
            desk.reader.drop()
            return self._after_interrupt()
        except Ended as end:
            self._screen.program_says(end.lines)
            desk.own(f"the program ended {end.how}")
            return self._rebuild() if desk.reader.is_terminal else _status(end)
        except Parted as parted:
            desk.say_parted(parted)
        finally:
            desk.home = None
        return None

    def _say_news(self) -> None:
        """Says why there are no names, where there are none."""
        why = self._desk.names.news(self._desk.play)
        if why:
            self._desk.own(f"hidden events have no names: {why}")

    def _after_interrupt(self) -> Optional[int]:
        """Takes the session up again after Ctrl-C, however often it is pressed."""
        while True:
            try:
                self._screen.plain("")
                self._desk.own("ended by Ctrl-C")
                return self._rebuild()
            except KeyboardInterrupt:
                continue

    def _rebuild(self) -> Optional[int]:
        """Begins anew after the program was ended, and takes the steps again; a status where that is not possible."""
        desk, play = self._desk, self._desk.play
        done, undone = desk.home or (list(play.done), list(play.undone))
        try:
            play.reopen(done, undone)
        except KeyboardInterrupt:
            play.kill()
            play.done, play.undone = done, undone
            desk.own("the steps are taken again at the next line")
            return None
        except Ended as end:
            self._screen.program_says(end.lines)
            desk.own(f"the session cannot be taken up again: the program ended {end.how}")
            return _status(end)
        except Parted as parted:
            desk.say_parted(parted)
        desk.own(f"the session goes on behind step {len(play.done)}")
        return None

    def _answer(self, line: str) -> None:
        if self._is_plain:
            self._screen.program_says(self._desk.play.ask(line).lines)
            return
        word, _, rest = line.partition(" ")
        if word.isascii() and word.isdigit():
            word, rest = "step", line
        command = self._commands.get(word)
        if self._choosing.take_line(line):
            return
        if command:
            command.call(rest.strip(" \t"))
        elif line:
            self._desk.say(self._desk.play.ask(line))

    def _prompt(self) -> str:
        """The prompt, which tells where one is: the branch if there are several, the step, and how many there are."""
        if not self._desk.reader.is_terminal:
            return ""
        play, tree = self._desk.play, self._desk.tree
        tree.follow(play.done, play.undone)
        here, last = len(play.done), len(play.done) + len(play.undone)
        branch = f"{tree.here.branch}:" if tree.count > 1 else ""
        return f"lotos {branch}{here}{f'/{last}' if last > here else ''}> "

    def _endings(self, line: str) -> List[Ending]:
        """How a line can go on."""
        desk = self._desk
        words = {word: what for word, _, what in PROGRAM_LINES}
        words.update({word: it.what for word, it in self._commands.items()})
        entries = [Entry.read(desk.screen.change(it)) for it in desk.names.lines(desk.play)]
        gates = [*desk.play.signature.gates, *(it.label.gate for it in desk.play.menu.entries)]
        places = [*desk.tree.marks, *(f"{it}:" for it in range(1, desk.tree.count + 1))]
        return endings(line, Known(words, entries, desk.play.signature, gates, places, lambda it: values_to_complete(desk, it)))


def _status(end: Ended) -> int:
    """The status of the shell where the program ended before its time."""
    return 128 - end.status if end.status < 0 else end.status
