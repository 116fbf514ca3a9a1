"""Commands that show: the menu, what entries lead to, terms, and what the shell can do."""
from __future__ import annotations

from typing import Callable, Dict, Sequence

from ..answers import Entry
from ..play import Parted
from ..session import Ended
from .desk import Desk
from .table import PROGRAM_LINES, Command, Group


class Looking:
    """What changes nothing."""

    def __init__(self, desk: Desk, groups: Callable[[], Sequence[Group]]):
        self._desk = desk
        self._groups = groups

    def commands(self) -> Dict[str, Command]:
        """The commands by their words."""
        return {
            "help": Command("[WORD]", "lists the commands", self._help),
            "menu": Command("", "the menu, all of it", lambda rest: self._desk.say(self._desk.play.ask(f"menu {rest}"), True)),
            "state": Command("", "the components of the state, with > at what moved last", self._state),
            "find": Command("TEXT", "the entries of the menu with a text", self._find),
            "which": Command("[N [TERM, ..]]", "the state that each entry, or entry N, leads to", self._which),
            "normal": Command("TERM", "the normal form of a term", lambda rest: self._data("normal", rest)),
            "equal": Command("TERM, TERM", "whether two terms are equal", lambda rest: self._data("equal", rest)),
            "numbers": Command("on|off", "reads and shows numerals as decimal numbers", self._switch_numbers),
            "names": Command("on|off", "names the hidden events: behind each i stands what it is", self._switch_names),
        }

    def _help(self, rest: str) -> None:
        for group in self._groups():
            found = {word: it for word, it in group.commands.items() if rest in ("", word)}
            if found and not rest:
                self._desk.own(f"-- {group.title} --")
            for word, command in found.items():
                self._desk.own(f"{f'{word} {command.words}'.strip().ljust(26)}  {command.what}")
        program = [it for it in PROGRAM_LINES if rest in ("", it[0])]
        if not rest:
            self._desk.own("-- the program's own lines --")
        for word, words, what in program:
            self._desk.own(f"{f'{word} {words}'.strip().ljust(26)}  {what}")

    def _find(self, rest: str) -> None:
        menu = self._desk.play.menu
        texts = {rest, *self._desk.readings(rest)}
        change = self._desk.screen.change
        lines = self._desk.names.lines(self._desk.play)
        found = [it for it in lines if any(text in it for text in texts) or rest in change(it)]
        self._desk.screen.program_says(found)
        self._desk.own(f"{len(found)} of {len(menu.lines)}")

    def _state(self, _rest: str) -> None:
        from .states import States
        States(self._desk).show()

    def _data(self, word: str, rest: str) -> None:
        self._desk.say(self._desk.ask_with_terms(word, rest))

    def _which(self, rest: str) -> None:
        """Shows for each entry the state behind it: takes the step, has the state shown, and takes the step back."""
        play = self._desk.play
        self._desk.home = (list(play.done), list(play.undone))
        number, _, terms = rest.partition(" ")
        entries = play.menu.entries
        if rest and number not in [it.number for it in entries]:
            self._desk.say(play.ask(f"step {number}"))
            return
        present = play.ask("show").first
        for entry in entries:
            if not rest or entry.number == number:
                self._show_behind(entry, terms.strip(" "), present)
        play.undone = self._desk.home[1]

    def _show_behind(self, entry: Entry, terms: str, present: str) -> None:
        """Shows an entry and the state behind it; in colours, what is new in it against the present one stands out."""
        desk = self._desk
        desk.say_entries([entry])
        if entry.variables and not terms:
            desk.own(f"  asks for values: which {entry.number} TERM, ..")
            return
        answer = desk.ask_step(entry.number, terms) if terms else desk.play.ask(f"step {entry.number}")
        if answer.label is None:
            desk.screen.program_says(answer.lines, "   ")
            return
        state = desk.play.ask("show").first
        desk.play.ask("undo")
        desk.screen.program_says(answer.said if terms else (), "   ")
        desk.screen.says_changed(state, present, "   ")

    def _switch_numbers(self, rest: str) -> None:
        if rest in ("on", "off"):
            self._desk.set_numbers(rest == "on")
        self._desk.own("numerals are shown as decimal numbers" if self._desk.with_numbers
                       else "numerals are shown as the program prints them")

    def _switch_names(self, rest: str) -> None:
        """Begins a session anew with names or without them, and takes the steps again."""
        desk = self._desk
        if rest in ("on", "off") and (rest == "on") != desk.names.wanted:
            before = desk.names.wanted
            desk.names.wanted = rest == "on"
            if not self._begin_anew():
                desk.names.wanted = before
        desk.own("hidden events have names" if desk.names.wanted else "hidden events are shown as the program prints them")

    def _begin_anew(self) -> bool:
        """Takes the steps again in a new session in place of the present one; whether that is possible."""
        desk = self._desk
        anew = desk.names.play_like(desk.play)
        try:
            anew.reopen(desk.play.done, desk.play.undone)
        except (Ended, Parted):
            anew.kill()
            desk.own("the specification cannot be read as it was: reload reads it anew")
            return False
        desk.play.kill()
        desk.begin(anew)
        return True
