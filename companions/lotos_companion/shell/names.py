"""The names of hidden events, as the shell shows them: behind each `i` of a menu, and behind the step that was taken."""
from __future__ import annotations

from typing import TYPE_CHECKING, Iterable, List, Optional, Tuple

from ..answers import Answer, Entry
from ..play import Play
from ..program import Words

if TYPE_CHECKING:
    from ..naming import HiddenEvent, NamedPlay


class Names:
    """Names that are shown or not. They stand beside the program's texts, and change nothing."""

    def __init__(self, wanted: bool):
        self.wanted = wanted
        self._why_off: Optional[str] = None

    def new_play(self, program: str, words: Words) -> Play:
        """A session that has not begun, with names if they are wanted."""
        self._why_off = None
        if not self.wanted:
            return Play(program, words)
        from ..naming import NamedPlay
        return NamedPlay(program, words)

    def play_like(self, play: Play) -> Play:
        """A session that has not begun, of the same program and words."""
        return self.new_play(play.program, play.words)

    def news(self, play: Play) -> Optional[str]:
        """Why there are no names, if that was not told yet."""
        named = self._named(play)
        why = named.why_off if named else None
        if why == self._why_off:
            return None
        self._why_off = why
        return why

    def of_menu(self, play: Play) -> List[Tuple[Entry, Optional[HiddenEvent]]]:
        """The entries of the menu with their names."""
        entries, named = play.menu.entries, self._named(play)
        names = named.names if named else []
        return list(zip(entries, names)) if len(names) == len(entries) else [(it, None) for it in entries]

    def lines(self, play: Play, entries: Optional[Iterable[Entry]] = None) -> List[str]:
        """The lines of entries, of all if they are not told, with names."""
        if not self._named(play) or not any(it.label.is_internal for it in play.menu.entries):
            return [it.line for it in entries] if entries is not None else list(play.menu.lines)
        from ..naming import named_line
        wanted = None if entries is None else {it.number for it in entries}
        return [named_line(it.line, name) for it, name in self.of_menu(play) if wanted is None or it.number in wanted]

    def said(self, play: Play, answer: Answer) -> Tuple[str, ...]:
        """What an answer says before its menu, with the name of the step that was taken."""
        named = self._named(play)
        names = named.step_names if named and answer.label == "i" else []
        return (f"{answer.said[0]} ({names[-1].text})", *answer.said[1:]) if names and names[-1] else answer.said

    def steps(self, play: Play) -> List[Optional[str]]:
        """What each step is called that was hidden."""
        named = self._named(play)
        return [it.text if it else None for it in named.step_names] if named else []

    def _named(self, play: Play) -> Optional[NamedPlay]:
        """The session as one with names, where they are wanted and it has some."""
        if not self.wanted:
            return None
        from ..naming import NamedPlay
        return play if isinstance(play, NamedPlay) else None
