"""Which parts of the source the events of a session stand for."""
from __future__ import annotations

from typing import List, Optional, Tuple

from ..naming.following import NoNames
from ..play import Play
from .marked_session import MarkedSession
from .occurrences import Occurrence, Parts


class Actions:
    """What takes part in the events of a session, as a session of a marked text tells it, which follows when it is asked.

    Where nothing can be told, `why_off` says why, and all answers are empty.
    """

    def __init__(self, play: Play):
        self._play = play
        self._marked: Optional[MarkedSession] = None
        self.why_off: Optional[str] = None

    def entries(self) -> List[Parts]:
        """What takes part in each entry of the present menu, in its order."""
        marked = self._following()
        if marked:
            try:
                return marked.parts(self._play.menu)
            except NoNames as fault:
                self._end(str(fault))
            except BaseException:  # Then the marked session may be anywhere; another one follows when it is asked again.
                self.kill()
                raise
        return [()] * len(self._play.menu.lines)

    def steps(self) -> List[Parts]:
        """What took part in each step that was taken."""
        marked = self._following()
        return [it.told for it in marked.taken] if marked else [()] * len(self._play.done)

    def occurrences(self) -> Tuple[Occurrence, ...]:
        """All that can happen in the text: events, `i;`, ends before `>>` and calls, in the order of the flat text."""
        marked = self._following()
        return marked.occurrences if marked else ()

    def marked_state(self) -> Optional[Tuple[str, MarkedSession]]:
        """The text of the state with its marks, and the session that reads them."""
        marked = self._following()
        return (marked.state(), marked) if marked else None

    def kill(self) -> None:
        """Ends the marked session."""
        marked, self._marked = self._marked, None
        if marked:
            marked.kill()

    def _following(self) -> Optional[MarkedSession]:
        """The marked session in the state of the first one, or nothing where it cannot follow."""
        if self.why_off is not None:
            return None
        try:
            if not self._marked:
                self._marked = MarkedSession(self._play.program, self._play.words)
            self._marked.follow(self._play.done)
        except NoNames as fault:
            self._end(str(fault))
        except BaseException:
            self.kill()
            raise
        return self._marked

    def _end(self, why: str) -> None:
        self.why_off = why
        self.kill()
