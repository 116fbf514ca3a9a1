"""Commands that write and read files: traces, and the specification once it was edited."""
from __future__ import annotations

import os
from typing import Dict, List, Optional, Sequence

from ..play import Parted, Play
from ..session import Ended
from ..traces import Step
from .desk import Desk, counted
from .table import Command


class Keeping:
    """What has to do with files. `left` are all steps, by what they are called, where a reload could not take them again."""

    def __init__(self, desk: Desk):
        self._desk = desk
        self._left: List[str] = []

    def commands(self) -> Dict[str, Command]:
        """The commands by their words."""
        return {
            "save": Command("NAME", "puts the trace into a file that is not there yet", self._save),
            "save!": Command("NAME", "puts the trace into a file, whatever it holds", self._save_over),
            "reload": Command("", "reads the specification anew and takes the steps again", self._reload),
            "rebase": Command("", "looks for the steps that a reload lost by what their events are called", self._rebase),
        }

    def _save(self, rest: str) -> None:
        if rest and os.path.isdir(rest):
            self._desk.own(f"not saved: {rest} is a folder")
        elif rest and os.path.exists(rest) and not self._desk.reader.agrees(f"{rest} is there. Write over it?"):
            self._desk.own(f"not saved: {rest} is there (save! {rest} writes over it)")
        else:
            self._save_over(rest)

    def _save_over(self, rest: str) -> None:
        self._desk.say(self._desk.play.ask(f"save {rest}"))

    # ---- A specification that was edited ----

    def _reload(self, _rest: str) -> None:
        """Reads the files anew. Where the specification is refused the session stays as it was."""
        desk, old = self._desk, self._desk.play
        anew = self._opened()
        if not anew:
            return
        done, called = list(old.done), self._called(old)
        parted = self._retaken(anew, old)
        desk.begin(anew)
        desk.follow()
        if parted:
            desk.say_parted(parted)
        kept = self._kept(called)
        if kept < len(anew.done):
            desk.own_text(f"step {kept + 1} was {called[kept]}, and is another hidden event now")
            for _ in anew.move(kept):
                anew.undone = []
        desk.own(f"{len(anew.done)} of {counted(len(done))} taken again")
        self._left = _scenario(done, called) if len(anew.done) < len(done) else []
        if self._left:
            desk.own("rebase looks for the other steps by what their events are called")
        desk.say_menu()

    def _opened(self) -> Optional[Play]:
        """A session of the files as they are now, or nothing where the program does not accept them."""
        anew = self._desk.names.play_like(self._desk.play)
        try:
            answer = anew.open()
        except Ended as end:
            self._desk.screen.program_says(end.lines)
            self._desk.own("the session stays as it was")
            return None
        self._desk.screen.program_says(answer.said)
        return anew

    def _retaken(self, anew: Play, old: Play) -> Optional[Parted]:
        """Takes the steps of a session again in another one, in place of it: where the two part, if they do."""
        done, undone = list(old.done), list(old.undone)
        old.kill()
        try:
            anew.retake(done, undone)
        except Parted as parted:
            return parted
        return None

    def _called(self, play: Play) -> List[str]:
        """What the steps of a session are called."""
        names = self._desk.names.steps(play)
        return [f"i ({name})" if name else step.label for step, name in zip(play.done, [*names, *[None] * len(play.done)])]

    def _kept(self, called: Sequence[str]) -> int:
        """How many of the steps are called as before, as far as both are told."""
        for place, (one, other) in enumerate(zip(called, self._called(self._desk.play))):
            if one != other and "i" not in (one, other):
                return place
        return len(self._desk.play.done)

    def _rebase(self, _rest: str) -> None:
        """Looks for the steps that were lost, and takes the way that is found."""
        if not self._left:
            self._desk.own("there is nothing that a reload lost")
            return
        from .rebasing import take_again
        if take_again(self._desk, self._left):
            self._left = []


def _scenario(steps: Sequence[Step], called: Sequence[str]) -> List[str]:
    """The lines of a scenario of some steps."""
    return [name + (f" for {step.values}" if step.values and step.label == "i" else "") for step, name in zip(steps, called)]
