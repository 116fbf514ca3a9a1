"""Commands that take many steps: the only internal event, steps by chance, and a shortest way to an event."""
from __future__ import annotations

from random import Random, randrange
from typing import Dict, Iterator, List, Optional

from ..answers import Answer, Entry
from .desk import Desk, counted, decimal
from .table import Command

# The steps that `auto` takes at most; the values among which `random` chooses for an entry, and the seconds that they may take.
MOST_INTERNAL = 1000
CHOSEN_AMONG = 12
SECONDS = 4.0


class Chance:
    """What takes more than one step."""

    def __init__(self, desk: Desk):
        self._desk = desk

    def commands(self) -> Dict[str, Command]:
        """The commands by their words."""
        return {
            "auto": Command("[N]", "takes the internal event as long as there is just one, at most N times", self._auto),
            "random": Command("N [SEED]", "takes N steps by chance, with values that fit", self._random),
            "until": Command("GATE [!TERM|?..]", "takes a shortest way to an event; .. within N looks N steps far", self._until),
        }

    # ---- Internal events ----

    def _auto(self, rest: str) -> None:
        most = decimal(rest) if rest else MOST_INTERNAL
        if most is None:
            self._desk.usage("auto [N]")
            return
        count = self._desk.say_moves(self._internal_steps(most))
        self._desk.own(f"{counted(count)}: {self._why_no_more(count, most)}")

    def _internal_steps(self, most: int) -> Iterator[Answer]:
        """Takes the internal event as long as the menu has just one."""
        for _ in range(most):
            entries = self._internal_entries()
            answer = self._desk.play.ask(f"step {entries[0].number}") if len(entries) == 1 else None
            if not answer or answer.label is None:
                return
            yield answer

    def _internal_entries(self) -> List[Entry]:
        return [it for it in self._desk.play.menu.entries if it.label.is_internal]

    def _why_no_more(self, count: int, most: int) -> str:
        """Why no further internal event is taken."""
        entries = self._internal_entries()
        if len(entries) != 1:
            return f"the menu has {len(entries) or 'no'} internal events"
        return f"no more than {most} are taken at once" if count == most else "the internal event asks for values"

    # ---- Steps by chance ----

    def _random(self, rest: str) -> None:
        first, _, said = rest.partition(" ")
        number = decimal(first)
        if number is None:
            self._desk.usage("random N [SEED]")
            return
        seed = said.strip(" ") or str(randrange(1_000_000))
        count = self._desk.say_moves(self._random_steps(number, Random(seed)))
        behind = ""
        if count < number:
            behind = ", and nothing is possible"
            if self._desk.play.menu.lines:
                behind = f", and no values were found that fit {self._open_numbers()}"
        self._desk.own(f"{counted(count)} with the seed {seed}{behind}")

    def _open_numbers(self) -> str:
        """The numbers of all entries."""
        return "entry " + ", ".join(it.number for it in self._desk.play.menu.entries)

    def _random_steps(self, number: int, random: Random) -> Iterator[Answer]:
        """Takes so many steps by chance, or as many as there can be."""
        for _ in range(number):
            answer = self._random_step(random)
            if not answer:
                return
            yield answer

    def _random_step(self, random: Random) -> Optional[Answer]:
        """Takes an entry by chance, with values that fit, or nothing where none is found for any."""
        entries = self._desk.play.menu.entries
        random.shuffle(entries)
        for entry in entries:
            if not entry.variables:
                return self._desk.play.ask(f"step {entry.number}")
            found = list(self._desk.fitting(entry, CHOSEN_AMONG, SECONDS)[0])
            random.shuffle(found)
            for values in found:
                answer = self._desk.play.ask(f"step {entry.number} {', '.join(values)}")
                if answer.label is not None:
                    return answer
        return None

    def _until(self, rest: str) -> None:
        from .until import Until
        Until(self._desk).take(rest)
