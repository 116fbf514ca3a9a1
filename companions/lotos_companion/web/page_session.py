"""What the page shows: a session with its branches, others that follow it, and the calls that move them."""
from __future__ import annotations

import threading
from random import Random, randrange
from typing import List, Optional, Sequence

from ..answers import Answer, Label
from ..exploring.limits import Limits
from ..exploring.ways import Goal, shortest_way
from ..fitting_values import fitting
from ..numbers import Numbers, numbers_of
from ..naming import NamedPlay
from ..play import Parted
from ..program import Words
from ..scenarios import play_scenario, read_scenario, result_lines, scenario_text
from ..scenarios.making import events_of_steps, scenario_of
from ..session import Ended
from ..traces import Step, read_trace_text
from .places import Places
from .reading import Event
from .side import Side, Taken

# The most steps by chance, and how far a way to an event is searched.
MOST_RANDOM = 1000
UNTIL = Limits(states=50_000, seconds=20.0)


class PageSession:
    """The leading specification and those beside it. One call is answered at a time; `stop` alone comes between."""

    def __init__(self, program: str, words: Sequence[Words], with_numbers: bool = False, with_names: bool = True):
        self.program = program
        self.with_names = with_names
        self.sides = [Side(it, NamedPlay(program, it, with_names), with_names) for it in words]
        self.lock = threading.RLock()
        self.with_numbers = with_numbers
        self._numbers: Optional[Numbers] = None
        self.epoch = 0
        self.places = Places()
        self.events: List[Event] = []
        self.taken: List[Taken] = []

    @property
    def lead(self) -> Side:
        """The leading one."""
        return self.sides[0]

    @property
    def play(self) -> NamedPlay:
        """Its session."""
        return self.lead.play

    def shown(self, text: str) -> str:
        """A text of the program as it is shown: with decimal numbers, if they are wanted."""
        return self.numbers.to_decimals(text) if self.with_numbers else text

    def meant(self, typed: str) -> str:
        """A typed text as the program is to have it."""
        return self.numbers.to_numerals(typed) if self.with_numbers else typed

    @property
    def numbers(self) -> Numbers:
        """Decimal numbers for the numerals of its data."""
        if self._numbers is None:
            self._numbers = numbers_of(self.play)
        return self._numbers

    @property
    def name(self) -> str:
        """The name of its specification."""
        return self.lead.opening[0][len("accepted "):] if self.lead.opening else ""

    def stop(self) -> None:
        """Ends what the programs do. The call that waits for them begins them anew."""
        for side in self.sides:
            side.play.stop()

    def close(self) -> None:
        """Ends all programs."""
        for side in self.sides:
            side.close()

    # ---- Moves ----

    def open(self) -> None:
        """Begins all. `Ended` where one is not accepted."""
        for side in self.sides:
            side.open()
        self._clear()

    def step(self, number: str, values: str) -> Answer:
        """Takes an entry of the leading one's menu; the others follow."""
        answer = self._take(f"step {number} {values}".rstrip())
        self._others()
        return answer

    def go(self, place: int) -> None:
        """Goes to a place that was reached before, back and then forth. `Parted` where it cannot be reached any more."""
        path, here = self.places.path(place), self.places.path(self.places.at)
        same = next((it for it, (one, other) in enumerate(zip(here, path)) if one != other), min(len(here), len(path)))
        for _ in here[same:]:
            self.play.ask("undo")
            self.places.go(self.places.all[self.places.at].parent)
        for it in path[same:]:
            if it == path[-1]:
                self.lead.reading.look()
            self.play.take(self.places.all[it].step)
            self.places.go(it)
        self._read(len(path) > same)
        self._others()

    def _read(self, is_forth: bool) -> None:
        """Reads the present state, behind a step or on the way back."""
        if is_forth:
            self.lead.reading.follow(Label.read(self.play.done[-1].label))
        else:
            self.lead.reading.look()

    def undo(self) -> None:
        """Goes back a step."""
        if self.places.at:
            self.go(self.places.all[self.places.at].parent)

    def redo(self) -> None:
        """Goes forth along the branch."""
        ahead = self.places.ahead()
        if ahead:
            self.go(ahead[0])

    def walk(self, count: int, seed: Optional[str]) -> str:
        """Takes steps by chance: what is said of it."""
        seed = seed or str(randrange(1_000_000))
        random = Random(seed)
        done = 0
        while done < min(count, MOST_RANDOM) and self._random_step(random):
            done += 1
        self._others()
        behind = "" if done == count else ", and no entry could be taken" if self.play.menu.lines else ", and nothing is possible"
        return f"{done} step{'' if done == 1 else 's'} with the seed {seed}{behind}"

    def until(self, event: str) -> str:
        """Takes a shortest way to an event, which is a gate, and values behind `!` where they matter: what is said of it."""
        gate, *values = (it.strip() for it in event.split("!"))
        lines = [it.line for it in self.places.steps(self.places.at)]
        try:
            found = shortest_way(self.program, self.lead.words, Goal(gate, tuple(values) or None), steps=lines, limits=UNTIL)
        except ValueError as fault:
            return str(fault)
        if found.way is None:
            bound = f"; the search was cut: {found.cut}" if found.cut else ""
            return f"no way to {event} was found among {found.states} states{bound}"
        for step in found.way:
            self._take(step.line)
        self._others()
        count = len(found.way)
        return f"{count} step{'' if count == 1 else 's'} to {self.places.all[self.places.at].step.label}"

    def load(self, text: str) -> str:
        """Takes the steps of a trace or of a scenario from the first state on, as far as they fit: what is said of it."""
        return self._replay(text) if text.startswith("lotos-trace ") else self._play(text)

    def _replay(self, text: str) -> str:
        steps = read_trace_text(text).steps
        self.go(0)
        for count, step in enumerate(steps):
            answer = self._take(step.line)
            if answer.label != step.label:
                if answer.label is not None:
                    self.undo()
                found = answer.first if answer.label is None else f"it comes to {answer.label}"
                self._others()
                return f"parts at step {count + 1} of {len(steps)}: {step.line} => {step.label}: {found}"
        self._others()
        return f"replayed {len(steps)}"

    def _play(self, text: str) -> str:
        """Searches the way of a scenario in a session beside this one, and takes it."""
        beside = NamedPlay(self.program, self.lead.words, self.with_names)
        try:
            result = play_scenario(beside, read_scenario(text))
        finally:
            beside.kill()
        self.go(0)
        for taken in result.taken:
            self._take(taken.step.line)
        self._others()
        return "\n".join([f"scenario {result.verdict.value}", *result_lines(result)])

    def scenario(self) -> str:
        """The scenario of the steps that led here, by what their events are called."""
        beside = NamedPlay(self.program, self.lead.words, self.with_names)
        try:
            events = events_of_steps(beside, self.places.steps(self.places.at))
        finally:
            beside.kill()
        return scenario_text(scenario_of(events, self.lead.words.line("run")[1:]), ())

    def restart(self) -> None:
        """Begins the sessions anew whose program has ended, and takes their steps again. `Ended` where one ends again, `Parted`
        where a step is not possible any more."""
        path = self.places.path(self.places.at)
        for side in self.sides:
            if side.is_answering():
                continue
            steps = self.places.steps(self.places.at) if side is self.lead else []
            try:
                side.play.reopen(steps, [])
            except Parted:
                self.places.go([0, *path][len(side.play.done)])
                raise
            finally:
                side.followed, side.differs, side.parted = [], [], None
            side.reading.look()
        self._others()

    def reload(self) -> str:
        """Reads all files anew and takes the steps again, as far as they are possible: what is said of it."""
        steps = self.places.steps(self.places.at)
        for side in self.sides:
            anew = side.play.another()
            anew.open()
            anew.kill()
        sides = [Side(it.words, NamedPlay(self.program, it.words, self.with_names), self.with_names) for it in self.sides]
        self.close()
        self.sides = sides
        self.open()
        for count, step in enumerate(steps):
            answer = self._take(step.line)
            if answer.label != step.label:
                if answer.label is not None:
                    self.undo()
                self._others()
                return f"read anew; {count} of {len(steps)} steps taken again"
        self._others()
        return f"read anew; all {len(steps)} steps taken again"

    def _clear(self) -> None:
        """Forgets all branches."""
        self.epoch += 1
        self._numbers = None
        self.places = Places()
        self.events = [Event((), self.lead.reading.there())]
        self.taken = [Taken("", None, Step("", "", ""), self.lead.reading.text, 0)]

    def _take(self, line: str) -> Answer:
        """Takes a step of the leading one."""
        number = line.split(" ")[1] if line.count(" ") else ""
        digest = self.lead.digest()
        entry = next((it for it in self.play.menu.lines if it.startswith(f"{number}: ")), "")
        answer = self.play.ask(line)
        if answer.label is None:
            return answer
        event = self.lead.reading.follow(Label.read(answer.label))
        place = self.places.take(self.play.done[-1])
        if place == len(self.events):
            self.events.append(event)
            self.taken.append(Taken(entry, self.play.step_names[-1], self.play.done[-1], self.lead.reading.text, digest))
        return answer

    def _others(self) -> None:
        """Has the others follow."""
        path = self.places.path(self.places.at)
        for side in self.sides[1:]:
            side.follow(path, self.taken.__getitem__)

    def _random_step(self, random: Random) -> bool:
        """Takes an entry by chance, with values that fit: whether there was one."""
        entries = self.play.menu.entries
        random.shuffle(entries)
        for entry in entries:
            values = [""] if not entry.variables else [", ".join(it) for it in fitting(self.play, entry, 12)]
            random.shuffle(values)
            for it in values[:3]:
                if self._take(f"step {entry.number} {it}".rstrip()).label is not None:
                    return True
        return False

