"""Values that fit an entry with variables, smallest ones first. The program alone says which fit.

`instances N K` tells them as long as there are not too many values, or ways to choose them, of one size for all variables.
Behind that each sort has a list of its own that grows, and the conditions of the entry are asked one by one with `equal`, in a
session beside the one that is looked at. Nothing here changes the state of a session, which has to stay the same meanwhile.
"""
from __future__ import annotations

import re
import time
from threading import Timer
from typing import Iterator, List, Set, Tuple

from .answers import REFUSAL, Entry, split_terms
from .grown_values import GrownValues, Places, choices
from .play import Play
from .session import Ended

# The largest size that the program lists, the seconds that a search takes, and how many choices are tried one by one.
LARGEST = 64
SECONDS = 2.0
MOST_TRIED = 5000
# Behind the last choice that was new, so many times as many are tried as before it, and so many more.
PATIENCE = (4, 200)

VARIABLE = re.compile(r"\$[1-9][0-9]*")
Values = Tuple[str, ...]


def fitting(play: Play, entry: Entry, most: int, seconds: float = SECONDS) -> Iterator[Values]:
    """At most so many tuples of values that fit an entry of the present menu, each once, one term for each variable."""
    return iter(Fitting(play, entry, most, seconds))


class Fitting:
    """A search for values that fit an entry; `why_ended` says, once it is over, what ended it."""

    def __init__(self, play: Play, entry: Entry, most: int, seconds: float = SECONDS):
        self._play = play
        self._entry = entry
        self._most = most
        self._seconds = seconds
        self._left = seconds
        self._seen: Set[Values] = set()
        self._size = 0
        self._wants_larger = True
        self.why_ended = "the entry has no variables"

    def __iter__(self) -> Iterator[Values]:
        if not self._entry.variables:
            yield from [()][:self._most]
            return
        for search in (self._listed, self._grown):
            for values in search() if self._wants_larger else ():
                if len(self._seen) == self._most:
                    self.why_ended = f"more than {self._most} are not looked for"
                    return
                if values not in self._seen:
                    self._seen.add(values)
                    yield values

    def _listed(self) -> Iterator[Values]:
        """Those that the program lists, size by size: up to twice the size, and a little more, of the last that was new."""
        last_new = 0
        for size in range(1, LARGEST + 1):
            begin = time.monotonic()
            answer = self._play.ask(f"instances {self._entry.number} {size}")
            if REFUSAL.fullmatch(answer.first):
                return
            self.why_ended = f"values with more than {size} operations were not looked at"
            self._size = size
            taken = time.monotonic() - begin
            self._left -= taken
            found = [_values(it) for it in answer.lines[1:]]
            last_new = size if any(it not in self._seen for it in found) else last_new
            yield from found
            if last_new and size > 2 * last_new + 2:
                self._wants_larger = False
                return
            if self._left < 3 * taken:  # The next size takes longer.
                self._wants_larger = not self._seen
                return

    def _grown(self) -> Iterator[Values]:
        """Those found among values that are grown sort by sort, in a session of their own that is ended when time is up."""
        data = self._play.another()
        timer = Timer(max(self._left, self._seconds / 4), data.stop)
        try:
            data.open()
            timer.start()
            yield from self._tried(data)
        except Ended:
            self.why_ended = f"more than {self._seconds:g} seconds are not taken"
        finally:
            timer.cancel()
            data.kill()

    def _tried(self, data: Play) -> Iterator[Values]:
        """Tries values from lists that grow, those of small places first."""
        tried: Set[Places] = set()
        last_new = MOST_TRIED
        for total, lists in enumerate(GrownValues(data, self._play.signature, self._size).grow(self._entry.sorts)):
            listed = [lists[it.lower()] for it in self._entry.sorts]
            lengths = [len(it) for it in listed]
            for places in [it for less in range(total + 1) for it in choices(lengths, less) if it not in tried]:
                if len(tried) == min(MOST_TRIED, PATIENCE[0] * last_new + PATIENCE[1]):
                    self.why_ended = f"more than {len(tried)} choices of values were not tried"
                    return
                tried.add(places)
                values = tuple(terms[at] for terms, at in zip(listed, places))
                if values not in self._seen and self._fits(data, values):
                    last_new = len(tried)
                    yield values
        self.why_ended = "larger values were not looked at"

    def _fits(self, data: Play, values: Values) -> bool:
        """Whether the conditions of the entry hold with these values."""
        chosen = {name: f"({value})" for name, value in zip(self._entry.variables, values)}
        for condition in split_terms(self._entry.conditions):
            sides: List[str] = []
            for term in condition.partition(" = ")[::2]:
                sides.append(VARIABLE.sub(lambda found: chosen.get(found[0], found[0]), term))
            if data.ask(f"equal {', '.join(sides)}").first != "equal":
                return False
        return True


def _values(line: str) -> Values:
    """The values in the line of an instance, which is that of a step in a trace."""
    return tuple(split_terms(line.partition(" => ")[0].partition(" ")[2]))
