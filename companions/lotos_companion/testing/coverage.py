"""How often the tests take each event, call and process of the source, as the components of a session's states tell it."""
from __future__ import annotations

import os
from dataclasses import dataclass, field
from typing import Counter, Dict, Iterable, Iterator, List, Optional, Sequence, Tuple

from ..components import Actions, Happening, Occurrence
from ..language import Kind, NoToken, Token, tokens
from ..language.tokens import Place as TextPlace
from ..play import Play
from .found import Place
from .places import playing

# What the account does not have, whatever is tested.
NOT_TOLD = ("types and their equations, guards and conditions one by one, and an exit behind which no >> stands",
            "a call before the first event of what it calls",
            "what a search tries besides the way that it finds, and tests that find none")
KINDS = {Happening.EVENT: "event", Happening.INNER: "event", Happening.ENDED: "end", Happening.CALL: "call"}


@dataclass(frozen=True)
class Site:
    """A place of the source that can be taken: what it is, its name, the process that it stands in, and its place if that is
    known. A process stands in none."""

    kind: str
    name: str
    process: str
    place: Optional[TextPlace]

    @property
    def order(self) -> Tuple[bool, int]:
        """Where it stands among others: those without a place last."""
        return (self.place is None, self.place.offset if self.place else 0)


@dataclass
class Coverage:
    """What was taken of one specification: its path, its text, how often each site was taken, and why it is not told where it
    could not be."""

    path: str
    text: str = ""
    counts: Dict[Site, int] = field(default_factory=dict)
    said: Dict[str, None] = field(default_factory=dict)

    def add(self, other: Coverage) -> None:
        """Adds what another test took."""
        self.text = self.text or other.text
        self.said.update(other.said)
        for site, count in other.counts.items():
            self.counts[site] = self.counts.get(site, 0) + count

    @property
    def sites(self) -> List[Tuple[Site, int]]:
        """The sites with their counts, in the order of the text."""
        return sorted(self.counts.items(), key=lambda it: it[0].order)

    def share(self, kind: str) -> Tuple[int, int]:
        """How many sites of a kind were taken, and how many there are."""
        counts = [count for site, count in self.counts.items() if site.kind == kind]
        return sum(it > 0 for it in counts), len(counts)


def covered(program: str, place: Place, lines: Iterable[str]) -> Coverage:
    """What some lines take of a specification: steps that are undone are taken too."""
    path = os.path.relpath(place.specification)
    found = Coverage(path, _read(path))
    with playing(program, place, False) as play:
        play.open()
        actions = Actions(play)
        try:
            taken = list(_taken(play, actions, lines))
            occurrences = actions.occurrences()
        finally:
            actions.kill()
    if actions.why_off:
        found.said[f"nothing is told of the events of {path}: {actions.why_off}"] = None
        return found
    found.counts = dict.fromkeys(map(_site, occurrences), 0)
    for occurrence in taken:
        found.counts[_site(occurrence)] = found.counts.get(_site(occurrence), 0) + 1
    calls = Counter(it.called.lower() for it in taken if it.happening is Happening.CALL)
    for site in _processes(found.text):
        found.counts[site] = calls[site.name.lower()]
    return found


def _taken(play: Play, actions: Actions, lines: Iterable[str]) -> Iterator[Occurrence]:
    """What happens in the steps of some lines; a call happens with the first event of what is called."""
    for line in map(str.strip, lines):
        word = line.split(" ")[0]
        if word == "quit":
            return
        if word not in ("step", "undo", "replay"):
            continue
        answer = play.ask(line)
        steps = actions.steps() if answer.menu else []
        for parts in steps[-1:] if answer.label is not None else steps if word == "replay" else []:
            for part in parts:
                yield part.occurrence
                if part.occurrence.is_first and part.occurrence.happening is not Happening.ENDED:
                    yield from part.calls


def _site(occurrence: Occurrence) -> Site:
    return Site(KINDS[occurrence.happening], occurrence.called, occurrence.process, occurrence.place)


def _processes(text: str) -> List[Site]:
    """The processes of a text, by their names."""
    try:
        words: List[Token] = [it for it in tokens(text) if it.kind is not Kind.COMMENT]
    except NoToken:
        return []
    return [Site("process", name.text, "", name.place) for word, name in zip(words, words[1:]) if word.key == "process"]


def _read(path: str) -> str:
    try:
        with open(path, encoding="utf-8", errors="surrogateescape") as file:
            return file.read()
    except OSError:
        return ""


def merged(all_covered: Sequence[Coverage]) -> List[Coverage]:
    """What all tests took, one for each specification."""
    found: Dict[str, Coverage] = {}
    for it in all_covered:
        found.setdefault(it.path, Coverage(it.path)).add(it)
    return [found[it] for it in sorted(found)]
