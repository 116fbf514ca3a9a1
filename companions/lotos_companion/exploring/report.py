"""What an exploration came to, as lines for people and as JSON. What was looked at to a bound is called so."""
from __future__ import annotations

from dataclasses import dataclass
from typing import Any, Dict, Iterator, List, Optional, Tuple

from ..answers import Entry
from .explorer import Explorer
from .graph import StateGraph, WayStep, text
from .limits import Progress


@dataclass(frozen=True)
class OpenEntry:
    """An entry with variables: its line without the number, how many events were taken for it, whether these are all that it
    stands for, and the program's refusal to list any."""

    line: str
    taken: int
    is_whole: bool
    refusal: Optional[str]


@dataclass
class Report:
    """An exploration that has ended. `unknown` are the states with entries of which no event was listed, with ways to them."""

    file: str
    name: str
    graph: StateGraph
    cut: Optional[str]
    values: int
    entries: List[OpenEntry]
    deadlocks: Dict[int, List[WayStep]]
    unknown: Dict[int, List[WayStep]]
    progress: Progress

    @property
    def is_whole(self) -> bool:
        """Whether each state that is reached was met and looked at."""
        return self.cut is None and self.graph.expanded == self.graph.states and all(it.is_whole for it in self.entries)

    def lines(self, most: int) -> Iterator[str]:
        """The report, with at most so many scenarios."""
        graph = self.graph
        yield f"{self.name}: {graph.states} states, {graph.transitions} transitions, up to {graph.depth} steps from the start"
        yield from self._bounds()
        yield "events: " + (", ".join(f"{gate} {count}" for gate, count in sorted(graph.gates().items())) or "none")
        yield from self._scenarios("deadlock", "deadlocks", self.deadlocks, most)
        if self.unknown:
            yield from self._scenarios("state with entries and no event that is known",
                                       "states with entries and no event that is known", self.unknown, most)
        if not self.deadlocks:
            yield f"no deadlock was met among these {graph.states} states"
        used = self.progress
        rate = used.transitions / used.seconds if used.seconds else 0
        yield f"took {used.seconds:.1f} s, {rate:.0f} transitions a second, {used.memory / 1024:.0f} MiB"

    def _bounds(self) -> Iterator[str]:
        """What was looked at, and what was not."""
        graph = self.graph
        if self.cut:
            yield f"cut: {self.cut}; {graph.states - graph.expanded} states were met and not looked at"
        for it in self.entries:
            if it.refusal:
                yield f"not taken: {it.line}: {it.refusal}"
            else:
                bound = "all its values" if it.is_whole else f"values up to the size {self.values} alone"
                yield f"taken with {bound}, {it.taken} {'event' if it.taken == 1 else 'events'}: {it.line}"
        if self.is_whole:
            yield "each of these states was looked at, and nothing was cut"

    def _scenarios(self, one: str, many: str, found: Dict[int, List[WayStep]], most: int) -> Iterator[str]:
        """Ways to states, with one line for each step."""
        if found:
            yield f"{len(found)} {one if len(found) == 1 else many}"
        for state, way in list(found.items())[:most]:
            yield f"{one} in state {state} behind {len(way)} {'step' if len(way) == 1 else 'steps'}"
            for step in way:
                yield f"    {step.line} => {step.label}"
        if len(found) > most:
            yield f"and {len(found) - most} more {many}, with --json or --traces"

    def data(self) -> Dict[str, Any]:
        """The same for scripts."""
        graph, used = self.graph, self.progress
        return {
            "specification": self.name, "file": self.file, "states": graph.states, "expanded": graph.expanded,
            "transitions": graph.transitions, "depth": graph.depth, "cut": self.cut, "whole": self.is_whole,
            "values": self.values,
            "entries": [{"entry": it.line, "events": it.taken, "whole": it.is_whole, "refused": it.refusal}
                        for it in self.entries],
            "gates": graph.gates(), "deadlocks": _ways(self.deadlocks), "unknown": _ways(self.unknown),
            "seconds": round(used.seconds, 3), "memory_kib": used.memory}


def _ways(found: Dict[int, List[WayStep]]) -> List[Dict[str, Any]]:
    return [{"state": state, "steps": [{"line": it.line, "label": it.label} for it in way]} for state, way in found.items()]


def unknown_states(graph: StateGraph) -> Dict[int, List[WayStep]]:
    """The states that were looked at, have entries, and have no event that was listed, each with a shortest way."""
    return {state: graph.way(state) for state in range(graph.expanded)
            if graph.menus[state].lines and graph.first[state] == graph.first[state + 1]}


def open_entries(explorer: Explorer, whole_sorts: Dict[str, bool]) -> List[OpenEntry]:
    """The entries with variables that were met; `whole_sorts` tells of each sort whether all its values were taken."""
    found = []
    for line, instances in explorer.instances.items():
        entry = Entry.read(f"1: {text(line)}")
        is_whole = line not in explorer.refused and all(whole_sorts[it] for it in entry.sorts)
        found.append(OpenEntry(text(line), len(instances), is_whole, explorer.refused.get(line)))
    return found


def trace_text(way: List[WayStep]) -> str:
    """A way as a trace, which `replay` takes: its events are compared, and no states."""
    return "".join(f"{it}\n" for it in ("lotos-trace 1", *(_trace_line(step) for step in way)))


def _trace_line(step: WayStep) -> str:
    return f"{step.number} {step.values}".rstrip() + f" => {step.label}"


def sorts_of(explorer: Explorer) -> Tuple[str, ...]:
    """The sorts of the variables of all entries that were met."""
    return tuple(dict.fromkeys(it for line in explorer.instances for it in Entry.read(f"1: {text(line)}").sorts))
