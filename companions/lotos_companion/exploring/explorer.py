"""The walk through the states of a specification, breadth first.

Each layer of states is parted into tasks of many lines, which sessions answer side by side. Within a task a session goes from state
to state along the tree of the ways by `step` and `undo`, and takes each event of a state by `step`, `show` and `undo`; no answer is
waited for before the next line is given. Answers are taken in the order of the tasks, so that the numbers of the states do not
depend on how many sessions there are.
"""
from __future__ import annotations

import os
import re
import signal
import threading
import time
from collections import deque
from typing import Callable, Deque, Dict, List, Optional, Sequence, Tuple

from ..answers import Entry
from ..program import Words
from ..session import Ended
from .crew import Crew, Task, Unexpected, Worker
from .graph import MenuKind, StateGraph, text
from .limits import Limits, Progress, memory

Instances = List[Tuple[bytes, str]]
HEAD = re.compile(rb"events (\d+)")
FEWEST_EVENTS, MOST_EVENTS = 32, 1024


class _Stopped(Exception):
    """The exploration stops: why."""


class Explorer:
    """An exploration from the state behind some steps on. Variables of entries are given the values that the program lists for
    them up to a size. `watch` is told how far it is, some times a second; `goal` stops it in a layer that it is content with;
    `given` names values for an entry that are tried beside those of the program. `cut` says behind `run` why it did not come to
    an end, if it did not, and `ended` how far it came."""

    def __init__(self, program: str, words: Words, *, limits: Limits = Limits(), values: int = 3, jobs: int = 1,
                 steps: Sequence[str] = (), watch: Optional[Callable[[Progress], None]] = None,
                 goal: Optional[Callable[[Sequence[int]], bool]] = None,
                 given: Optional[Callable[[Entry], Optional[str]]] = None):
        self.graph = StateGraph()
        self.limits, self.values = limits, values
        self.name = ""
        self.cut: Optional[str] = None
        self.instances: Dict[bytes, Instances] = {}
        self.refused: Dict[bytes, str] = {}
        self._watch, self._goal, self._given = watch, goal, given
        self._interrupted = False
        self._steps = steps
        self.crew = Crew(program, words, max(1, jobs), steps, self._tick)
        self._kinds: Dict[Tuple[bytes, ...], MenuKind] = {}
        self._heads: Dict[bytes, int] = {}
        self._begun = self._told = time.monotonic()
        self.ended = self.progress()

    def run(self) -> StateGraph:
        """Explores until there is nothing more, or a limit: the states. `Ended` where the specification is not accepted."""
        handler = signal.getsignal(signal.SIGINT)
        if threading.current_thread() is threading.main_thread():
            signal.signal(signal.SIGINT, self._interrupt)
        try:
            self._begin()
            self._walk()
        except _Stopped as reason:
            self.cut = str(reason)
        except (Ended, Unexpected) as fault:
            if not self.graph.states:
                raise
            self.cut = f"the program ended {fault.how}" if isinstance(fault, Ended) else f"the program answered {fault}"
        finally:
            self.ended = self.progress()
            self.crew.kill()
            if threading.current_thread() is threading.main_thread():
                signal.signal(signal.SIGINT, handler)
        return self.graph

    def _interrupt(self, _number: int, _frame: object) -> None:
        """Has the exploration stop where it next looks at the clock, with all its tables whole."""
        self._interrupted = True

    def progress(self) -> Progress:
        """How far it is."""
        graph = self.graph
        used = memory([os.getpid(), *(it.conversation.process.pid for it in self.crew.workers)])
        return Progress(graph.states, graph.transitions, graph.expanded, graph.depth, time.monotonic() - self._begun, used)

    # ---- The first state ----

    def _begin(self) -> None:
        lines = self.crew.opening()
        if not lines[0].startswith(b"accepted "):
            raise Unexpected(text(lines[0]))
        self.name = text(lines[0])[len("accepted "):]
        place = 2
        for count in range(len(self._steps) + 1):
            if count and not lines[place].startswith(b"did "):
                raise Unexpected(text(lines[place]))
            place += 1 if count else 0
            length = self._length(lines[place])
            menu = tuple(lines[place + 1:place + 1 + length])
            place += 1 + length
        self._add(lines[place], menu, 0, 0, 0)

    def _length(self, head: bytes) -> int:
        """The number of entries that the head of a menu tells."""
        length = self._heads.get(head)
        if length is None:
            found = HEAD.fullmatch(head)
            if not found:
                raise Unexpected(text(head))
            length = self._heads[head] = int(found[1])
        return length

    def _add(self, shown: bytes, menu: Tuple[bytes, ...], parent: int, event: int, depth: int) -> None:
        """Adds a state."""
        graph = self.graph
        kind = self._kinds.get(menu)
        if kind is None:
            kind = self._kinds[menu] = MenuKind(menu)
        graph.numbers[shown] = len(graph.menus)
        graph.menus.append(kind)
        graph.parents.append(parent)
        graph.events.append(event)
        graph.depths.append(depth)

    # ---- Layers ----

    def _walk(self) -> None:
        graph, depth, layer = self.graph, 0, range(1)
        while layer:
            self._prepare(layer)
            if self._goal and self._goal(layer):
                raise _Stopped("found")
            if depth == self.limits.depth:
                if any(graph.menus[it].steps for it in layer):
                    raise _Stopped(f"stopped behind {depth} steps")
                return
            self._expand(layer)
            layer, depth = range(layer.stop, graph.states), depth + 1

    def _prepare(self, layer: Sequence[int]) -> None:
        """Has the steps of all menus of a layer known."""
        kinds: Dict[int, Tuple[int, MenuKind]] = {}
        for state in layer:
            kind = self.graph.menus[state]
            if kind.steps is None:
                kinds.setdefault(id(kind), (state, kind))
        questions: Dict[bytes, Tuple[int, str]] = {}
        for state, kind in kinds.values():
            for number, entry in kind.opens:
                if entry not in self.instances:
                    questions.setdefault(entry, (state, number))
        asked = [(entry, *self._question(state, f"instances {number} {self.values}"))
                 for entry, (state, number) in questions.items()]
        for entry, task, skipped in asked:
            self._learn(entry, self.crew.wait(task)[skipped:])
        if self._given:
            for entry, (state, number) in questions.items():
                self._try(entry, state, number, self._given(Entry.read(f"{number}: {text(entry)}")))
        for _, kind in kinds.values():
            self._plan(kind)

    def _question(self, state: int, line: str) -> Tuple[Task, int]:
        """Has a line asked in a state: the task, and how many lines of its answer stand before that to the line."""
        worker = self.crew.workers[0]
        script: List[bytes] = []
        skipped = worker.move(self.graph, state, script)
        task = Task(b"".join(script) + line.encode("utf-8", "surrogateescape") + b"\n")
        worker.give(task)
        return task, skipped

    def _try(self, entry: bytes, state: int, number: str, values: Optional[str]) -> None:
        """Adds the event of an entry that has these values, where it is one and is not listed."""
        if values is None:
            return
        task, skipped = self._question(state, f"step {number} {values}")
        first = text(self.crew.wait(task)[skipped])
        if first.startswith("did "):
            self._question(state, "undo")
            label = first[len("did "):]
            if all(it != label for _, it in self.instances[entry]):
                self.instances[entry].append((values.encode("utf-8", "surrogateescape"), label))

    def _learn(self, entry: bytes, lines: List[bytes]) -> None:
        """Keeps what an entry stands for, as `instances` answers."""
        self.instances[entry] = []
        if not lines[0].startswith(b"instances "):
            self.refused[entry] = text(lines[0])
            return
        for line in lines[1:-1]:
            taken, _, label = line.partition(b" => ")
            self.instances[entry].append((taken.partition(b" ")[2], text(label)))

    def _plan(self, kind: MenuKind) -> None:
        """Fills in the steps of a menu."""
        opens = dict(kind.opens)
        kind.steps = []
        for line in kind.lines:
            number = line.partition(b": ")[0]
            entry = opens.get(number.decode())
            taken = [b""] if entry is None else [it for it, _ in self.instances[entry]]
            kind.steps += [b"step " + number + (b" " + it if it else b"") for it in taken]
        kind.script = b"".join(it + b"\nshow\nundo\n" for it in kind.steps)

    def _expand(self, layer: range) -> None:
        """Takes all events of the states of a layer."""
        underway: Deque[Tuple[Task, List[Tuple[int, int]]]] = deque()
        for states in self._parts(layer):
            worker = self.crew.free()
            while underway and underway[0][0].is_done:
                self._take(*underway.popleft())
            underway.append(self._ask(worker, states))
        while underway:
            task, visits = underway.popleft()
            self.crew.wait(task)
            self._take(task, visits)

    def _parts(self, layer: range) -> List[List[int]]:
        """A layer parted into the states of its tasks."""
        menus = self.graph.menus
        counts = [len(menus[it].steps or ()) for it in layer]
        size = min(max(sum(counts) // (4 * self.crew.most), FEWEST_EVENTS), MOST_EVENTS)
        parts: List[List[int]] = []
        room = 0
        for state, count in zip(layer, counts):
            if room <= 0:
                parts.append([])
                room = size
            parts[-1].append(state)
            room -= count
        return parts

    def _ask(self, worker: Worker, states: List[int]) -> Tuple[Task, List[Tuple[int, int]]]:
        """Gives a session the task to take all events of some states: the task, and for each state how many lines of the answer
        stand before its events."""
        script: List[bytes] = []
        visits: List[Tuple[int, int]] = []
        for state in states:
            kind = self.graph.menus[state]
            skipped = worker.move(self.graph, state, script) if kind.steps else 0
            visits.append((state, skipped))
            script.append(kind.script)
        task = Task(b"".join(script))
        worker.give(task)
        return task, visits

    def _take(self, task: Task, visits: List[Tuple[int, int]]) -> None:
        """Takes the answers to a task into the graph."""
        place = 0
        for state, skipped in visits:
            before = self.graph.states
            try:
                place = self._take_events(task.answer, place + skipped, state)
            except (IndexError, Unexpected, _Stopped) as fault:
                self._forget(state, before)
                raise Unexpected("fewer lines than it has to") if isinstance(fault, IndexError) else fault
        task.answer = []

    def _take_events(self, lines: List[bytes], place: int, state: int) -> int:
        """Takes the answers to the events of one state: the place behind them."""
        graph, heads = self.graph, self._heads
        numbers, label_numbers = graph.numbers, graph.label_numbers
        kind = graph.menus[state]
        behind = 3 + len(kind.lines)
        for event in range(len(kind.steps or ())):
            label = label_numbers.get(lines[place])
            if label is None:
                label = self._new_label(lines[place])
            length = heads.get(lines[place + 1])
            if length is None:
                length = self._length(lines[place + 1])
            menu_end = place + 2 + length
            target = numbers.get(lines[menu_end])
            if target is None:
                target = len(numbers)
                self._add(lines[menu_end], tuple(lines[place + 2:menu_end]), state, event, graph.depths[state] + 1)
            graph.transition_labels.append(label)
            graph.targets.append(target)
            place = menu_end + behind
        if self.limits.states is not None and graph.states > self.limits.states:
            raise _Stopped(f"stopped at {self.limits.states} states")
        graph.first.append(len(graph.targets))
        return place

    def _new_label(self, line: bytes) -> int:
        """The number of a label that was not met before."""
        if not line.startswith(b"did "):
            raise Unexpected(text(line))
        graph = self.graph
        graph.label_numbers[line] = len(graph.labels)
        graph.labels.append(text(line)[len("did "):])
        return len(graph.labels) - 1

    def _forget(self, state: int, before: int) -> None:
        """Forgets the events of a state that are too many, and what was reached by them alone."""
        graph = self.graph
        while graph.states > before:
            graph.numbers.popitem()
            graph.menus.pop()
            for column in (graph.parents, graph.events, graph.depths):
                column.pop()
        end = graph.first[state]
        del graph.targets[end:], graph.transition_labels[end:]

    def _tick(self) -> None:
        """Looks at the clock, and tells how far it is."""
        now = time.monotonic()
        if self._interrupted:
            raise _Stopped("stopped by Ctrl-C")
        if self.limits.seconds is not None and now - self._begun > self.limits.seconds:
            raise _Stopped(f"stopped after {self.limits.seconds:g} seconds")
        if self._watch and now - self._told > 0.5:
            self._told = now
            self._watch(self.progress())
