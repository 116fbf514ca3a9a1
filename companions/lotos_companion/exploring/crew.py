"""Several sessions of one specification side by side, each with its place in the tree of the ways to the states."""
from __future__ import annotations

import time
from collections import deque
from dataclasses import dataclass, field
from typing import Callable, Deque, List, Sequence

from ..program import Words
from .conversation import Conversation, pump
from .graph import StateGraph

QUEUED = 2
LONG, MOMENT = 300, 0.001


class Unexpected(Exception):
    """The program answered what it never answers: the line."""


@dataclass
class Task:
    """What a session is asked at once: its lines, and behind it the lines of its answer."""

    lines: bytes
    answer: List[bytes] = field(default_factory=list)
    is_done: bool = False


class Worker:
    """A session with the tasks that it works at, and the way of states that it stands behind once they are done."""

    def __init__(self, program: str, words: Words):
        self.conversation = Conversation(program, words)
        self.tasks: Deque[Task] = deque()
        self.way = [0]

    def give(self, task: Task) -> None:
        """Gives it a task behind those that it has."""
        self.tasks.append(task)
        self.conversation.say(task.lines)

    def collect(self) -> bool:
        """Ends the tasks whose answers are there; whether there were some."""
        found = False
        while self.tasks:
            answer = self.conversation.answer()
            if answer is None:
                break
            task = self.tasks.popleft()
            task.answer, task.is_done = answer, True
            found = True
        return found

    def move(self, graph: StateGraph, state: int, script: List[bytes]) -> int:
        """Adds to a script the lines by which the session comes to a state, and tells how many lines their answer has."""
        way, parents, events, menus, depths = self.way, graph.parents, graph.events, graph.menus, graph.depths
        down: List[int] = []
        while depths[state] >= len(way) or way[depths[state]] != state:
            down.append(state)
            state = parents[state]
        skipped = 0
        while way[-1] != state:
            way.pop()
            script.append(b"undo\n")
            skipped += 2 + len(menus[way[-1]].lines)
        for child in reversed(down):
            steps = menus[parents[child]].steps
            assert steps is not None
            script.append(steps[events[child]] + b"\n")
            skipped += 2 + len(menus[child].lines)
            way.append(child)
        return skipped


class Crew:
    """The sessions, which are begun when they are first needed. `idle` is called whenever they are waited for."""

    def __init__(self, program: str, words: Words, most: int, steps: Sequence[str], idle: Callable[[], None]):
        self._program, self._words = program, words
        self.most = most
        self._opening = "".join(f"{it}\n" for it in (*steps, "show")).encode("utf-8", "surrogateescape")
        self._idle = idle
        self.workers: List[Worker] = []

    def begin(self) -> Worker:
        """Begins one more session, which takes the first steps."""
        worker = Worker(self._program, self._words)
        self.workers.append(worker)
        worker.give(Task(self._opening))
        return worker

    def opening(self) -> List[bytes]:
        """The answer to the beginning of the first session."""
        return self.wait(self.begin().tasks[0])

    def free(self) -> Worker:
        """A session that can be given a task, which is waited for."""
        while True:
            worker = min(self.workers, key=lambda it: len(it.tasks))
            if len(worker.tasks) > 0 and len(self.workers) < self.most:
                return self.begin()
            if len(worker.tasks) < QUEUED:
                return worker
            self._pump()

    def wait(self, task: Task) -> List[bytes]:
        """The answer to a task, which is waited for."""
        while not task.is_done:
            self._pump()
        return task.answer

    def kill(self) -> None:
        """Ends all sessions at once."""
        for worker in self.workers:
            worker.conversation.kill()

    def _pump(self) -> None:
        """Lets the programs go on. Pieces of long answers are left in their pipes for a moment: reading each as it comes costs
        more than the answers do."""
        pump([it.conversation for it in self.workers], 0.2)
        done = [worker.collect() for worker in self.workers]
        self._idle()
        if not any(done) and all(len(worker.tasks[0].lines) > LONG for worker in self.workers if worker.tasks):
            time.sleep(MOMENT)
