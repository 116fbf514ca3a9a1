"""Where an exploration stops, and how far it is."""
from __future__ import annotations

import os
from dataclasses import dataclass
from typing import Iterable, Optional


@dataclass(frozen=True)
class Limits:
    """An exploration stops before it has more than so many states, after so many seconds, and behind so many steps."""

    states: Optional[int] = None
    seconds: Optional[float] = None
    depth: Optional[int] = None


@dataclass(frozen=True)
class Progress:
    """How far an exploration is: its counts, its seconds, and the memory of the companion and of its sessions in KiB."""

    states: int
    transitions: int
    expanded: int
    depth: int
    seconds: float
    memory: int

    @property
    def line(self) -> str:
        """It in one line."""
        rate = self.transitions / self.seconds if self.seconds > 0 else 0.0
        return (f"{self.states} states, {self.states - self.expanded} of them to look at, {self.transitions} transitions, "
                f"depth {self.depth}, {self.seconds:.0f} s, {rate:.0f} transitions a second, {self.memory // 1024} MiB")


def memory(processes: Iterable[int]) -> int:
    """The memory that these processes have in use, in KiB; nought where the system does not tell."""
    total = 0
    for process in processes:
        try:
            with open(f"/proc/{process}/statm", encoding="ascii") as file:
                total += int(file.read().split()[1])
        except (OSError, ValueError, IndexError):
            pass
    return total * os.sysconf("SC_PAGE_SIZE") // 1024
