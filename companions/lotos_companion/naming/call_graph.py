"""Which definitions call one another in a circle."""
from __future__ import annotations

from typing import Dict, Iterable, List, Sequence, Tuple


def circles(calls: Dict[str, Sequence[str]]) -> List[Tuple[str, ...]]:
    """The definitions in groups: those of a group call each other, directly or by others, and no group calls one that comes
    behind it. (Tarjan's strong components, without calls in calls.)"""
    numbers: Dict[str, int] = {}
    lowest: Dict[str, int] = {}
    path: List[str] = []
    on_path = set()
    groups: List[Tuple[str, ...]] = []
    for root in calls:
        work: List[Tuple[str, Iterable[str]]] = []

        def begin(name: str) -> None:
            numbers[name] = lowest[name] = len(numbers)
            path.append(name)
            on_path.add(name)
            work.append((name, iter(calls[name])))

        if root not in numbers:
            begin(root)
        while work:
            name, called = work[-1]
            other = next(iter(called), None)
            if other is None:
                work.pop()
                if work:
                    lowest[work[-1][0]] = min(lowest[work[-1][0]], lowest[name])
                if lowest[name] == numbers[name]:
                    cut = path.index(name)
                    groups.append(tuple(path[cut:]))
                    on_path.difference_update(path[cut:])
                    del path[cut:]
            elif other not in numbers:
                begin(other)
            elif other in on_path:
                lowest[name] = min(lowest[name], numbers[other])
    return groups
