"""Calls in calls, as deep as trees of texts are."""
from __future__ import annotations

import sys
from contextlib import contextmanager
from typing import Iterator

# Nodes of a text are at most 500 deep, and a few calls go for each.
DEEP = 20_000


@contextmanager
def deep_calls() -> Iterator[None]:
    """Room for as many calls in calls as a text is deep."""
    before = sys.getrecursionlimit()
    sys.setrecursionlimit(max(before, DEEP))
    try:
        yield
    finally:
        sys.setrecursionlimit(before)
