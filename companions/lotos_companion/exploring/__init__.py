"""The states that a specification reaches, walked through by many lines at once that sessions of the program answer."""
from __future__ import annotations

from .crew import Unexpected
from .explorer import Explorer
from .graph import StateGraph, WayStep
from .limits import Limits, Progress
from .ways import Found, Goal, shortest_way

__all__ = ["Explorer", "Found", "Goal", "Limits", "Progress", "StateGraph", "Unexpected", "WayStep", "shortest_way"]
