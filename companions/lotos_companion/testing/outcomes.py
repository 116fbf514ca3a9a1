"""What came of a test."""
from __future__ import annotations

from dataclasses import dataclass
from enum import Enum
from typing import Counter, Dict, Optional, Sequence, Tuple

from ..scenarios import Verdict
from .coverage import Coverage
from .found import CaseFile, Place


class Ending(Enum):
    """How a test ended."""

    PASSED = "passed"
    CARRIED = "carried over"
    FAILED = "failed"
    INCONCLUSIVE = "inconclusive"
    BROKEN = "broken"


RIGHT = (Ending.PASSED, Ending.CARRIED)
ENDINGS = {Verdict.PASSED: Ending.PASSED, Verdict.FAILED: Ending.FAILED, Verdict.INCONCLUSIVE: Ending.INCONCLUSIVE}


@dataclass(frozen=True)
class Outcome:
    """How a test ended, what is said of it, how long it took, what more is said where all is wanted, the files that were
    written; where it was run, and the lines that take its steps; and what it took of the source if that is wanted."""

    case: CaseFile
    ending: Ending
    said: Tuple[str, ...] = ()
    seconds: float = 0.0
    more: Tuple[str, ...] = ()
    written: Tuple[str, ...] = ()
    place: Optional[Place] = None
    lines: Tuple[str, ...] = ()
    covered: Optional[Coverage] = None


def totals(outcomes: Sequence[Outcome]) -> Dict[Ending, int]:
    """How many tests ended in each way."""
    counted = Counter(it.ending for it in outcomes)
    return {it: counted[it] for it in Ending if counted[it]}


def told(outcomes: Sequence[Outcome]) -> str:
    """How many tests ended in each way, in words."""
    return ", ".join(f"{number} {ending.value}" for ending, number in totals(outcomes).items()) or "no tests"
