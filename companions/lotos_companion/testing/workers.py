"""Tests side by side, each in a process of its own; what they started ends with them."""
from __future__ import annotations

import multiprocessing
import signal
import sys
from concurrent.futures import Future, ProcessPoolExecutor
from concurrent.futures.process import BrokenProcessPool
from typing import Iterator, Sequence

from .found import CaseFile
from .outcomes import Ending, Outcome
from .running import Plan, run_case

# How long a worker has to end its program once it is told to.
PATIENCE = 5.0
_is_ending = False


def _begin() -> None:
    """Has a worker leave Ctrl-C to the one that started it, and end when that tells it to."""
    signal.signal(signal.SIGINT, signal.SIG_IGN)
    signal.signal(signal.SIGTERM, _end)


def _end(number: int, frame: object) -> None:
    """Ends the present test, its program with it, and begins no other."""
    global _is_ending
    _is_ending = True
    sys.exit(128 + number)


def _run_one(plan: Plan, case: CaseFile) -> Outcome:
    """Runs a test in a worker."""
    if _is_ending:
        sys.exit(0)
    return run_case(plan, case)


def run_all(plan: Plan, cases: Sequence[CaseFile], jobs: int) -> Iterator[Outcome]:
    """Runs tests, so many at once: what came of each, in their order. However it ends, no process is left."""
    executor = ProcessPoolExecutor(max_workers=min(jobs, max(len(cases), 1)), initializer=_begin)
    try:
        futures = [executor.submit(_run_one, plan, it) for it in cases]
        for case, future in zip(cases, futures):
            yield _outcome(case, future)
        executor.shutdown()
    finally:
        _end_all(executor)


def _outcome(case: CaseFile, future: Future[Outcome]) -> Outcome:
    """What came of a test, also where its worker died."""
    try:
        return future.result()
    except BrokenProcessPool:
        return Outcome(case, Ending.BROKEN, ("its process died",))


def _end_all(executor: ProcessPoolExecutor) -> None:
    """Ends the workers that are still there, and their programs with them. Another Ctrl-C does not disturb this."""
    workers = multiprocessing.active_children()
    if not workers:
        return
    before = signal.signal(signal.SIGINT, signal.SIG_IGN)
    executor.shutdown(wait=False, cancel_futures=True)
    for worker in workers:
        worker.terminate()
    for worker in workers:
        worker.join(PATIENCE)
        if worker.is_alive():
            worker.kill()
    executor.shutdown()
    signal.signal(signal.SIGINT, before)
