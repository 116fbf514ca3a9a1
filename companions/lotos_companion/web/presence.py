"""Whether a page is open: the session ends a while after the last one was closed."""
from __future__ import annotations

import threading
import time
from typing import Optional


class Presence:
    """How many pages are open, and since when there is none. Before the first one nothing ends."""

    def __init__(self, seconds: float):
        self._seconds = seconds
        self._changed = threading.Condition()
        self._pages = 0
        self._left: Optional[float] = None
        self._ended = False

    def enter(self) -> None:
        """A page is opened."""
        with self._changed:
            self._pages += 1
            self._changed.notify_all()

    def leave(self) -> None:
        """A page is closed."""
        with self._changed:
            self._pages -= 1
            self._left = time.monotonic()
            self._changed.notify_all()

    def end(self) -> None:
        """Ends at once, whatever is open."""
        with self._changed:
            self._ended = True
            self._changed.notify_all()

    @property
    def has_ended(self) -> bool:
        """Whether the time is over."""
        with self._changed:
            return self._ended

    def wait(self) -> None:
        """Waits until there has been no page for a while."""
        with self._changed:
            while not self._ended:
                left = None if self._pages or self._left is None else self._left + self._seconds - time.monotonic()
                if left is not None and left <= 0:
                    self._ended = True
                else:
                    self._changed.wait(min(left or 1.0, 1.0))
