"""Waiting until one of the texts of a check is saved."""
from __future__ import annotations

import os
import time
from typing import Dict, List, Optional, Sequence, Tuple

from .sources import LIBRARY_END

PAUSE = 0.1
Mark = Optional[Tuple[int, int, int]]


class Watch:
    """The state of files when they were looked at last: those that are named, and the libraries of the folder."""

    def __init__(self, files: Sequence[str], folder: str = "."):
        self._files = list(files)
        self._folder = folder
        self._seen = self._marks()
        self.changed: List[str] = []

    def is_changed(self) -> bool:
        """Whether a file is not as it was."""
        return self._marks() != self._seen

    def wait(self) -> None:
        """Waits until a file is not as it was; `changed` then tells which."""
        while True:
            marks = self._marks()
            if marks != self._seen:
                self.changed = sorted(name for name in {*marks, *self._seen} if marks.get(name) != self._seen.get(name))
                self._seen = marks
                return
            time.sleep(PAUSE)

    def _marks(self) -> Dict[str, Mark]:
        libraries = [it for it in os.listdir(self._folder) if it.endswith(LIBRARY_END)]
        return {name: self._mark(name) for name in (*self._files, *libraries)}

    def _mark(self, name: str) -> Mark:
        """What tells a file from what it was: nothing where there is none."""
        try:
            stat = os.stat(os.path.join(self._folder, name))
        except OSError:
            return None
        return stat.st_ino, stat.st_size, stat.st_mtime_ns
