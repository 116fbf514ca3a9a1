"""Sessions at the place of a specification."""
from __future__ import annotations

import os
from contextlib import contextmanager
from typing import Iterator

from ..naming import NamedPlay
from .found import Place


@contextmanager
def playing(program: str, place: Place, with_names: bool) -> Iterator[NamedPlay]:
    """A session at a place, which is ended whatever happens; its hidden events have names if they are wanted."""
    before = os.getcwd()
    os.chdir(place.folder)
    play = NamedPlay(program, place.words, with_names)
    try:
        yield play
    finally:
        play.kill()
        os.chdir(before)
