"""The one folder that a page writes into: a file is named without a path, and none is written over without being asked."""
from __future__ import annotations

import os
import re
import tempfile
from typing import Tuple

NAME = re.compile(r"[^\W_](?:[\w .+-]{0,98}[\w+-])?")
KINDS: Tuple[str, ...] = (".trace", ".scenario", ".html", ".svg", ".png")


class BadName(Exception):
    """A name that no file of the folder may have; why not."""


class IsThere(Exception):
    """A file of this name is there, and nobody said that it may be written over."""


class Folder:
    """A folder, and the files that are written into it."""

    def __init__(self, path: str):
        self.path = os.path.realpath(path)

    def write(self, name: str, data: bytes, over: bool) -> str:
        """Writes a file whole or not at all: its path. `BadName`, `IsThere` or `OSError` where it is not written."""
        path = os.path.join(self.path, checked_name(name))
        if os.path.lexists(path) and (os.path.islink(path) or not os.path.isfile(path)):
            raise BadName(f"{name} is there, and is no plain file")
        if os.path.lexists(path) and not over:
            raise IsThere(name)
        number, waiting = tempfile.mkstemp(".new", ".lotos-web-", self.path)
        try:
            with open(number, "wb") as file:
                file.write(data)
            os.chmod(waiting, 0o666 & ~_mask())
            _put(waiting, path, over)
        finally:
            if os.path.lexists(waiting):
                os.unlink(waiting)
        return path


def checked_name(name: str) -> str:
    """The name, if a file may have it."""
    if not NAME.fullmatch(name):
        raise BadName("a name has letters, digits, blanks and . _ + - alone, begins with a letter or digit, "
                      "and has at most 100 signs")
    if not name.endswith(KINDS):
        raise BadName(f"a name ends in {', '.join(KINDS[:-1])} or {KINDS[-1]}")
    return name


def _put(waiting: str, path: str, over: bool) -> None:
    """Gives the waiting file its name; a file that has come meanwhile is not lost."""
    if over:
        os.replace(waiting, path)
        return
    try:
        os.link(waiting, path)
    except FileExistsError:
        raise IsThere(os.path.basename(path)) from None


def _mask() -> int:
    mask = os.umask(0o022)
    os.umask(mask)
    return mask
