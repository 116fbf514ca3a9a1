"""The version of the program and its companions: the file `VERSION` at the top of the repository."""
from __future__ import annotations

import os

_FILE = os.path.join(os.path.dirname(os.path.dirname(os.path.dirname(os.path.realpath(__file__)))), "VERSION")


def _read() -> str:
    """The version from the repository, or from what is kept of a package that was installed without one."""
    try:
        with open(_FILE, encoding="ascii") as file:
            return file.read().strip()
    except OSError:
        from importlib import metadata  # It takes long to import, and is wanted here alone.
        return metadata.version("lotos-companion")


VERSION = _read()
