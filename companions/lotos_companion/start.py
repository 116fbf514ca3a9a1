"""Where the commands begin: each calls `main` of its module, as the table of commands names it."""
from __future__ import annotations

import os
import sys
from importlib import import_module
from typing import Callable, Sequence

from .commands import COMMANDS
from .commands.makers import MAKERS
from .options import run_companion


def start(name: str) -> int:
    """Runs the command with this name by the words of the line: its status."""
    command = next(it for it in (*COMMANDS, *MAKERS) if it.name == name and it.module)
    main: Callable[[Sequence[str]], int] = import_module(f"lotos_companion.{command.module}").main
    return run_companion(name, main)


def run() -> int:
    """Runs the command by whose name it was called, where the package is installed."""
    return start(os.path.basename(sys.argv[0]))
