"""The files that are written from the table of the commands."""
from __future__ import annotations

import os
from typing import Dict, Sequence

from ..options import WRONG_WORDS
from ..output import complain
from ..program import TOP
from . import COMMANDS
from .completion_files import bash_file, zsh_file
from .description import Command
from .makers import COMMAND_FILES
from .manual import manual_page
from .parser import make_parser


def command_files() -> Dict[str, str]:
    """All files by their names below `companions/`."""
    files = {f"man/{command.name}.1": manual_page(command) for command in COMMANDS}
    files["completions/lotos.bash"] = bash_file(COMMANDS)
    files["completions/_lotos"] = zsh_file(COMMANDS)
    return files


def write_files(folder: str, files: Dict[str, str]) -> None:
    """Writes files below a folder."""
    for name, text in files.items():
        path = os.path.join(folder, name)
        os.makedirs(os.path.dirname(path), exist_ok=True)
        with open(path, "w", encoding="utf-8") as file:
            file.write(text)


def make_files(command: Command, given: Sequence[str], folder: str, files: Dict[str, str]) -> int:
    """What a command that writes files does with its words, of which it takes none: the status."""
    if make_parser(command).parse_args(given).words:
        complain(f"usage: {command.usage[0]}")
        return WRONG_WORDS
    write_files(os.path.join(TOP, folder), files)
    return 0


def main(given: Sequence[str]) -> int:
    """Writes the files: the status."""
    return make_files(COMMAND_FILES, given, "companions", command_files())
