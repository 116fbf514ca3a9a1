"""The words of `lotos-language-server`: it speaks with an editor over its input and output."""
from __future__ import annotations

import sys
from typing import Sequence

from ..commands import make_parser
from ..commands.language_server import COMMAND
from ..language.reading import has_grammar
from ..options import read_line
from ..output import complain
from ..program import find_program
from .messages import Channel
from .server import Server

NO_GRAMMAR = 70


def main(given: Sequence[str]) -> int:
    """Serves one editor to the end: the status."""
    options = read_line(make_parser(COMMAND), given)
    program = find_program(options.program)
    if not has_grammar():
        complain(f"{COMMAND.name}: Debian's package python3-lark is wanted")
        return NO_GRAMMAR
    return Server(Channel(sys.stdin.buffer, sys.stdout.buffer), program).run()
