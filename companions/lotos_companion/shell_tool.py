"""The words of `lotos-shell`: the options are read, and the shell is run."""
from __future__ import annotations

from typing import Sequence

from .commands import make_parser
from .commands.shell import COMMAND
from .line_reader import is_terminal
from .numbers import with_numerals
from .options import read_line
from .output import complain
from .program import Words, WrongWords, find_program
from .screen import Screen, wants_colour
from .shell import Shell, Ways


def main(given: Sequence[str]) -> int:
    """Reads the options and runs the shell: its status."""
    options = read_line(make_parser(COMMAND), given)
    try:
        words = Words.read(options.words)
    except WrongWords:
        complain(f"usage: {COMMAND.usage[0]}")
        raise
    program = find_program(options.program)
    with_numbers = (options.numbers or is_terminal()) and not options.plain
    with_names = (options.names or is_terminal()) and not options.plain
    words = with_numerals(program, words) if with_numbers else words
    ways = Ways(with_numbers, with_names, options.plain)
    return Shell(program, words, Screen(wants_colour(options.color)), ways).run()
