"""`lotos-flat`: which type each sort, operation and equation of the flat text came from."""
from __future__ import annotations

import json
import subprocess
import sys
from typing import Sequence

from ..commands import make_parser
from ..commands.flat import COMMAND
from ..language import NoGrammar, NoTree
from ..options import ANSWER_IS_NO, NO_ANSWER, WRONG_WORDS
from ..output import complain, visible, write
from ..program import Words, WrongWords, find_program
from .flat import flat_parts, with_comments


def main(given: Sequence[str]) -> int:
    """Reads the options, asks the program for the flat text, and prints: the status."""
    options = make_parser(COMMAND).parse_intermixed_args(given)
    try:
        words = Words.read(options.words)
    except WrongWords:
        complain(f"usage: {COMMAND.usage[0]}")
        return WRONG_WORDS
    done = subprocess.run([find_program(options.program), "flatten", *words.files], stdin=subprocess.DEVNULL,
                          stdout=subprocess.PIPE, check=False)
    flat = done.stdout.decode("utf-8", "surrogateescape")
    if done.returncode:
        complain(flat.rstrip("\n") or f"the program ended with the status {done.returncode}")
        return done.returncode if done.returncode > 0 else NO_ANSWER
    try:
        parts = flat_parts(words, flat)
    except NoGrammar as fault:
        complain(f"lotos-flat: {fault}")
        return NO_ANSWER
    except NoTree as fault:
        complain(f"lotos-flat: a text could not be read: {fault}")
        return NO_ANSWER
    if options.text:
        write(with_comments(flat, parts))
        return 0
    found = [it for it in parts if not options.find or options.find.lower().strip("_") in it.names]
    if options.json:
        write(json.dumps([it.data for it in found], indent=1, ensure_ascii=True) + "\n")
    else:
        write("".join(f"{visible(it.line) if sys.stdout.isatty() else it.line}\n" for it in found))
    return 0 if found or not options.find else ANSWER_IS_NO
