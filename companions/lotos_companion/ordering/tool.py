"""The words of `lotos-order`, and what it writes."""
from __future__ import annotations

import json
from argparse import Namespace
from typing import Sequence

from .. import output
from ..checking.check import sources_of
from ..checking.desk import Desk
from ..checking.outcome import Outcome
from ..commands import make_parser
from ..commands.order import COMMAND
from ..language.reading import NoGrammar, NoTree
from ..options import ANSWER_IS_NO, NO_ANSWER, OUTPUT_FAILED, WRONG_WORDS, read_line
from ..program import Words, WrongWords, find_program
from .equations import Refused
from .finding import Found, find_order
from .report import as_json, fault_lines, list_lines, shown


def main(given: Sequence[str]) -> int:
    """Reads the options, computes, and prints: its status."""
    options = read_line(make_parser(COMMAND), given)
    try:
        words = Words.read(options.words)
    except WrongWords:
        words = Words(())
    if len(words.files) != 1:
        output.complain(f"usage: {COMMAND.usage[0]}")
        return WRONG_WORDS
    with Desk(find_program(options.program)) as desk:
        sources = sources_of(words)
        try:
            found = find_order(desk, sources)
        except NoGrammar as fault:
            output.complain(f"lotos-order: {fault}: it is needed to read specifications")
            return NO_ANSWER
        except (NoTree, Refused) as fault:
            return _refused(desk.check(sources), fault)
    return _write(found, options)


def _refused(outcome: Outcome, fault: Exception) -> int:
    """The status where the program refuses more than the equations."""
    output.write("".join(f"{it}\n" for it in outcome.lines[:1]))
    if outcome.is_accepted or outcome.status < 0:
        output.complain(f"lotos-order: a copy of the texts cannot be read: {fault}")
        return NO_ANSWER
    output.complain("lotos-order: the program refuses it for another reason than the order of its equations")
    return outcome.status


def _write(found: Found, options: Namespace) -> int:
    """Writes what was found: the status."""
    if options.json:
        output.write(json.dumps(as_json(found)) + "\n")
    elif options.list:
        output.write("".join(f"{it}\n" for it in list_lines(found)))
    if not found.is_accepted:
        output.complain("\n".join(fault_lines(found)))
        return ANSWER_IS_NO
    for it in found.unturnable:
        output.complain(f"lotos-order: no order turns {shown(it, found)} from left to right; the program accepts it from right to left")
    text = found.text or "(* No operation has to be listed. *)\n"
    if options.o:
        try:
            with open(options.o, "w", encoding="latin-1") as file:
                file.write(text)
        except OSError as fault:
            output.complain(f"lotos-order: {options.o}: {fault.strerror}")
            return OUTPUT_FAILED
        output.complain(f"lotos-order: {options.o} is written, and accepted")
    elif options.list:
        output.complain("lotos-order: turned so by the path order; the program accepts the equations with this order")
    elif not options.json:
        output.write(text)
    return 0
