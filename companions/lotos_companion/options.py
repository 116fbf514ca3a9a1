"""What the companions have in common where they begin and end: options, wrong words, a closed output."""
from __future__ import annotations

import argparse
import signal
import sys
from typing import Callable, Sequence

from . import output
from .program import NoProgram, WrongWords

# The statuses of the companions: the answer is no, or one of those that the program has too.
ANSWER_IS_NO, WRONG_WORDS, UNREAD, OUTPUT_FAILED, NO_ANSWER, BY_CTRL_C = 1, 2, 3, 5, 70, 130


def read_line(parser: argparse.ArgumentParser, given: Sequence[str]) -> argparse.Namespace:
    """The options, which may stand anywhere before `with` or `--`, and the other words. There are none behind these two."""
    end = next((place for place, it in enumerate(given) if it in ("with", "--")), len(given))
    options = parser.parse_intermixed_args(list(given[:end]))
    begin = end + 1 if given[end:end + 1] == ["--"] else end
    options.words += given[begin:]
    return options


def run_companion(name: str, call: Callable[[Sequence[str]], int]) -> int:
    """Calls a companion with the words of the line; its status, also where it could not go on."""
    if not output.has_output():
        return OUTPUT_FAILED
    for ending in (signal.SIGTERM, signal.SIGHUP):
        signal.signal(ending, _end_by_signal)
    try:
        status = call(sys.argv[1:])
        output.flush()
        return status
    except NoProgram as fault:
        output.complain(f"{name}: {fault}")
        return NO_ANSWER
    except WrongWords:
        return WRONG_WORDS
    except KeyboardInterrupt:
        return BY_CTRL_C
    except OSError as fault:
        return _output_failed(name, fault)


def _end_by_signal(number: int, _frame: object) -> None:
    """Ends the companion so that the program which it runs is ended too."""
    sys.exit(128 + number)


def _output_failed(name: str, fault: OSError) -> int:
    """The status where the output is closed or full. What is still waiting for it is thrown away."""
    if not isinstance(fault, BrokenPipeError):
        output.complain(f"{name}: {fault.strerror or fault}")
    output.drop()
    return OUTPUT_FAILED
