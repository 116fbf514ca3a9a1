"""The one table of the commands: parsers, manual pages and completions are made from it."""
from __future__ import annotations

from typing import Tuple

from . import check, explore, flat, induct, language_server, libs, lotos, order, pairs, shell, test, trace, web
from .description import Command, Kind, Option, Verb, Word
from .parser import make_parser

COMMANDS: Tuple[Command, ...] = (
    lotos.COMMAND,
    shell.COMMAND,
    trace.COMMAND,
    pairs.COMMAND,
    libs.COMMAND,
    induct.COMMAND,
    test.COMMAND,
    check.COMMAND,
    order.COMMAND,
    explore.COMMAND,
    flat.COMMAND,
    language_server.COMMAND,
    web.COMMAND,
)

__all__ = ["COMMANDS", "Command", "Kind", "Option", "Verb", "Word", "make_parser"]
