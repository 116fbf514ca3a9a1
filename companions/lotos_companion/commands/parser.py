"""The reader of options that belongs to a command."""
from __future__ import annotations

import argparse
import re
from typing import Any, Dict, Iterator

from ..version import VERSION
from .description import HELP_OPTION, VERSION_OPTION, Command, Example, Item, Kind, Option

MARK = re.compile(r"`([^`]*)`|\*([^*]*)\*")


def plain(text: str) -> str:
    """A text without the marks for bold and italics."""
    return MARK.sub(lambda found: found[1] or found[2] or "", text)


def make_parser(command: Command) -> argparse.ArgumentParser:
    """The parser of a command's options, with `--help` and `--version`; the other words stand in `words`."""
    usage = "\n       ".join(command.usage)
    parser = argparse.ArgumentParser(prog=command.name, description=_first(command), usage=usage.replace("%", "%%"),
                                     epilog="\n".join(_behind(command)), allow_abbrev=False, add_help=False,
                                     formatter_class=argparse.RawDescriptionHelpFormatter)
    for option in command.all_options:
        _add(parser, option)
    parser.add_argument("words", nargs="*", help=argparse.SUPPRESS)
    return parser


def _add(parser: argparse.ArgumentParser, option: Option) -> None:
    """Adds one option."""
    text = plain(option.help).replace("%", "%%")
    if option == HELP_OPTION:
        parser.add_argument("-h", option.name, action="help", help=text)
    elif option == VERSION_OPTION:
        parser.add_argument(option.name, action="version", version=f"%(prog)s {VERSION}", help=text)
    elif not option.takes_value:
        parser.add_argument(option.name, action="store_true", help=text)
    else:
        more: Dict[str, Any] = {"choices": option.choices} if option.choices else {}
        if option.repeated:
            more["action"] = "append"
        parser.add_argument(option.name, metavar=option.metavar, default=option.default, help=text,
                            type=int if option.kind is Kind.NUMBER else str, **more)


def _first(command: Command) -> str:
    """What stands in the help before the options."""
    verbs = [f"  {verb.name.ljust(10)}{plain(verb.summary)}" for verb in command.verbs]
    return "\n".join([plain(command.summary), *([""] + verbs if verbs else [])])


def _behind(command: Command) -> Iterator[str]:
    """What stands in the help behind the options: further words, the statuses, and examples."""
    for block in command.description:
        if isinstance(block, Item):
            yield f"{plain(block.term)}: {plain(block.text)}"
        else:
            yield block.lines if isinstance(block, Example) else plain(block)
        yield ""
    if command.statuses:
        yield "statuses: " + "; ".join(f"{number} {plain(text)}" for number, text in command.statuses)
    if command.examples:
        yield "examples:"
        yield from (f"  {it}" for it in command.examples)
