"""Manual pages, written from the table of the commands."""
from __future__ import annotations

import re
from typing import Iterable, Iterator

from .description import Block, Command, Example, Item, Option
from .parser import MARK

LINE = 90


def manual_page(command: Command) -> str:
    """The manual page of a command, whole."""
    lines = [f'.TH {command.name.upper()} 1 "" "" "User commands"', ".SH NAME",
             f"{_escaped(command.name)} \\- {_text(command.summary)}", ".SH SYNOPSIS", *_synopsis(command)]
    description = command.description or tuple(Item(f"`{it.usage}`", it.summary) for it in command.verbs)
    lines += [".SH DESCRIPTION", *_blocks(description)]
    for section in command.sections:
        lines += [f".SH {section.title}", *_blocks(section.blocks)]
    if command.all_options:
        lines += [".SH OPTIONS", *_blocks(_option(it) for it in command.all_options)]
    lines += [".SH EXIT STATUS", *_blocks(Item(f"`{number}`", text) for number, text in command.statuses)]
    if command.examples:
        lines += [".SH EXAMPLES", *_blocks([Example("\n".join(command.examples))])]
    lines += [".SH SEE ALSO", *_see_also(command)]
    return "\n".join(lines) + "\n"


def _synopsis(command: Command) -> Iterator[str]:
    """The lines of the usage: words in small letters bold, all others in italics."""
    for place, usage in enumerate(command.usage):
        if place:
            yield ".br"
        yield " ".join(_usage_word(it) for it in usage.split(" "))


def _usage_word(word: str) -> str:
    found = re.fullmatch(r"(\[?)([^\[\].]*)(.*)", word)
    assert found
    font = "B" if found[2] == found[2].lower() and found[2] != ">" else "I" if found[2] != ">" else "R"
    return f"{found[1]}\\f{font}{_escaped(found[2])}\\fP{found[3]}"


def _option(option: Option) -> Item:
    value = f" *{option.metavar}*" if option.takes_value else ""
    return Item(f"`{option.name}`{value}", option.help)


def _see_also(command: Command) -> Iterator[str]:
    names = [f"\\fB{_escaped(it)}\\fP(1)" for it in command.see_also]
    if names:
        yield ", ".join(names)
        yield ".PP"
    if command.pages:
        yield "The pages " + ", ".join(f"\\fI{_escaped(it)}\\fP" for it in command.pages) + "."


def _blocks(blocks: Iterable[Block]) -> Iterator[str]:
    """The lines of paragraphs, terms with explanations, and examples."""
    is_first, was_item = True, False
    for block in blocks:
        if isinstance(block, Item):
            yield from (".TP", _text(block.term), *_wrapped(block.text))
        elif isinstance(block, Example):
            yield from (".PP", ".RS", ".EX", *(_escaped(it) for it in block.lines.split("\n")), ".EE", ".RE")
        else:
            if was_item or not is_first:
                yield ".PP"
            yield from _wrapped(block)
        is_first, was_item = False, isinstance(block, Item)


def _wrapped(text: str) -> Iterator[str]:
    """A paragraph in lines that are not too long, none of which begins like a request."""
    line = ""
    for word in _text(text).split(" "):
        if line and len(line) + 1 + len(word) > LINE:
            yield line
            line = ""
        line = f"{line} {word}" if line else word.replace("'", "\\(aq", 1) if word.startswith("'") else word
    yield line


def _text(text: str) -> str:
    """A text with its bold and italic parts."""
    parts, end = [], 0
    for found in MARK.finditer(text):
        font = "B" if found[1] is not None else "I"
        parts += [_escaped(text[end:found.start()]), f"\\f{font}{_escaped(found[1] or found[2] or '')}\\fP"]
        end = found.end()
    return "".join(parts) + _escaped(text[end:])


def _escaped(text: str) -> str:
    escaped = text.replace("\\", "\\e").replace("-", "\\-")
    return f"\\&{escaped}" if escaped.startswith((".", "'")) else escaped
