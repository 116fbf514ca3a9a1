"""The output of a companion: whole texts, with the bytes of the program's texts as they came."""
from __future__ import annotations

import os
import re
import sys
from typing import BinaryIO, Optional

CONTROL = re.compile("[\x00-\x08\x0b-\x1f\x7f-\x9f\ud800-\udfff\u2028\u2029\u202a-\u202e\u2066-\u2069]")
_output: Optional[BinaryIO] = None


def visible(text: str) -> str:
    """A text whose control characters a terminal does not obey."""
    return CONTROL.sub(_escaped, text)


def _escaped(found: re.Match[str]) -> str:
    """A character as an escape; a byte that was no UTF-8 as that byte."""
    number = ord(found[0])
    if 0xdc80 <= number <= 0xdcff:
        number -= 0xdc00
    return f"\\x{number:02x}" if number < 0x100 else f"\\u{number:04x}"


def has_output() -> bool:
    """Whether there is an output at all. A closed input is made an empty one, and a closed error stream a deaf one."""
    if sys.stdin is None:
        sys.stdin = open(os.open(os.devnull, os.O_RDONLY), encoding="utf-8")
    if sys.stdout is None:
        return False
    if sys.stderr is None:
        sys.stderr = open(os.open(os.devnull, os.O_WRONLY), "w", encoding="utf-8")
    return True


def write(text: str) -> None:
    """Writes a text."""
    write_bytes(text.encode("utf-8", "surrogateescape"))


def write_bytes(data: bytes) -> None:
    """Writes bytes. (The stream of Python may write a part alone where it is not buffered.)"""
    global _output
    if _output is None:
        _output = open(sys.stdout.fileno(), "wb", closefd=False)
    _output.write(data)


def flush() -> None:
    """Has all that was written shown."""
    if _output is not None:
        _output.flush()


def drop() -> None:
    """Throws away what waits for an output that is closed or full."""
    os.dup2(os.open(os.devnull, os.O_WRONLY), sys.stdout.fileno())


def complain(text: str) -> None:
    """Writes a line to the error stream."""
    text = visible(text) if sys.stderr.isatty() else text
    with open(sys.stderr.fileno(), "wb", closefd=False) as stream:
        stream.write((text + "\n").encode("utf-8", "surrogateescape"))
