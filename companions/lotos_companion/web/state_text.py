"""The text of a state taken apart at its parallel operators, where there is no grammar to read it by, or the state is long."""
from __future__ import annotations

import re
from typing import Dict, Optional, Tuple

from ..components import Component

TOKEN = re.compile(r"\|\[[^\]]*\]\||\|\|\||\|\||\[\]|\[>|[#%&*+\-./<=>@\\^~{}]+|\w+|\s+|.", re.S)
CALL = re.compile(r"([A-Za-z]\w*)\s*(?:\[(?!\])|\(|$)")
WORDS = ("stop", "exit", "i", "choice", "let", "par", "hide", "relabel")


def parts_of(text: str, path: Tuple[int, ...] = (), deepest: int = 200) -> Component:
    """The parts of a state. What stands behind `>>` has not begun, what behind `[>` waits; both are none."""
    head, text = _without_head(text.strip())
    if head:
        return Component(path, head, (parts_of(text, path, deepest),))
    found = _first_operator(text) if deepest else None
    if not found:
        return Component(path, text, (), called(text))
    begin, end = found
    operator = text[begin:end]
    if operator in (">>", "[>"):
        return Component(path, text[begin:], (parts_of(text[:begin], path, deepest - 1),))
    sides = tuple(parts_of(it, (*path, side), deepest - 1) for side, it in enumerate((text[:begin], text[end:])))
    return Component(path, operator, sides)


def called(text: str) -> str:
    """The name of the process that a component's text calls, or nothing where it stands within one."""
    found = CALL.match(text)
    return found[1] if found and found[1] not in WORDS else ""


def _without_head(text: str) -> Tuple[str, str]:
    """The first `hide` before a text, if there is one, and the text behind it without relabellings and brackets around it."""
    while True:
        word = text.split(" ", 1)[0]
        inside = text.find(" in ")
        if word == "hide" and inside >= 0:
            return text[:inside + 3], text[inside + 4:].strip()
        if word == "relabel" and inside >= 0:
            text = text[inside + 4:].strip()
        elif text.startswith("(") and _closing(text) == len(text) - 1:
            text = text[1:-1].strip()
        else:
            return "", text


def _closing(text: str) -> int:
    """Where the bracket is closed that the text begins with."""
    depth = 0
    for place, letter in enumerate(text):
        depth += {"(": 1, ")": -1}.get(letter, 0)
        if depth == 0:
            return place
    return len(text)


def _first_operator(text: str) -> Optional[Tuple[int, int]]:
    """Where the operator stands that joins the sides of a text: the first of those that bind least."""
    found: Dict[str, Tuple[int, int]] = {}
    depth = 0
    for it in TOKEN.finditer(text):
        depth += {"(": 1, "[": 1, ")": -1, "]": -1}.get(it[0], 0)
        if depth == 0:
            kind = "|" if it[0].startswith("|") else it[0]
            found.setdefault(kind, it.span())
    return next((found[it] for it in (">>", "[>", "|") if it in found), None)
