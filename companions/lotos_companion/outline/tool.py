"""What `lotos-check` does with the options for outlines. They are read by the grammar alone: the program is not asked."""
from __future__ import annotations

import json
from dataclasses import asdict
from typing import Optional

from .. import output
from ..language.reading import NoGrammar, NoTree, read_specification
from ..options import NO_ANSWER, UNREAD
from .parts import read_outline
from .picture import outline_picture
from .text import outline_lines

NO_SPECIFICATION = 1


def write_outline(path: str, picture: Optional[str], as_json: bool) -> int:
    """Writes the outline of a specification, and its picture into a file where one is named: the status."""
    try:
        with open(path, "rb") as file:
            text = file.read().decode("utf-8", "replace")
    except (OSError, ValueError):
        output.complain(f"lotos-check: cannot read {path}")
        return UNREAD
    try:
        outline = read_outline(read_specification(text))
    except NoGrammar as fault:
        output.complain(f"lotos-check: {fault}")
        return NO_ANSWER
    except NoTree as fault:
        output.complain(f"lotos-check: {path}: {fault}")
        return NO_SPECIFICATION
    if picture is not None:
        with open(picture, "w", encoding="utf-8") as made:
            made.write(outline_picture(outline))
    output.write(json.dumps(asdict(outline)) + "\n" if as_json else "".join(f"{it}\n" for it in outline_lines(outline)))
    return 0
