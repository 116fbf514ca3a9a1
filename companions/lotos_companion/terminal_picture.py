"""A picture of a terminal as SVG, from its lines with the escapes of their colours."""
from __future__ import annotations

import re
from dataclasses import dataclass, replace
from typing import Iterator, List, Sequence, Tuple

from .chart import xml_text

COLUMN, LINE, MARGIN = 8.43, 18, 14
COLOURS = ("#3c3c3c", "#e5534b", "#57ab5a", "#c69026", "#539bf5", "#b083f0", "#39c5cf", "#d4dae1",
           "#768390", "#ff938a", "#8ddb8c", "#daaa3f", "#6cb6ff", "#dcbdfb", "#56d4dd", "#ffffff")
PLAIN, GROUND = "#d4dae1", "#1c2128"
PART = re.compile("\x1b\\[([0-9;]*)m|([^\x1b]+)|\x1b.")


@dataclass(frozen=True)
class Look:
    """How a letter looks."""

    colour: str = PLAIN
    bold: bool = False
    turned: bool = False

    def after(self, escape: str) -> Look:
        """How letters look behind an escape. Colours of more than 16 are left as they are."""
        look = self
        for number in [int(it or 0) for it in escape.split(";")]:
            if number == 0:
                look = Look()
            elif number in (1, 7):
                look = replace(look, bold=look.bold or number == 1, turned=look.turned or number == 7)
            elif number == 39:
                look = replace(look, colour=PLAIN)
            elif 30 <= number <= 37 or 90 <= number <= 97:
                look = replace(look, colour=COLOURS[number % 10 + (8 if number >= 90 else 0)])
        return look


def terminal_picture(lines: Sequence[str], columns: int, title: str) -> str:
    """The picture, whole."""
    width, height = 2 * MARGIN + columns * COLUMN, 2 * MARGIN + len(lines) * LINE
    parts = [f'<svg xmlns="http://www.w3.org/2000/svg" xml:space="preserve" role="img" width="{width:.0f}" height="{height}" '
             f'viewBox="0 0 {width:.0f} {height}">', f"<title>{xml_text(title)}</title>",
             '<style>text { font: 14px ui-monospace, "DejaVu Sans Mono", Menlo, Consolas, monospace; white-space: pre; } '
             '.bold { font-weight: bold; }</style>',
             f'<rect width="100%" height="100%" rx="8" fill="{GROUND}"/>']
    look = Look()
    for count, line in enumerate(lines):
        spans, look = _spans(line, look)
        parts += list(_drawn(spans, MARGIN + count * LINE))
    return "\n".join([*parts, "</svg>"]) + "\n"


def _spans(line: str, look: Look) -> Tuple[List[Tuple[Look, str]], Look]:
    """The parts of a line, each with its look; and the look behind it."""
    spans = []
    for found in PART.finditer(line):
        if found[1] is not None:
            look = look.after(found[1])
        elif found[2]:
            spans.append((look, found[2]))
    return spans, look


def _drawn(spans: Sequence[Tuple[Look, str]], top: float) -> Iterator[str]:
    """The parts of a line, drawn at their columns."""
    column = 0
    for look, text in spans:
        x, width = MARGIN + column * COLUMN, len(text) * COLUMN
        column += len(text)
        if look.turned:
            yield f'<rect x="{x:.1f}" y="{top}" width="{width:.1f}" height="{LINE}" fill="{look.colour}"/>'
        if text.strip():
            colour = GROUND if look.turned else look.colour
            bold = ' class="bold"' if look.bold else ""
            yield (f'<text x="{x:.1f}" y="{top + 13}" fill="{colour}"{bold} textLength="{width:.1f}" '
                   f'lengthAdjust="spacingAndGlyphs">{xml_text(text)}</text>')
