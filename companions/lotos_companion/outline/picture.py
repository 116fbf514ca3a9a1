"""An outline as a picture: a box for each definition and each type, and an arrow from each to what it calls or is made of."""
from __future__ import annotations

from dataclasses import dataclass
from typing import Dict, Iterator, List, Sequence, Tuple

from ..chart import short, xml_text
from .parts import Outline

LETTER, LINE, PADDING = 7.3, 17, 10
BETWEEN_COLUMNS, BETWEEN_ROWS, EDGE = 70, 18, 20
MOST_LETTERS = 48
STYLE = """
text { font: 12px ui-monospace, "DejaVu Sans Mono", Menlo, Consolas, monospace; fill: #222; }
.name { font-weight: bold; }
.title { font-weight: bold; fill: #555; }
.definition { fill: #eef4fb; stroke: #1a5fa8; }
.type { fill: #f4f1e8; stroke: #8a6d1f; }
.arrow { fill: none; stroke: #555; stroke-width: 1.2; marker-end: url(#head); }
"""
HEAD = ('<defs><marker id="head" viewBox="0 0 8 8" refX="8" refY="4" markerWidth="8" markerHeight="8" orient="auto">'
        '<path d="M0 0 L8 4 L0 8 z" fill="#555"/></marker></defs>')


@dataclass
class Box:
    """A box: its lines, the kind that it is drawn as, the boxes that its arrows lead to, and where it stands."""

    lines: Tuple[str, ...]
    kind: str
    arrows: Tuple[int, ...]
    column: int = 0
    left: float = 0
    top: float = 0

    @property
    def width(self) -> float:
        """The width of the box."""
        return max(len(it) for it in self.lines) * LETTER + 2 * PADDING

    @property
    def height(self) -> float:
        """The height of the box."""
        return len(self.lines) * LINE + PADDING


def outline_picture(outline: Outline) -> str:
    """The picture as SVG."""
    definitions, types = _definition_boxes(outline), _type_boxes(outline)
    bottom = _placed(definitions, EDGE + LINE)
    end = _placed(types, bottom + BETWEEN_ROWS + LINE) if types else bottom
    boxes = [*definitions, *types]
    width = max(it.left + it.width for it in boxes) + 2 * EDGE
    drawn = [*_title("processes", EDGE + 4), *(_title("types", bottom + BETWEEN_ROWS + 4) if types else []),
             *(line for group in (definitions, types) for line in _drawn(group))]
    return (f'<svg xmlns="http://www.w3.org/2000/svg" width="{width:.0f}" height="{end + EDGE:.0f}" '
            f'viewBox="0 0 {width:.0f} {end + EDGE:.0f}" xml:space="preserve"><style>{STYLE}</style>{HEAD}'
            '<rect width="100%" height="100%" fill="#fff"/>' + "".join(drawn) + "</svg>\n")


def _definition_boxes(outline: Outline) -> List[Box]:
    boxes = []
    for part in outline.parts:
        lines = [part.name, f"[{', '.join(part.gates)}]" if part.gates else "no gates"]
        lines += [f"({', '.join(part.parameters)})"] if part.parameters else []
        lines += [f"hides {', '.join(part.hidden)}"] if part.hidden else []
        called = dict.fromkeys(it.of for it in part.calls if it.of is not None)
        boxes.append(Box(tuple(short(it, MOST_LETTERS) for it in lines), "definition", tuple(called)))
    return boxes


def _type_boxes(outline: Outline) -> List[Box]:
    numbers = {it.name.lower(): number for number, it in enumerate(outline.types)}
    boxes = []
    for it in outline.types:
        lines = [it.name + {"": "", "formal": " (formal)"}.get(it.how, f" ({it.how})")]
        lines += [f"sorts {', '.join(it.sorts)}"] if it.sorts else []
        outside = [base for base in it.bases if base.lower() not in numbers]
        lines += [f"from {', '.join(outside)}"] if outside else []
        boxes.append(Box(tuple(short(line, MOST_LETTERS) for line in lines), "type",
                         tuple(numbers[base.lower()] for base in it.bases if base.lower() in numbers)))
    return boxes


def _placed(boxes: Sequence[Box], top: float) -> float:
    """Gives each box its place, in columns by the steps from those that no other box leads to: the bottom of all."""
    _give_columns(boxes)
    columns: Dict[int, List[Box]] = {}
    for box in boxes:
        columns.setdefault(box.column, []).append(box)
    left, bottom = float(EDGE), top
    for column in sorted(columns):
        here = top
        for box in columns[column]:
            box.left, box.top = left, here
            here += box.height + BETWEEN_ROWS
        bottom = max(bottom, here)
        left += max(it.width for it in columns[column]) + BETWEEN_COLUMNS
    return bottom


def _give_columns(boxes: Sequence[Box]) -> None:
    led_to = {number for place, box in enumerate(boxes) for number in box.arrows if number != place}
    waiting = [it for it in range(len(boxes)) if it not in led_to] or [0]
    seen = set(waiting)
    for number in [*waiting, *range(len(boxes))]:
        if number in seen and number not in waiting:
            continue
        row = [number] if number in seen else []
        if number not in seen:
            seen.add(number)
            row = [number]
        while row:
            here = row.pop(0)
            for to in boxes[here].arrows:
                if to not in seen:
                    seen.add(to)
                    boxes[to].column = boxes[here].column + 1
                    row.append(to)


def _drawn(boxes: Sequence[Box]) -> Iterator[str]:
    for number, box in enumerate(boxes):
        for to in box.arrows:
            yield f'<path class="arrow" d="{_arrow(box, boxes[to], number == to)}"/>'
    for box in boxes:
        yield (f'<rect class="{box.kind}" x="{box.left:.1f}" y="{box.top:.1f}" width="{box.width:.1f}" '
               f'height="{box.height:.1f}" rx="4"/>')
        for place, line in enumerate(box.lines):
            yield (f'<text{"" if place else " class=" + chr(34) + "name" + chr(34)} x="{box.left + PADDING:.1f}" '
                   f'y="{box.top + LINE * (place + 1) - 1:.1f}">{xml_text(line)}</text>')


def _arrow(begin: Box, end: Box, is_own: bool) -> str:
    """The way of an arrow: to the right from side to side, back from bottom to bottom, within a column round the right sides, to
    itself by a loop."""
    right, middle = begin.left + begin.width, begin.top + begin.height / 2
    if is_own:
        return f"M{right - 24:.1f} {begin.top:.1f} c0 -16 16 -16 16 -1"
    to = end.top + end.height / 2
    if end.column > begin.column:
        bend = (end.left - right) / 2
        return f"M{right:.1f} {middle:.1f} C{right + bend:.1f} {middle:.1f} {end.left - bend:.1f} {to:.1f} {end.left:.1f} {to:.1f}"
    if end.column < begin.column:
        start, stop = begin.left + begin.width * 0.4, end.left + end.width * 0.6
        low, under = begin.top + begin.height, end.top + end.height
        return f"M{start:.1f} {low:.1f} C{start:.1f} {low + 30:.1f} {stop:.1f} {under + 46:.1f} {stop:.1f} {under:.1f}"
    far = max(right, end.left + end.width) + 34
    return (f"M{right:.1f} {middle + 4:.1f} C{far:.1f} {middle + 4:.1f} {far:.1f} {to + 4:.1f} "
            f"{end.left + end.width:.1f} {to + 4:.1f}")


def _title(text: str, top: float) -> List[str]:
    return [f'<text class="title" x="{EDGE}" y="{top:.1f}">{text}</text>']
