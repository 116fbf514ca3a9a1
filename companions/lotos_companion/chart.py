"""A picture of a scenario as SVG: a lane for each gate, steps down the page, the entries not taken as grey ends."""
from __future__ import annotations

import re
from dataclasses import dataclass
from html import escape
from typing import Callable, Dict, Iterable, Iterator, List, Optional, Sequence, Tuple

from .answers import Entry, Label
from .naming import named_line
from .scenario import Moment, Names, Scenario

LETTER = 7.3
ROW, TOP_SPACE, AXIS, END, BELOW = 34, 46, 52, 18, 10
LONGEST = 60
NOTE = 22
MOST_LINES = 20
MANY_LANES = 8
LAST_LANES = ("exit", "i")
UNPRINTABLE = re.compile("[^\t\n\x20-\x7e\xa0-\ud7ff\ue000-\ufffd\U00010000-\U0010ffff]")
STYLE = """
.chart text { font: 12px ui-monospace, "DejaVu Sans Mono", Menlo, Consolas, monospace; fill: #222; }
.chart .name { font-weight: bold; }
.chart .number, .chart .count, .chart .note { fill: #6b6b6b; }
.chart .lane { stroke: #d8d8d8; stroke-width: 1; }
.chart .axis { stroke: #222; stroke-width: 2; }
.chart .event { stroke: #1a5fa8; fill: #1a5fa8; stroke-width: 1.6; }
.chart .hidden { stroke: #a86400; fill: #a86400; stroke-width: 1.6; }
.chart line.hidden { stroke-dasharray: 5 4; }
.chart circle.hidden { fill: #fff; }
.chart .end { stroke: #a9a9a9; fill: #fff; stroke-width: 1.4; }
.chart .fault { stroke: #b3261e; fill: #b3261e; }
.chart text.fault { stroke: none; }
.chart a:hover text { text-decoration: underline; }
"""


def xml_text(text: str) -> str:
    """A text in XML: what XML cannot hold is shown by a sign."""
    return escape(UNPRINTABLE.sub("\ufffd", text), quote=True)


def short(text: str, most: int = LONGEST) -> str:
    """A text of so many letters at most."""
    return text if len(text) <= most else text[:most - 1] + "\u2026"


@dataclass(frozen=True)
class Layout:
    """Where things stand: the lanes by their gates, the width of the picture, and where its legend begins."""

    lanes: Dict[str, float]
    top: float
    width: float
    legend: float
    turned: bool

    def row(self, count: int) -> float:
        """The height of a row, from 0."""
        return self.top + ROW * (count + 1)


def gates_of(scenario: Scenario) -> List[str]:
    """The gates of all events and entries by their first appearance; `exit` and hidden events stand last."""
    labels: List[Label] = []
    for moment in scenario.moments:
        labels.append(Label.read(moment.step.label))
        labels += [it.label for it in moment.menu.entries] if moment.menu else []
    labels += [it.label for it in scenario.menu.entries] if scenario.menu else []
    gates = dict.fromkeys(it.gate for it in labels)
    return [it for it in gates if it not in LAST_LANES] + [it for it in LAST_LANES if it in gates]


def _layout(scenario: Scenario, texts: Sequence[str]) -> Layout:
    gates = gates_of(scenario)
    longest = max([len(short(it)) for it in texts] + [12])
    name_width = max([len(short(it, 30)) for it in gates] + [1]) * LETTER
    turned = len(gates) > MANY_LANES
    space = 34 if turned else max(60, name_width + 22)
    first = AXIS + longest * LETTER + 26 + (0 if turned else name_width / 2 - 10)
    top = TOP_SPACE + (name_width * 0.72 if turned else 10)
    right = name_width * 0.72 if turned else max(name_width / 2, 30)
    lanes = {gate: first + space * place for place, gate in enumerate(gates)}
    width = max([*lanes.values(), first]) + right + 40
    rows = len(scenario.moments) + (1 if scenario.has_menus else 0)
    return Layout(lanes, top, max(width, 560), top + ROW * (rows + 1) + 14, turned)


class Chart:
    """The picture of one scenario. `change` is what is done to the program's texts, and `link` names what a step leads to."""

    def __init__(self, scenario: Scenario, title: str, change: Callable[[str], str], note: str = "",
                 link: Optional[Callable[[int], str]] = None):
        self._scenario = scenario
        self._title = title
        self._change = change
        self._note = note
        self._link = link
        last = [f"not {scenario.refused.label}"] if scenario.refused else []
        self._layout = _layout(scenario, [*(change(it.short_label) for it in scenario.moments), *last])

    def svg(self) -> str:
        """The picture, whole."""
        layout = self._layout
        height = layout.legend + 18 + NOTE * sum(1 for it in (self._note, self._scenario.refusal) if it)
        width = max(layout.width, 28 + LETTER * len(short(self._scenario.refusal or "", 100)))
        head = (f'<svg xmlns="http://www.w3.org/2000/svg" class="chart" xml:space="preserve" role="img" width="{width:.0f}" '
                f'height="{height:.0f}" viewBox="0 0 {width:.0f} {height:.0f}">')
        parts = [head, f"<title>{xml_text(self._title)}</title>", f"<style>{STYLE}</style>",
                 '<rect width="100%" height="100%" fill="#fff"/>', *self._frame(), *self._rows(), *self._legend(), "</svg>"]
        return "\n".join(parts) + "\n"

    def _frame(self) -> Iterator[str]:
        """The title, the axis and the lanes with their names."""
        layout = self._layout
        rows = len(self._scenario.moments) + (1 if self._scenario.has_menus else 0)
        bottom = layout.row(rows - 1) + 16
        yield f'<text class="name" x="14" y="22">{xml_text(self._title)}</text>'
        for gate, x in layout.lanes.items():
            yield f'<line class="lane" x1="{x:.1f}" y1="{layout.top + 8:.1f}" x2="{x:.1f}" y2="{bottom:.1f}"/>'
            yield self._lane_name(gate, x)
        yield f'<line class="axis" x1="{AXIS}" y1="{layout.top + 8:.1f}" x2="{AXIS}" y2="{bottom:.1f}"/>'

    def _lane_name(self, gate: str, x: float) -> str:
        y = self._layout.top
        place = f'x="{x:.1f}" y="{y:.1f}" ' + (f'transform="rotate(-45 {x:.1f} {y:.1f})"' if self._layout.turned
                                               else 'text-anchor="middle"')
        whole = f"<title>{xml_text(gate)}</title>" if len(gate) > 30 else ""
        return f'<text class="name" {place}>{xml_text(short(gate, 30))}{whole}</text>'

    def _rows(self) -> Iterator[str]:
        """The steps, and what is possible behind the last one."""
        scenario = self._scenario
        for count, moment in enumerate(scenario.moments):
            yield from self._step(count, moment)
            yield from self._ends(count, moment.not_taken, moment.names)
        count = len(scenario.moments)
        if scenario.menu:
            is_fault = scenario.refusal or not scenario.menu.lines
            text = f"not {scenario.refused.label}" if scenario.refused else scenario.menu.head
            yield self._line_text(count, "fault" if is_fault else "note", text)
            yield from self._ends(count, scenario.menu.entries, scenario.names)

    def _step(self, count: int, moment: Moment) -> Iterator[str]:
        """The arrow of a step, with its label."""
        label = Label.read(moment.step.label)
        y, x = self._layout.row(count), self._layout.lanes[label.gate]
        kind = "hidden" if label.is_internal else "event"
        text = self._change(moment.label)
        inner = f'<text x="{AXIS + 8}" y="{y - 5:.1f}">{xml_text(short(self._change(moment.short_label)))}</text>'
        number = f'<text class="number" x="{AXIS - 10}" y="{y + 4:.1f}" text-anchor="end">{count + 1}</text>'
        if self._link:
            inner = f'<a href="{self._link(count + 1)}">{inner}</a>'
        yield f"<g><title>{xml_text(f'step {count + 1}: {text}')}</title>{number}"
        yield f'<line class="{kind}" x1="{AXIS}" y1="{y:.1f}" x2="{x - 7:.1f}" y2="{y:.1f}"/>'
        if label.is_internal:
            yield f'<circle class="hidden" cx="{x:.1f}" cy="{y:.1f}" r="5"/>'
        else:
            yield f'<path class="event" d="M{x - 10:.1f} {y - 5:.1f} L{x:.1f} {y:.1f} L{x - 10:.1f} {y + 5:.1f} Z"/>'
        yield f"{inner}</g>"

    def _ends(self, count: int, entries: Iterable[Entry], names: Names) -> Iterator[str]:
        """A grey end at each lane that has entries which were not taken, with their number where it is more than one."""
        by_gate: Dict[str, List[str]] = {}
        for entry in entries:
            line = named_line(entry.line, names[int(entry.number) - 1]) if names else entry.line
            by_gate.setdefault(entry.label.gate, []).append(self._change(line))
        y = self._layout.row(count) + BELOW
        for gate, lines in by_gate.items():
            x = self._layout.lanes[gate]
            more = [] if len(lines) <= MOST_LINES else [f"and {len(lines) - MOST_LINES} more"]
            yield f"<g><title>{xml_text(chr(10).join(['not taken:', *lines[:MOST_LINES], *more]))}</title>"
            yield f'<line class="end" x1="{x:.1f}" y1="{y:.1f}" x2="{x + END - 6:.1f}" y2="{y:.1f}"/>'
            yield f'<circle class="end" cx="{x + END - 3:.1f}" cy="{y:.1f}" r="3"/>'
            if len(lines) > 1:
                yield f'<text class="count" x="{x + END + 3:.1f}" y="{y + 4:.1f}">{len(lines)}</text>'
            yield "</g>"

    def _line_text(self, count: int, kind: str, text: str) -> str:
        y = self._layout.row(count)
        whole = f"<title>{xml_text(text)}</title>"
        return f'<text class="{kind}" x="{AXIS + 8}" y="{y + 4:.1f}">{xml_text(short(self._change(text)))}{whole}</text>'

    def _legend(self) -> Iterator[str]:
        """What the signs mean."""
        y = self._layout.legend
        signs: List[Tuple[str, str]] = [
            ('<line class="event" x1="0" y1="0" x2="20" y2="0"/>'
             '<path class="event" d="M18 -5 L28 0 L18 5 Z"/>', "event"),
            ('<line class="hidden" x1="0" y1="0" x2="20" y2="0"/>'
             '<circle class="hidden" cx="25" cy="0" r="5"/>', "hidden event")]
        if self._scenario.has_menus:
            signs.append(('<line class="end" x1="8" y1="0" x2="18" y2="0"/><circle class="end" cx="21" cy="0" r="3"/>',
                          "possible and not taken (how many)"))
        x = 14.0
        for sign, text in signs:
            yield f'<g transform="translate({x:.0f} {y:.0f})">{sign}<text class="note" x="36" y="4">{text}</text></g>'
            x += 60 + len(text) * LETTER
        for kind, text in (("note", self._note), ("fault", self._scenario.refusal or "")):
            y += NOTE if text else 0
            if text:
                shown = xml_text(short(self._change(text), 100))
                yield f'<text class="{kind}" x="14" y="{y:.0f}">{shown}<title>{xml_text(text)}</title></text>'
