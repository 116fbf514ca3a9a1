"""A picture of few states as SVG: by graphviz where it is there, else states in rows by the number of steps to them."""
from __future__ import annotations

import shutil
import subprocess
from typing import Dict, Iterator, List, Optional, Tuple

from ..chart import LETTER, short, xml_text
from .formats import dot_lines, grouped
from .graph import StateGraph

MOST_STATES, MOST_EDGES = 200, 800
RADIUS, ROW, GAP, EDGE_TEXT = 15, 92, 40, 28
STYLE = """
.states text { font: 11px ui-monospace, "DejaVu Sans Mono", Menlo, Consolas, monospace; fill: #222; text-anchor: middle; }
.states .label { fill: #1a5fa8; paint-order: stroke; stroke: #fff; stroke-width: 3px; }
.states .label.hidden { fill: #777; }
.states circle { fill: #fff; stroke: #222; stroke-width: 1.3; }
.states .first { stroke-width: 2.6; }
.states .dead { stroke: #b3261e; stroke-width: 2.2; }
.states .unknown { stroke-dasharray: 4 3; }
.states path { fill: none; stroke: #1a5fa8; stroke-width: 1.2; }
.states path.hidden { stroke: #999; }
"""
Point = Tuple[float, float]


def is_small(graph: StateGraph) -> bool:
    """Whether a picture can be looked at."""
    return graph.states <= MOST_STATES and graph.transitions <= MOST_EDGES


def picture(graph: StateGraph, name: str) -> str:
    """The picture, whole."""
    return _by_graphviz(graph, name) or "\n".join(_Drawing(graph, name).lines()) + "\n"


def _by_graphviz(graph: StateGraph, name: str) -> Optional[str]:
    """The picture as graphviz makes it, where it is there."""
    tool = shutil.which("dot")
    if not tool:
        return None
    text = "\n".join(dot_lines(graph, name)).encode("utf-8", "replace")
    try:
        done = subprocess.run([tool, "-Tsvg"], input=text, stdout=subprocess.PIPE, stderr=subprocess.DEVNULL, timeout=60,
                              check=False)
    except (OSError, subprocess.TimeoutExpired):
        return None
    return done.stdout.decode("utf-8") if done.returncode == 0 and done.stdout else None


class _Drawing:
    """A picture of our own: rows of states, and arrows that bend where they go back or to their own state."""

    def __init__(self, graph: StateGraph, name: str):
        self._graph, self._name = graph, name
        rows: Dict[int, List[int]] = {}
        for state in range(graph.states):
            rows.setdefault(graph.depths[state], []).append(state)
        space = max([self._space(state) for state in range(graph.states)] + [60])
        self._width = max(len(row) for row in rows.values()) * space + 2 * GAP
        self._height = (len(rows) - 1) * ROW + 2 * GAP + 60
        self._places: Dict[int, Point] = {}
        self._taken: List[Tuple[float, float, float, float]] = []
        for depth, row in rows.items():
            begin = (self._width - len(row) * space) / 2 + space / 2
            for count, state in enumerate(row):
                self._places[state] = (begin + count * space, 52 + GAP + depth * ROW)

    def _space(self, state: int) -> float:
        """The width that a state and the labels behind it want."""
        texts = [it for labels in grouped(self._graph, state).values() for it in labels]
        return 2 * RADIUS + GAP + max([len(short(it, EDGE_TEXT)) * LETTER * 0.92 for it in texts] + [0.0])

    def lines(self) -> Iterator[str]:
        """The lines of the SVG."""
        yield (f'<svg xmlns="http://www.w3.org/2000/svg" xml:space="preserve" class="states" role="img" width="{self._width:.0f}" '
               f'height="{self._height:.0f}" viewBox="0 0 {self._width:.0f} {self._height:.0f}">')
        yield f"<title>{xml_text(self._name)}</title><style>{STYLE}</style>"
        yield ('<defs><marker id="end" viewBox="0 0 8 8" refX="8" refY="4" markerWidth="7" markerHeight="7" orient="auto">'
               '<path d="M0 0 L8 4 L0 8 Z" style="fill:#1a5fa8;stroke:none"/></marker></defs>')
        yield '<rect width="100%" height="100%" fill="#fff"/>'
        yield f'<text x="14" y="22" style="text-anchor:start;font-weight:bold">{xml_text(self._name)}</text>'
        texts: List[str] = []
        for state in range(self._graph.expanded):
            for target, labels in grouped(self._graph, state).items():
                path, place = self._arrow(state, target)
                hidden = " hidden" if labels == ["i"] else ""
                yield f'<path class="arrow{hidden}" d="{path}" marker-end="url(#end)"/>'
                texts += self._label(labels, place, hidden)
        yield from texts
        dead = self._graph.deadlocks()
        for state, (x, y) in self._places.items():
            kind = " dead" if state in dead else " unknown" if state >= self._graph.expanded else ""
            first = " first" if state == 0 else ""
            yield f'<circle class="state{kind}{first}" cx="{x:.1f}" cy="{y:.1f}" r="{RADIUS}"/>'
            yield f'<text x="{x:.1f}" y="{y + 4:.1f}">{state}</text>'
        yield "</svg>"

    def _label(self, labels: List[str], place: Point, hidden: str) -> Iterator[str]:
        """The labels of an arrow, one below the other, where no others stand."""
        shown = labels if len(labels) <= 4 else [*labels[:3], f"and {len(labels) - 3} more"]
        shown = [short(it, EDGE_TEXT) for it in shown]
        x, y = place[0], self._free(place, max(map(len, shown)) * LETTER * 0.92, 12.0 * len(shown))
        whole = xml_text("\n".join(labels))
        for count, text in enumerate(shown):
            yield (f'<text class="label{hidden}" x="{x:.1f}" y="{y + 12 * count:.1f}">{xml_text(text)}'
                   f"<title>{whole}</title></text>")

    def _free(self, place: Point, width: float, height: float) -> float:
        """A height near a place where labels of this size meet no others."""
        left, right = place[0] - width / 2, place[0] + width / 2
        for shift in (0, 12, -12, 24, -24, 36, -36):
            top = place[1] + shift - 10
            if all(right < it[0] or it[1] < left or top + height < it[2] or it[3] < top for it in self._taken):
                break
        self._taken.append((left, right, top, top + height))
        return top + 10

    def _arrow(self, state: int, target: int) -> Tuple[str, Point]:
        """The path of an arrow from edge to edge of two circles, and the place of its labels."""
        (x, y), (u, v) = self._places[state], self._places[target]
        if state == target:
            path = f"M{x - 7:.1f} {y - 13:.1f} C{x - 34:.1f} {y - 50:.1f} {x + 34:.1f} {y - 50:.1f} {x + 7:.1f} {y - 13:.1f}"
            return path, (x, y - 44)
        length = ((u - x) ** 2 + (v - y) ** 2) ** 0.5
        is_forward = v > y and v - y < 1.5 * ROW
        bend = 0.0 if is_forward else 0.24 * length
        across = ((v - y) / length * bend, (x - u) / length * bend)
        middle = ((x + u) / 2 + across[0], (y + v) / 2 + across[1])
        begin, end = _towards((x, y), middle), _towards((u, v), middle)
        path = f"M{begin[0]:.1f} {begin[1]:.1f} Q{middle[0]:.1f} {middle[1]:.1f} {end[0]:.1f} {end[1]:.1f}"
        return path, ((x + u) / 4 + middle[0] / 2, (y + v) / 4 + middle[1] / 2 + (0 if is_forward else 10))


def _towards(centre: Point, other: Point) -> Point:
    """The point of a circle around a centre that is nearest to another one."""
    x, y = other[0] - centre[0], other[1] - centre[1]
    length = max((x * x + y * y) ** 0.5, 1e-6)
    return centre[0] + x / length * (RADIUS + 1), centre[1] + y / length * (RADIUS + 1)
