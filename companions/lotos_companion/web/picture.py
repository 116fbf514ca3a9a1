"""The chart of a recorded scenario as SVG, drawn as the page draws it, and as PNG by what the system has for that."""
from __future__ import annotations

import math
import os
import shutil
import subprocess
import tempfile
from typing import Iterator, List, Sequence, Tuple, cast

from ..chart import short, xml_text
from .server import STATIC
from .views import View

ROW, HEAD, NUMBERS, LETTER = 36, 34, 46, 7.3
LONGEST_NAME, LONGEST_LABEL = 24, 90
MOST_PIXELS = 32000


class NoPicture(Exception):
    """There is nothing on this system that makes a PNG; what to install."""


class ComponentChart:
    """The chart of one scenario: a line for each component, a row for each step."""

    def __init__(self, scenario: View, title: str):
        self._places = cast(List[View], scenario["places"])
        self._lanes = cast(List[str], scenario["lanes"])
        self._title = title
        longest = max([4, *(min(len(it), LONGEST_NAME) for it in self._lanes)])
        self._space = max(96.0, longest * LETTER + 26)

        ends = [self._left(it) + min(len(_label(it)), LONGEST_LABEL) * LETTER for it in self._places[1:]]
        self._width = max([NUMBERS + self._space * max(len(self._lanes), 1), *ends]) + 12
        self._height = HEAD + ROW * (len(self._places) - 1) + 12

    @property
    def size(self) -> Tuple[int, int]:
        """Its width and its height."""
        return math.ceil(self._width), self._height

    def svg(self) -> str:
        """The picture, whole."""
        width, height = self._width, self._height
        with open(os.path.join(STATIC, "picture.css"), encoding="utf-8") as file:
            style = file.read()
        size = f'width="{_number(width)}" height="{height}"'
        return "\n".join([
            f'<svg xmlns="http://www.w3.org/2000/svg" xml:space="preserve" {size} viewBox="0 0 {_number(width)} {height}" role="img" '
            'class="picture">', f"<title>{xml_text(self._title)}</title>", f"<style>{style}</style>",
            f'<rect class="paper" {size}/>', *self._head(), *self._rows(), "</svg>"]) + "\n"

    def _x(self, lane: int) -> float:
        return NUMBERS + self._space * (lane + 0.5)

    def _left(self, place: View) -> float:
        return min(map(self._x, _lanes(place, "lanes")))

    def _head(self) -> Iterator[str]:
        """The names above the lines."""
        for lane, name in enumerate(self._lanes):
            x = self._x(lane)
            yield (f'<g><title>{xml_text(name)}</title><rect class="box" x="{_number(x - self._space / 2 + 6)}" y="4" '
                   f'width="{_number(self._space - 12)}" height="24" rx="4"/><text class="lane-name" x="{_number(x)}" y="20" '
                   f'text-anchor="middle">{xml_text(short(name, LONGEST_NAME))}</text></g>')

    def _rows(self) -> Iterator[str]:
        for count, (before, place) in enumerate(zip(self._places, self._places[1:])):
            yield f'<g transform="translate(0 {HEAD + ROW * count})">{"".join(self._row(before, place, count + 1))}</g>'

    def _row(self, before: View, place: View, count: int) -> Iterator[str]:
        """A step: the pieces of the lines beside it, its bar with blocks and arrows, its number and its label."""
        there = {*_lanes(before, "there"), *_lanes(place, "there")}
        for lane in range(len(self._lanes)):
            if lane in there:
                at = _number(self._x(lane))
                yield f'<line class="life" x1="{at}" y1="0" x2="{at}" y2="{ROW}"/>'
        hidden = " hidden" if place["label"] == "i" else ""
        xs = [self._x(it) for it in _lanes(place, "lanes")]
        name = f" ({place['name']})" if place["name"] else ""
        told = f"step {count}: {place['label']}{name}"
        yield f'<g class="event"><title>{xml_text(told)}</title>'
        if min(xs) < max(xs):
            yield f'<line class="bar{hidden}" x1="{_number(min(xs))}" y1="25" x2="{_number(max(xs))}" y2="25"/>'
        for x in xs:
            yield f'<rect class="block{hidden}" x="{_number(x - 5)}" y="20" width="10" height="10" rx="2"/>'
        for begin, end in cast(Sequence[Tuple[int, int]], place["arrows"]):
            yield self._arrow(self._x(begin), self._x(end), hidden)
        yield f'<text class="step-number" x="{NUMBERS - 12}" y="29" text-anchor="end">{count}</text>'
        yield (f'<text class="step-label{hidden}" x="{_number(min(xs) - 5)}" y="15">'
               f"{xml_text(short(_label(place), LONGEST_LABEL))}</text></g>")

    @staticmethod
    def _arrow(begin: float, end: float, hidden: str) -> str:
        way = 1 if end > begin else -1
        tip, back = _number(end - way * 6), _number(end - way * 17)
        return f'<path class="arrow{hidden}" d="M{tip} 25 L{back} 19 L{back} 31 Z"/>'


def _lanes(place: View, name: str) -> List[int]:
    return cast(List[int], place[name])


def _label(place: View) -> str:
    return str(place["called"] or place["label"])


def _number(value: float) -> str:
    """A length without an end that tells nothing."""
    return f"{value:.2f}".rstrip("0").rstrip(".")


def png(svg: str, size: Tuple[int, int]) -> bytes:
    """A picture as PNG, twice as large. `NoPicture` where nothing on the system makes one."""
    with tempfile.TemporaryDirectory() as folder:
        source, target = os.path.join(folder, "chart.svg"), os.path.join(folder, "chart.png")
        with open(source, "w", encoding="utf-8") as file:
            file.write(svg)
        for line in _makers(source, target, size, folder):
            if shutil.which(line[0]):
                subprocess.run(line, stdout=subprocess.DEVNULL, stderr=subprocess.DEVNULL, check=False, timeout=120)
                if os.path.exists(target):
                    with open(target, "rb") as made:
                        return made.read()
    raise NoPicture("a PNG needs rsvg-convert (of Debian's package librsvg2-bin) or chromium")


def _makers(source: str, target: str, size: Tuple[int, int], folder: str) -> Iterator[List[str]]:
    """The lines of the programs that make a PNG, the best first."""
    scale = min(2.0, MOST_PIXELS / max(size))
    yield ["rsvg-convert", f"--zoom={scale:.3f}", f"--output={target}", source]
    for name in ("chromium", "chromium-browser", "google-chrome"):
        yield [name, "--headless=new", "--disable-gpu", "--hide-scrollbars", f"--force-device-scale-factor={scale:.3f}",
               f"--window-size={size[0]},{size[1]}", f"--screenshot={target}", f"--user-data-dir={folder}/browser",
               *(["--no-sandbox"] if os.getuid() == 0 else []), f"file://{source}"]

