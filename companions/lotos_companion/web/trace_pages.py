"""What `lotos-trace` writes of a scenario by the page's own means: the page that plays alone, and the chart of components."""
from __future__ import annotations

import os
import shlex
from typing import Optional

from ..program import Words
from ..scenario import Scenario
from .export import export_page
from .page_session import PageSession
from .picture import ComponentChart, png
from .recording import record, record_alone
from .views import View


def recorded(program: Optional[str], words: Optional[Words], scenario: Scenario, path: str, with_numbers: bool,
             with_names: bool) -> View:
    """The steps of a scenario with what is there behind each; without a specification what the trace has alone."""
    if program is None or words is None:
        return record_alone(scenario, os.path.basename(path))
    session = PageSession(program, [words], with_numbers, with_names)
    try:
        session.open()
        for moment in scenario.moments:
            session.step(moment.step.number, moment.step.values)
        return record(session, scenario.refusal)
    finally:
        session.close()


def page_of(view: View, title: str, words: Optional[Words], path: str) -> str:
    """The page that plays the scenario."""
    lines = [shlex.join(["lotos", *words.line("run")]), f"replay {path}"] if words else []
    return export_page(view, title, lines)


def chart_of(view: View, title: str) -> str:
    """The chart of its components as SVG."""
    return ComponentChart(view, title).svg()


def chart_png(view: View, title: str) -> bytes:
    """The same as PNG."""
    chart = ComponentChart(view, title)
    return png(chart.svg(), chart.size)
