"""A scenario as the exported page plays it: each of its places with the menu and the state that are there."""
from __future__ import annotations

from typing import Dict, List, Optional

from ..answers import Label
from ..scenario import Scenario
from .page_session import PageSession
from .views import View, moving_view, sources_view


def record(session: PageSession, refusal: Optional[str] = None) -> View:
    """The scenario that led to the present state: goes through its places from the first one on, and ends where it began."""
    path = [0, *session.places.path(session.places.at)]
    moments: List[View] = []
    menus: List[View] = []
    numbers: Dict[object, int] = {}
    for place in path:
        session.go(place)
        side = _first_side(moving_view(session, session.epoch, len(session.events)))
        menu: View = {name: side.pop(name) for name in ("head", "entries", "marks")}
        key = (session.play.menu, str(menu["marks"]))
        if key not in numbers:
            numbers[key] = len(menus)
            menus.append(menu)
        moments.append({**side, "menu": numbers[key]})
    view = moving_view(session, -1, 0)
    places = view["places"]
    assert isinstance(places, list)
    return {"sources": sources_view(session)[:1], "lanes": view["lanes"], "moments": moments, "menus": menus,
            "places": [{**places[it], "parent": count - 1} for count, it in enumerate(path)], "refusal": refusal or ""}


def _first_side(view: View) -> View:
    sides = view["sides"]
    assert isinstance(sides, list)
    first: View = sides[0]
    return first


def record_alone(scenario: Scenario, file: str) -> View:
    """What a trace has alone: its labels, with a line of the chart for each gate, and its states where it has them."""
    labels = [Label.read(it.step.label) for it in scenario.moments]
    lanes = list(dict.fromkeys(it.gate for it in labels))
    places: List[View] = [_alone(-1, "", "", [], lanes)]
    for count, (moment, label) in enumerate(zip(scenario.moments, labels)):
        places.append(_alone(count, moment.step.line, label.text, [lanes.index(label.gate)], lanes))
    states = [*(it.state for it in scenario.moments), scenario.state]
    moments: List[View] = [{"menu": 0, "text": it or "", "rows": [] if it is None else [_row(it)], "lanes": lanes, "taken": [], "steps": count,
                            "differs": None, "parted": None} for count, it in enumerate(states)]
    return {"sources": [{"file": file, "path": file, "text": "", "opening": [f"accepted {scenario.name or file}"]}],
            "places": places, "lanes": lanes, "moments": moments, "menus": [{"head": "not known", "entries": [], "marks": []}],
            "refusal": scenario.refusal or ""}


def _alone(parent: int, line: str, label: str, lanes: List[int], there: List[str]) -> View:
    return {"parent": parent, "line": line, "label": label, "name": "", "called": "", "lanes": lanes, "there": list(range(len(there))),
            "arrows": []}


def _row(state: str) -> View:
    return {"depth": 0, "text": state, "lane": -1, "moved": False}
