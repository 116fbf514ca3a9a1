"""What the page is told: places that it does not know yet, where the session stands, and each specification's menu and state."""
from __future__ import annotations

import os
from typing import Callable, Dict, List, Optional

from .page_session import PageSession
from .side import Side

View = Dict[str, object]


def whole_view(session: PageSession, folder: str, style: str) -> View:
    """What does not change as long as the files are not read anew."""
    return {"folder": folder, "style": style, "sources": sources_view(session)}


def sources_view(session: PageSession) -> List[View]:
    """The files of each specification, its text, and how its session began."""
    return [{"file": os.path.basename(it.words.files[0]), "path": it.words.files[0], "text": it.source,
             "opening": list(it.opening)} for it in session.sides]


def moving_view(session: PageSession, epoch: int, known: int) -> View:
    """All that a move changes. A page that knows the places up to `known` is told the others alone."""
    known = known if epoch == session.epoch else 0
    change = session.shown
    places = session.places
    return {
        "epoch": session.epoch, "known": known, "at": places.at, "tip": places.tip, "numbers": session.with_numbers,
        "places": [_place(session, it, change) for it in range(known, len(places.all))],
        "lanes": session.lead.reading.lanes.names,
        "sides": [_side(session, it, change) for it in session.sides],
    }


def _place(session: PageSession, number: int, change: Callable[[str], str]) -> View:
    """A place with the step before it."""
    place, event, taken = session.places.all[number], session.events[number], session.taken[number]
    return {"parent": place.parent, "label": change(place.step.label), "line": change(place.step.line), "name": change(taken.name.text if taken.name else ""), "called": change(taken.name.label if taken.name else ""),
            "lanes": list(event.lanes), "there": list(event.there), "arrows": [list(it) for it in event.arrows]}


def _side(session: PageSession, side: Side, change: Callable[[str], str]) -> View:
    """The menu and the state of a specification, and where it differs from the leading one."""
    reading = side.reading
    is_lead = side is session.lead
    return {
        "head": side.play.menu.head,
        "entries": [[change(line), change(name)] for line, name in zip(side.play.menu.lines, reading.names())],
        "marks": [[list(it) for it in marks] for marks in reading.marks()] if any(reading.marks()) else [],
        "taken": [list(it) for it in reading.taken],
        "lanes": reading.lanes.names,
        "text": change(reading.text),
        "rows": [dict(row, text=change(str(row["text"]))) for row in reading.rows()],
        "steps": len(side.play.done),
        "differs": None if is_lead else _first_difference(session, side),
        "parted": None if not side.parted else {"place": side.parted[0], "why": change(side.parted[1])},
    }


def _first_difference(session: PageSession, side: Side) -> Optional[int]:
    """The place before which the menus are not the same for the first time; -1 where that is the present state."""
    path: List[int] = session.places.path(session.places.at)
    first = next((place for place, it in zip(path, side.differs) if it), None)
    if first is None and not side.parted and side.digest() != session.lead.digest():
        return -1
    return first
