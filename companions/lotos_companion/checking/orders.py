"""For equations that cannot be used: the order file under which they can, or why there is none."""
from __future__ import annotations

import os
from typing import List, Tuple

from ..language.reading import NoGrammar, NoTree
from ..ordering.equations import Refused
from ..ordering.finding import find_order
from ..ordering.report import fault_lines
from .desk import Desk
from .report import Report
from .sources import ORDER_END, Edit, Sources
from .trying import Candidate


def order_help(desk: Desk, report: Report) -> Tuple[List[str], List[Candidate]]:
    """What is said of an order file for a specification whose equations are refused, and the file as a change of it."""
    sources = report.sources
    alone = Sources(type(sources.words)(sources.words.files[:1], sources.words.values), sources.given, sources.folder)
    try:
        found = find_order(desk, alone)
    except (NoTree, NoGrammar, Refused):
        return [], []
    if not found.is_accepted:
        return [f"no order file: {line}" if number == 0 else line for number, line in enumerate(fault_lines(found))], []
    name = sources.order or os.path.splitext(sources.specification)[0] + ORDER_END
    old = sources.read(name)
    edit = Edit(name, 0, len(old or b""), found.text.encode("latin-1"))
    return [], [Candidate(f"the order file {name}, as lotos-order writes it", (edit,))]
