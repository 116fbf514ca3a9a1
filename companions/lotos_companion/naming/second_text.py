"""The second text: the flat one with what is hidden visible at fresh gates, each of which tells what it stands for."""
from __future__ import annotations

from dataclasses import dataclass, replace
from typing import Dict, List, Optional, Sequence, Tuple

from ..language import text_of, tokens, tree
from .deep_calls import deep_calls
from .definitions import SPECIFICATION, Definition, Definitions
from .hidden_events import Kind, Origin
from .rewriting import Plan, Rewriter, TooMany
from .source_places import read_definitions

# Fresh gates are handed down in each call, so that many of them cost time.
MOST_GATES = 400


@dataclass(frozen=True)
class SecondText:
    """The text, and what its fresh gates stand for by their names in small letters."""

    text: str
    origins: Dict[str, Origin]

    def is_end(self, gate: str) -> bool:
        """Whether a gate tells the values of an end before `>>`, which is taken at once."""
        origin = self.origins.get(gate.lower())
        return origin is not None and origin.kind is Kind.ENDED


def second_text(flat: str, source: Optional[str] = None) -> SecondText:
    """The second text of a flat text, with places in the specification's own text where that is there. `TooMany` where more
    gates would be wanted than `MOST_GATES`, `NoTree` and `NoGrammar` as in reading."""
    definitions = read_definitions(flat, source)
    specification = definitions.specification
    with deep_calls():
        stem = unused_stem(flat)
        try:
            made, slots = _rewritten(definitions, definitions.groups(), stem)
        except TooMany:  # Then ways of calls are not told apart.
            made, slots = _rewritten(definitions, [tuple(definitions.by_name)], stem)
    top = made.pop(SPECIFICATION)
    assert isinstance(top, tree.Specification)
    inner = tuple(made[it.heading.name.key] if isinstance(it, tree.Process) else it for it in specification.inner)
    assert not any(isinstance(it, tree.Specification) for it in inner)
    text = text_of(replace(top, inner=inner))
    return SecondText(text, {f"{stem}{slot}": origin for slot, origin in enumerate(slots)})


def _rewritten(definitions: Definitions, groups: Sequence[Tuple[str, ...]],
               stem: str) -> Tuple[Dict[str, Definition], List[Origin]]:
    """The definitions of the second text, and the slots of the specification."""
    finished: Dict[str, List[Origin]] = {}
    made: Dict[str, Definition] = {}
    for group in groups:
        plan = Plan(definitions, stem, MOST_GATES, finished, group, [])
        _group(plan)  # Tells how many slots the group has, which its calls of itself are to know.
        plan = replace(plan, shared=len(plan.slots), slots=[])
        made.update(_group(plan))
        finished.update(dict.fromkeys(group, plan.slots))
    return made, finished[SPECIFICATION]


def _group(plan: Plan) -> Dict[str, Definition]:
    """The definitions of a group in the second text."""
    bodies = {}
    for name in plan.group:
        definition = plan.definitions.by_name[name]
        bodies[name] = Rewriter(plan, name).behaviour(definition.body, definition.heading.gates)
    fresh = tuple(map(plan.gate, range(len(plan.slots))))
    made: Dict[str, Definition] = {}
    for name, body in bodies.items():
        definition = plan.definitions.by_name[name]
        heading = replace(definition.heading, gates=definition.heading.gates + fresh)
        made[name] = replace(definition, heading=heading, body=body)
    return made


def unused_stem(text: str) -> str:
    """Letters that begin no word of a text with a number behind them, without regard to case."""
    words = {it.key for it in tokens(text)}
    stem = "h"
    while any(it.startswith(stem) and it[len(stem):].isdigit() for it in words):
        stem += "h"
    return stem
