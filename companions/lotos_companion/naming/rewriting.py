"""The second text's form of one definition: what is hidden becomes visible at fresh gates, and nothing else changes.

| In the flat text | In the second text |
|---|---|
| `hide g in B` | `choice g in [H] [] B`, which relabels, keeps `g` apart from others of its name, and hides nothing |
| `i; B` | `I; B` |
| `B >> accept x:S in C` | `B >> accept x:S in T !(x of S); C`: the end stays an `i`, and `T` behind it tells its values |
| `B || C`, `par .. || B` | the set of the gates that are visible there, so that none of the fresh ones is in it |
| `P[a](e)` | `P[a, the fresh gates of P](e)` |

A fresh gate is a slot: a number, under which it stands among the gates of a definition. The slots of a group of definitions
that call each other are the same for all of them; a call of another group has slots of its own for each slot there, so that
each way of calls tells its events apart.
"""
from __future__ import annotations

from dataclasses import dataclass, replace
from typing import Dict, List, Sequence, Tuple

from ..language import tree
from ..language.tokens import Place
from ..language.tree import Behaviour, Name, Names
from .definitions import Definitions
from .hidden_events import Kind, Origin, Way
from .mapping import BehaviourMap, more_visible, one_gate


class TooMany(Exception):
    """There are too many fresh gates."""


@dataclass
class Plan:
    """What is known of the definitions: the slots of those that are finished, and who is in the group that is being made."""

    definitions: Definitions
    stem: str
    most: int
    finished: Dict[str, List[Origin]]
    group: Tuple[str, ...]
    slots: List[Origin]
    shared: int = 0

    def gate(self, slot: int) -> Name:
        """The gate of a slot."""
        return Name(f"{self.stem}{slot}")

    def new_slot(self, origin: Origin) -> Name:
        """A slot more."""
        if len(self.slots) >= self.most:
            raise TooMany
        self.slots.append(origin)
        return self.gate(len(self.slots) - 1)


class Rewriter(BehaviourMap):
    """Rewrites the behaviour of one definition, by a plan that its slots are put into."""

    def __init__(self, plan: Plan, process: str):
        super().__init__()
        self._plan = plan
        self._process = process
        self._sides: Tuple[Way, ...] = ()

    def _slot(self, kind: Kind, gate: str, place: Place) -> Name:
        origin = self._plan.definitions.origin(kind, gate, self._process, place)
        return self._plan.new_slot(replace(origin, ways=self._sides))

    def _inner(self, part: object, visible: Names) -> Behaviour:
        assert isinstance(part, tree.Inner)
        gate = self._slot(Kind.INNER, "i", part.head)
        return tree.Action(gate, (), None, self.behaviour(part.next, visible))

    def _hide(self, part: object, visible: Names) -> Behaviour:
        assert isinstance(part, tree.Hide)
        among = tuple(tree.Among((it,), (self._slot(Kind.HIDDEN, it.text, it.place),)) for it in part.gates)
        return tree.ChooseGate(among, self.behaviour(part.body, more_visible(visible, part.gates)))

    def _enable(self, part: object, visible: Names) -> Behaviour:
        assert isinstance(part, tree.Enable)
        left = self.behaviour(part.left, visible)
        gate = self._slot(Kind.ENDED, "exit", part.sign_place)
        offers = tuple(tree.Given(tree.Term(it.name, marks=(it.sort,))) for it in part.accepted)
        return replace(part, left=left, right=tree.Action(gate, offers, None, self.behaviour(part.right, visible)))

    def _sides_of(self, name: Name, gates: Names, body: Behaviour, visible: Names) -> Sequence[Behaviour]:
        """The sides, where something in them is hidden."""
        outer, slots, sides = self._sides, len(self._plan.slots), []
        for gate in gates:
            self._sides = (Way("", f"{name.text} = {gate.text}"), *outer)
            sides.append(one_gate(name, gate, self.behaviour(body, visible)))
        self._sides = outer
        return sides if len(self._plan.slots) > slots else ()

    def _call(self, part: object, visible: Names) -> Behaviour:
        assert isinstance(part, tree.Call)
        if part.name.key in self._plan.group:
            gates = [self._plan.gate(it) for it in range(self._plan.shared)]
        else:
            way = Way(self._plan.definitions.written(part.name.key), self._plan.definitions.call_text(part))
            gates = [self._plan.new_slot(self._under(it.below(way))) for it in self._plan.finished[part.name.key]]
        return replace(part, gates=(*part.gates, *gates))

    def _under(self, origin: Origin) -> Origin:
        """What is under the sides here."""
        return replace(origin, ways=origin.ways + self._sides)
