"""A behaviour made anew part by part, with the gates that are visible at each part. What is to change is said by subclasses."""
from __future__ import annotations

from dataclasses import replace
from typing import Callable, Dict, Sequence

from ..language import tree
from ..language.tree import Behaviour, Name, Names

# A gate `par` of more sides than this stays one.
MOST_SIDES = 64


class BehaviourMap:
    """Makes a behaviour anew. As it is here it leaves all as it was, but for `||`, which becomes the set of the visible gates, so
    that no gate that is added is in it."""

    def __init__(self) -> None:
        self._forms: Dict[type, Callable[[object, Names], Behaviour]] = {
            tree.Call: self._call, tree.Action: self._action, tree.Inner: self._inner, tree.Guard: self._guard,
            tree.Hide: self._hide, tree.Let: self._body, tree.ChooseValue: self._body, tree.ChooseGate: self._gate_choice,
            tree.ParGate: self._gate_par, tree.Choice: self._both, tree.Parallel: self._parallel, tree.Disable: self._disable,
            tree.Enable: self._enable}

    def behaviour(self, part: Behaviour, visible: Names) -> Behaviour:
        """The behaviour anew, where these gates are visible."""
        form = self._forms.get(type(part))
        return form(part, visible) if form else part

    def _call(self, part: object, visible: Names) -> Behaviour:
        assert isinstance(part, tree.Call)
        return part

    def _action(self, part: object, visible: Names) -> Behaviour:
        assert isinstance(part, tree.Action)
        return replace(part, next=self.behaviour(part.next, visible))

    def _inner(self, part: object, visible: Names) -> Behaviour:
        assert isinstance(part, tree.Inner)
        return replace(part, next=self.behaviour(part.next, visible))

    def _guard(self, part: object, visible: Names) -> Behaviour:
        assert isinstance(part, tree.Guard)
        return replace(part, next=self.behaviour(part.next, visible))

    def _body(self, part: object, visible: Names) -> Behaviour:
        assert isinstance(part, (tree.Let, tree.ChooseValue))
        return replace(part, body=self.behaviour(part.body, visible))

    def _hide(self, part: object, visible: Names) -> Behaviour:
        assert isinstance(part, tree.Hide)
        return replace(part, body=self.behaviour(part.body, more_visible(visible, part.gates)))

    def _gate_choice(self, part: object, visible: Names) -> Behaviour:
        assert isinstance(part, tree.ChooseGate)
        return replace(part, body=self.behaviour(part.body, more_visible(visible, _declared(part.among))))

    def _both(self, part: object, visible: Names) -> Behaviour:
        assert isinstance(part, (tree.Choice, tree.Disable, tree.Parallel, tree.Enable))
        left = self.behaviour(part.left, visible)
        return replace(part, left=left, right=self.behaviour(part.right, visible))

    def _parallel(self, part: object, visible: Names) -> Behaviour:
        assert isinstance(part, tree.Parallel)
        return self._both(replace(part, sign=narrowed(part.sign, visible)), visible)

    def _enable(self, part: object, visible: Names) -> Behaviour:
        return self._both(part, visible)

    def _disable(self, part: object, visible: Names) -> Behaviour:
        return self._both(part, visible)

    def _gate_par(self, part: object, visible: Names) -> Behaviour:
        """A `par` of gates as a parallel, where its sides are to be told apart, and as a `par` else."""
        assert isinstance(part, tree.ParGate)
        sign = narrowed(part.sign, visible)
        names = [(name, among.gates) for among in part.among for name in among.names]
        (name, gates), more = names[0], names[1:]
        among = tuple(tree.Among((it,), those) for it, those in more)
        inner = tree.ParGate(among, part.sign, part.body) if among else part.body
        if len(gates) <= MOST_SIDES:
            sides = self._sides_of(name, gates, inner, more_visible(visible, (name,)))
            if sides:
                return grouped(sides, sign)
        return replace(part, sign=sign, body=self.behaviour(part.body, more_visible(visible, _declared(part.among))))

    def _sides_of(self, name: Name, gates: Names, body: Behaviour, visible: Names) -> Sequence[Behaviour]:
        """The sides of a `par`, or none where it is to stay one."""
        return ()


def more_visible(visible: Names, declared: Names) -> Names:
    """The gates that are visible below a declaration."""
    keys = {it.key for it in declared}
    return (*(it for it in visible if it.key not in keys), *{it.key: it for it in declared}.values())


def narrowed(sign: tree.Sign, visible: Names) -> tree.Sign:
    """A sign in which no gate is that is added: `||` as a set of the visible gates."""
    if sign.text != "||":
        return sign
    return tree.Sign("|[", visible) if visible else tree.Sign("|||")


def one_gate(name: Name, gate: Name, body: Behaviour) -> Behaviour:
    """A side of a `par`: the body with one gate for the name."""
    return tree.ChooseGate((tree.Among((name,), (gate,)),), body)


def grouped(sides: Sequence[Behaviour], sign: tree.Sign) -> Behaviour:
    """Sides in parallel, grouped to the right."""
    whole = sides[-1]
    for side in reversed(sides[:-1]):
        whole = tree.Parallel(sign, side, whole)
    return whole


def _declared(among: Sequence[tree.Among]) -> Names:
    """The names that a `choice` or `par` declares."""
    return tuple(name for it in among for name in it.names)
