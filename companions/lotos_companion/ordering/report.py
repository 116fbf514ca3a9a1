"""What was found for an order file, as lines and as values of JSON."""
from __future__ import annotations

from typing import Any, Dict, Iterator

from .advice import advice, demand_lines
from .equations import Equation
from .finding import Found
from .smallest import SECONDS


def list_lines(found: Found) -> Iterator[str]:
    """Each equation as it is turned, with its place."""
    for it in found.turned:
        sides = [found.signature.written(side) for side in (it.equation.left, it.equation.right)]
        left, right = sides if it.from_left else sides[::-1]
        notes = [found.signature.instance(it.equation.left), "" if it.from_left else "from right to left"]
        yield f"{it.equation.written.place}: {left} -> {right}" + "".join(f"  ({note})" for note in notes if note)


def fault_lines(found: Found) -> Iterator[str]:
    """Why there is no order file, and what to do."""
    if found.is_given_up:
        yield "no order was found, and it is not known whether there is one: there are too many ways to turn the equations"
    for it in found.unturnable:
        yield f"no order turns {shown(it, found)} from left to right:"
        yield f"  {advice(it, found.signature)}"
    if found.conflict:
        yield (f"no order turns these {len(found.conflict)} together, and no smaller set of equations conflicts:" if found.is_smallest
               else f"no order turns these {len(found.conflict)} together, and each of them is needed for that; the set is irreducible, "
               f"and was not shown smallest in {SECONDS:g} seconds:")
        for it in found.conflict:
            yield f"  {shown(it, found)}"
            yield from (f"    wants {line}" for line in demand_lines(it, found.signature))
        yield "  define one of their operations without the other, or turn one of the equations round (docs/REFUSALS.md, 602)"
    if found.outcome is not None:
        what = "with those from right to left" if found.unturnable else "with all equations from left to right"
        yield f"{what} the program answers:"
        yield f"  {found.outcome.first}"


def shown(equation: Equation, found: Found) -> str:
    """An equation with its place."""
    left, right = (found.signature.written(it) for it in (equation.left, equation.right))
    return f"{left} = {right} at {equation.written.place}"


def as_json(found: Found) -> Dict[str, Any]:
    """What was found as values of JSON."""
    def equation(it: Equation) -> Dict[str, Any]:
        place = it.written.place
        return {"text": place.text, "line": place.line, "column": place.column, "left": found.signature.written(it.left),
                "right": found.signature.written(it.right)}

    return {
        "accepted": found.is_accepted,
        "needed": found.is_needed,
        "order": found.text if found.is_accepted else None,
        "answer": found.outcome.first if found.outcome else None,
        "equations": [{**equation(it.equation), "from_left": it.from_left} for it in found.turned],
        "unturnable": [{**equation(it), "advice": advice(it, found.signature)} for it in found.unturnable],
        "conflict_is_smallest": found.is_smallest if found.conflict else None,
        "conflict": [{**equation(it), "wants": list(demand_lines(it, found.signature))} for it in found.conflict],
    }
