"""All parts of a tree, one after the other."""
from __future__ import annotations

from dataclasses import fields
from typing import Any, Dict, Iterator, List, Tuple, Type, TypeVar

from .tokens import Place

Part = TypeVar("Part")
# The names of the fields by the kinds of parts, as far as they were asked.
FIELDS: Dict[type, Tuple[str, ...]] = {}


def parts_below(part: Any) -> Iterator[Any]:
    """The parts that a part consists of, in the order of its fields, those in lists one by one."""
    for name in _fields(type(part)):
        value = getattr(part, name)
        if isinstance(value, tuple):
            yield from _listed(value)
        elif _is_part(value):
            yield value


def _fields(kind: type) -> Tuple[str, ...]:
    """The names of the fields of a kind of parts."""
    if kind not in FIELDS:
        FIELDS[kind] = tuple(it.name for it in fields(kind))
    return FIELDS[kind]


def _is_part(value: Any) -> bool:
    return hasattr(value, "__dataclass_fields__") and not isinstance(value, Place)


def _listed(values: Tuple[Any, ...]) -> Iterator[Any]:
    """The parts in a list, and in the lists in it."""
    for it in values:
        if isinstance(it, tuple):
            yield from _listed(it)
        elif _is_part(it):
            yield it


def walk(part: Any) -> Iterator[Any]:
    """A part and all parts in it, each before those in it. (No call is made inside another: trees may be deep.)"""
    waiting: List[Any] = [part]
    while waiting:
        it = waiting.pop()
        yield it
        waiting.extend(reversed(list(parts_below(it))))


def all_of(kind: Type[Part], part: Any) -> Iterator[Part]:
    """The parts of one kind in a part, itself included."""
    return (it for it in walk(part) if isinstance(it, kind))
