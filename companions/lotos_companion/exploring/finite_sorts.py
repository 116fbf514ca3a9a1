"""Sorts of which a list of values up to a size has all.

Where covers are found, the program's `induct` says whether they are right: which operations begin the values of a sort. Then a value
of a sort has at most the size of its cover's largest operation on largest values, unless covers lead round in a circle.

Where there is an order file, which `induct` does not take, the program's `values` may say it. Each part of a value is a value, since
what no equation rewrites has no part that one rewrites. So where no sort that a value of S may have inside has a value with more
than k operations and at most m * k + 1, for the most arguments m that an operation takes there, it has none with more than k at
all: the parts of a smallest one would have at most k each, and it would have at most m * k + 1.
"""
from __future__ import annotations

import subprocess
from typing import Dict, List, Optional, Tuple

from ..data_names import Operation, operations_of
from ..inducting.certificate import certificate_text
from ..inducting.checking import check
from ..inducting.covers import Covers
from ..inducting.data import Data, data_of
from ..inducting.rewriting import Rules
from ..language import NoGrammar, NoTree
from ..program import Words
from ..session import Session

LARGEST = 64


def flat_text(program: str, words: Words) -> Optional[str]:
    """What `flatten` prints, or nothing where it refuses."""
    done = subprocess.run([program, "flatten", *words.files], stdin=subprocess.DEVNULL, stdout=subprocess.PIPE, check=False)
    return None if done.returncode else done.stdout.decode("utf-8", "surrogateescape")


class FiniteSorts:
    """The sorts of a specification."""

    def __init__(self, program: str, words: Words):
        self._flat = flat_text(program, words) or ""
        self._session = Session(program, words)
        self._session.opening()
        self._operations: Dict[str, List[Operation]] = {}
        for it in operations_of(self._flat):
            self._operations.setdefault(it.result.lower(), []).append(it)
        self.operations = {it.name.lower() for listed in self._operations.values() for it in listed}
        self._listed: Dict[Tuple[str, int], Optional[Tuple[str, ...]]] = {}
        self._covered = None if len(words.files) > 1 else _Covered.made(program, words.files[0], self._flat)

    def close(self) -> None:
        """Ends the session."""
        self._session.kill()

    def values(self, sort: str, most: int) -> Optional[Tuple[str, ...]]:
        """All values of a sort, where those with at most `most` operations are all; else nothing."""
        largest = self._covered.largest(sort.lower()) if self._covered else None
        if largest is not None and largest <= most:
            return self._list(sort.lower(), largest)
        inside = self._inside(sort.lower())
        width = max([len(it.arguments) for name in inside for it in self._operations.get(name, [])] + [0])
        for size in range(1, most + 1):
            if width * size + 1 > LARGEST:
                return None
            if all(self._is_all(name, size, width * size + 1) for name in inside):
                return self._list(sort.lower(), size)
        return None

    def _is_all(self, sort: str, size: int, larger: int) -> bool:
        """Whether a sort has no value of a size between these two."""
        fewer, more = self._list(sort, size), self._list(sort, larger)
        return more is not None and fewer == more

    def _inside(self, sort: str) -> List[str]:
        """The sort and those that its values may have inside."""
        found = [sort]
        for name in found:
            for operation in self._operations.get(name, []):
                found += [it.lower() for it in dict.fromkeys(operation.arguments) if it.lower() not in found]
        return list(dict.fromkeys(found))

    def _list(self, sort: str, size: int) -> Optional[Tuple[str, ...]]:
        """The values of a sort up to a size as the program lists them, or nothing where it refuses."""
        if (sort, size) not in self._listed:
            lines = self._session.ask(f"values {sort} {size}").lines
            self._listed[sort, size] = lines[1:] if lines[0].startswith("values ") else None
        return self._listed[sort, size]


class _Covered:
    """Covers of the sorts of a specification, each looked at by `induct` before it is believed."""

    def __init__(self, program: str, spec: str, data: Data):
        self._program, self._spec, self._data = program, spec, data
        self._covers = Covers(data, Rules(data))
        self._largest: Dict[str, Optional[int]] = {}

    @classmethod
    def made(cls, program: str, spec: str, flat: str) -> Optional[_Covered]:
        """The covers, where the flat text can be read."""
        try:
            return cls(program, spec, data_of(flat))
        except (NoGrammar, NoTree):
            return None

    def largest(self, sort: str) -> Optional[int]:
        """The most operations that a value of a sort may have, or nothing where that is not known to have an end."""
        if sort not in self._largest:
            name = self._data.sorts.get(sort)
            largest = self._most(name, ()) if name else None
            self._largest[sort] = largest if largest is None or name and self._is_certified(name) else None
        return self._largest[sort]

    def _most(self, sort: str, above: Tuple[str, ...]) -> Optional[int]:
        """The size of a largest term of operations of covers."""
        if sort in above:
            return None
        largest = 1
        for operation in self._covers.of(sort):
            sizes = [self._most(it, (*above, sort)) for it in operation.arguments]
            known = [it for it in sizes if it is not None]
            if len(known) < len(sizes):
                return None
            largest = max(largest, 1 + sum(known))
        return largest

    def _is_certified(self, sort: str) -> bool:
        """Whether the program accepts the covers that a value of this sort is made of."""
        sorts = [sort]
        for name in sorts:
            sorts += [it for operation in self._covers.of(name) for it in operation.arguments if it not in sorts]
        text = certificate_text(self._data, self._covers.wanted_by(dict.fromkeys(sorts)), [])
        return check(self._program, self._spec, text).certified
