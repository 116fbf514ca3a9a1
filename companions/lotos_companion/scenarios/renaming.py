"""Names of an old specification and those that stand for them in a new one."""
from __future__ import annotations

from dataclasses import dataclass, field, replace
from typing import Dict, FrozenSet, Iterable, Optional, Sequence, Tuple

from .events import NAME, call_head


def small(names: Iterable[str]) -> FrozenSet[str]:
    """Names in small letters: large and small ones are the same."""
    return frozenset(it.lower() for it in names)


@dataclass(frozen=True)
class Renaming:
    """Old names with the new ones that stand for them, as far as they are known. `old` and `new` are all names of the two
    specifications, in small letters. A name that both have stands for itself. One that is old alone may stand for one that is
    new alone, if `may_grow`; then it does so everywhere, and no other one does."""

    pairs: Tuple[Tuple[str, str], ...] = ()
    old: FrozenSet[str] = frozenset()
    new: FrozenSet[str] = frozenset()
    may_grow: bool = False

    def met(self, old: str, new: str) -> Optional[Renaming]:
        """This renaming, with one pair more where the old name had none yet, if the new name can stand for the old one."""
        one, other = old.lower(), new.lower()
        known = self._known
        if one in known:
            return self if known[one].lower() == other else None
        if one == other:
            return self
        is_taken = any(it.lower() == other for it in known.values())
        if not self.may_grow or is_taken or one in self.new or other in self.old:
            return None
        return replace(self, pairs=(*self.pairs, (old, new)))

    @property
    def _known(self) -> Dict[str, str]:
        """The new names by the old ones in small letters."""
        return {old.lower(): new for old, new in self.pairs}

    def is_gone(self, old: str) -> bool:
        """Whether the new specification has no name for an old one, as far as that is known."""
        return old.lower() not in self.new and old.lower() not in self._known

    def name(self, old: str) -> str:
        """The new name that stands for an old one."""
        return self._known.get(old.lower(), old)


@dataclass(frozen=True)
class Renamings:
    """What stands for processes and for hidden gates."""

    processes: Renaming = field(default_factory=Renaming)
    gates: Renaming = field(default_factory=Renaming)

    def at(self, old: str, old_where: Sequence[str], new: str, new_where: Sequence[str]) -> Optional[Renamings]:
        """These, with what is met where an old process stands for a new one, and the calls that lead to the one for those that
        lead to the other. Calls of processes that are in one specification alone may be missing on the other side."""
        processes = self.processes.met(old, new)
        if processes is None:
            return None
        met, rest = replace(self, processes=processes), list(new_where)
        for call in old_where:
            found = met._first_call(call, rest)
            if found:
                met, place = found
                rest = rest[place + 1:]
            elif not self.processes.is_gone(call_head(call)):
                return None
        return met

    def _first_call(self, old: str, calls: Sequence[str]) -> Optional[Tuple[Renamings, int]]:
        """What is met where the first of some calls stands for an old one that can, and its place."""
        for place, new in enumerate(calls):
            met = self.call(old, new)
            if met:
                return met, place
        return None

    def call(self, old: str, new: str) -> Optional[Renamings]:
        """These, with what is met where one call stands for another. Numbers of calls may differ."""
        processes = self.processes.met(call_head(old), call_head(new))
        if processes is None:
            return None
        gates: Optional[Renaming] = self.gates
        ones, others = NAME.findall(old)[1:], NAME.findall(new)[1:]
        for one, other in zip(ones, others) if len(ones) == len(others) else ():
            gates = gates and gates.met(one, other)
        return Renamings(processes, gates) if gates else None

    @property
    def told(self) -> Dict[str, str]:
        """All pairs."""
        return {**dict(self.processes.pairs), **dict(self.gates.pairs)}
