"""Names that are spelled like another one."""
from __future__ import annotations

from typing import Dict, Iterable, List, Tuple


def distance(one: str, other: str) -> int:
    """How many letters have to be changed, added, left out or exchanged with their neighbours, in any case of letters."""
    one, other = one.lower(), other.lower()
    before: List[int] = []
    row = list(range(len(other) + 1))
    for i, letter in enumerate(one, 1):
        new = [i]
        for j, wanted in enumerate(other, 1):
            new.append(min(row[j] + 1, new[j - 1] + 1, row[j - 1] + (letter != wanted)))
            if i > 1 and j > 1 and letter == other[j - 2] and one[i - 2] == wanted:
                new[j] = min(new[j], before[j - 2] + 1)
        before, row = row, new
    return row[-1]


def strangeness(name: str, wanted: str) -> Tuple[int, bool, bool, int]:
    """How far a name is from another one, for ranks: some letter is mostly right, and mostly the first one."""
    has_common = bool(set(name.lower()) & set(wanted.lower()))
    return distance(name, wanted), not has_common, name[:1].lower() != wanted[:1].lower(), abs(len(name) - len(wanted))


def is_near(name: str, wanted: str) -> bool:
    """Whether a name may be a misspelling of another one."""
    is_word = name[:1].isalnum(), wanted[:1].isalnum()
    return name.lower() != wanted.lower() and is_word[0] == is_word[1] and distance(name, wanted) <= max(1, len(wanted) // 3)


def nearest(names: Iterable[str], wanted: str, most: int = 6) -> List[str]:
    """The names that may be meant, the nearest first, each once; of equally near ones the earlier."""
    found: Dict[str, str] = {}
    for it in names:
        if is_near(it, wanted):
            found.setdefault(it.lower(), it)
    return sorted(found.values(), key=lambda it: strangeness(it, wanted))[:most]
