"""Decimal numbers for the numerals of the data, both ways: `3` for `Succ(Succ(Succ(0)))`.

A sort has numerals where it has a constant `0` and an operation `Succ` from itself into itself. Names such as `2` that the data
declare themselves stay what they are: typed, `2` is that constant, and `Succ(Succ(0))` is shown as `2` where the program says
that the two are equal. Where several sorts have a `0` or a constant with the name of the number, ` of SORT` stands behind it.
"""
from __future__ import annotations

import re
from typing import Callable, Dict, Iterator, List, Sequence, Set, Tuple

from .data_names import Operation
from .play import Play
from .program import Words
from .session import Ended
from .signature import Signature, read_signature

# Comments, names with a sort that is told behind them, and all else that stands by itself.
TOKEN = re.compile(r"\(\*.*?\*\)|([A-Za-z0-9](?:_*[A-Za-z0-9])*)(\s+of\s+([A-Za-z](?:_*[A-Za-z0-9])*))?|.", re.S | re.I)
DECIMAL = re.compile(r"[1-9][0-9]{0,2}")
NUMERAL = re.compile(r"(?<!\w)((?:Succ\()+)0(?: of ([^ (),!]+))?(\)+)", re.I)
USUAL = Signature((Operation("0", False, (), "Nat"), Operation("Succ", False, ("Nat",), "Nat")))


def never_equal(_one: str, _other: str) -> bool:
    """What is said where there is no program to ask."""
    return False


class Numbers:
    """The two ways, for the operations of some data. `are_equal` asks the program of two terms."""

    def __init__(self, signature: Signature = USUAL, are_equal: Callable[[str, str], bool] = never_equal):
        # The sorts in small letters of each constant that looks like a number, as they are declared.
        self._constants: Dict[str, Dict[str, str]] = {}
        successors: List[Tuple[Tuple[str, ...], str]] = []
        for it in (signature if signature.operations else USUAL).operations:
            if not it.arguments and it.name.isdigit():
                self._constants.setdefault(it.name, {})[it.result.lower()] = it.result
            if it.name.lower() == "succ" and not it.infix:
                successors.append((tuple(map(str.lower, it.arguments)), it.result.lower()))
        into_itself = [sort for arguments, sort in successors if arguments == (sort,)]
        zeros = self._constants.get("0", {})
        is_regular = len(into_itself) == sum(len(arguments) == 1 for arguments, _ in successors)
        self._sorts: Set[str] = {it for it in into_itself if it in zeros} if is_regular else set()
        # The names of the data that are not what they seem, each with a sort.
        self._others: Set[Tuple[str, str]] = set()
        for name, declared in self._constants.items():
            for sort in self._sorts.intersection(declared) if DECIMAL.fullmatch(name) else ():
                if not are_equal(f"{name} of {declared[sort]}", f"{_numeral(int(name))} of {declared[sort]}"):
                    self._others.add((name, sort))

    def to_numerals(self, text: str) -> str:
        """The text with numerals for the decimal numbers from 1 to 999 in it that are no names of the data."""
        return "".join(self._read(text, False))

    def readings(self, text: str) -> List[str]:
        """What a text may mean: names of the data where there are some, then numerals for all numbers."""
        return list(dict.fromkeys(("".join(self._read(text, False)), "".join(self._read(text, True)))))

    def readings_at(self, terms: Sequence[str], sorts: Sequence[str]) -> List[str]:
        """What terms may mean that are wanted at these sorts, with commas between them: a number alone is a name of its sort if
        the data have it, else a numeral."""
        alone = [f"{term} of {sort}" if DECIMAL.fullmatch(term) else "" for term, sort in zip(terms, sorts)]
        alone += [""] * (len(terms) - len(alone))
        return list(dict.fromkeys(", ".join(
            "".join(self._read(one, False)).rpartition(" of ")[0] if one else "".join(self._read(term, is_second))
            for term, one in zip(terms, alone)) for is_second in (False, True)))

    def to_decimals(self, text: str) -> str:
        """The text with decimal numbers for the numerals above nought in it."""
        return NUMERAL.sub(self._decimal, text) if self._sorts else text

    def _read(self, text: str, all_numbers: bool) -> Iterator[str]:
        """The tokens of a text, with numerals in place of numbers."""
        for found in TOKEN.finditer(text):
            name, behind, sort = found[1] or "", found[2] or "", (found[3] or "").lower()
            if not DECIMAL.fullmatch(name) or not self._wants_numeral(name, sort, all_numbers):
                yield found[0]
            else:
                yield f"{_numeral(int(name))}{behind}"

    def _wants_numeral(self, name: str, sort: str, all_numbers: bool) -> bool:
        """Whether a number is to be a numeral."""
        declared = self._constants.get(name, {})
        if sort:
            return sort in self._sorts and sort not in declared
        return bool(self._sorts) and (all_numbers or not declared)

    def _decimal(self, found: re.Match[str]) -> str:
        opened, closed = len(found[1]) // len("Succ("), len(found[3])
        depth = min(opened, closed)
        zeros = self._constants.get("0", {})
        sort = (found[2] or "").lower() or (next(iter(self._sorts)) if len(self._sorts) == 1 else "")
        if sort not in self._sorts or (str(depth), sort) in self._others:
            return found[0]
        is_clear = len({*self._constants.get(str(depth), {}), sort}) == 1 and len(zeros) == 1
        number = str(depth) if is_clear else f"{depth} of {zeros[sort]}"
        return found[1][:len("Succ(") * (opened - depth)] + number + ")" * (closed - depth)


def _numeral(number: int) -> str:
    return "Succ(" * number + "0" + ")" * number


def numbers_of(play: Play) -> Numbers:
    """Those of a session that has begun."""
    return Numbers(play.signature, lambda one, other: play.ask(f"equal {one}, {other}").first == "equal")


def with_numerals(program: str, words: Words) -> Words:
    """The words of a line with numerals for the numbers among the values of parameters. What is a name of the data is a number
    where the program does not take it as that name."""
    if not any(DECIMAL.search(it) for it in words.values or ()):
        return words
    numbers = Numbers(read_signature(program, words))
    readings = [numbers.readings(it) for it in words.values or ()]
    candidates = [Words(words.files, tuple(it[place] for it in readings)) for place in (0, -1)]
    if candidates[0] != candidates[1]:
        for candidate in candidates:
            play = Play(program, candidate)
            try:
                play.open()
                return candidate
            except Ended:
                pass
            finally:
                play.kill()
    return candidates[0]
