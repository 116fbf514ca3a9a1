"""Trees of texts that are not right yet, as an editor has them while one types: words that are missing are put in, and words that
fit nowhere are left out. What is right before and behind a fault keeps its place in the tree.
"""
from __future__ import annotations

from dataclasses import dataclass
from heapq import heappop, heappush
from typing import Any, Iterator, List, Optional, Sequence, Set, Tuple

from .reading import grammar_parser
from .tokens import Kind, NoToken, Place, Token, tokens

# The words that may be put in before one that does not fit, the likelier ones first, and how many of them at once.
MISSING = (";", ")", "]", "]|", ",", "in", ":", "stop", "name", "noexit", ":=", "->", "=", "is", "endtype", "endproc", "endlib",
           "behaviour", "endspec", "specification")
MOST_MISSING = 3
# Those that bring an unfinished text to its end, the likelier ones first, and how many ways are looked at.
ENDING = (")", "]", "]|", "endproc", "endtype", "endlib", "endspec", "in", "stop", ":=", ":", "noexit", "behaviour", "is", "->",
          "=", "name", ";", "specification")
MOST_ENDING = 20_000
END = "$END"


@dataclass(frozen=True)
class Mended:
    """The tree of a text, or nothing where none was found, and whether the text had to be mended."""

    tree: Any
    is_mended: bool


def known_tokens(text: str) -> List[Token]:
    """The tokens of a text, without the letters that begin none. A comment without its end reaches to the end."""
    found: List[Token] = []
    hidden = text
    while True:
        found.clear()
        try:
            for token in tokens(hidden):
                found.append(token)
            return found
        except NoToken as fault:
            place = fault.place
            hidden = hidden[:place.offset] + _blank(hidden[place.offset:place.end]) + hidden[place.end:]


def _blank(text: str) -> str:
    return "".join(it if it == "\n" else " " for it in text)


def read_mended(text: str, start: str) -> Mended:
    """The tree of a text that may have faults. `NoGrammar` where nothing reads it."""
    return _Reader(start).read(known_tokens(text))


class _Reader:
    """One reading, token by token, by the table of the parser."""

    def __init__(self, start: str):
        from .parsing import NAMES, Word

        lark = grammar_parser()
        self._names_of_kinds = {it.pattern.value: it.name for it in lark.terminals if it.pattern.type == "str"}
        self._make = Word
        self._named = {it: it.name for it in NAMES}
        self._state: Any = lark.parse_interactive("", start).parser_state
        self._table = self._state.parse_conf.states
        self._end_state = self._state.parse_conf.end_state
        self._is_mended = False

    def read(self, listed: Sequence[Token]) -> Mended:
        place = Place(1, 1, 0, 0)
        for token in listed:
            word = self._word(token)
            missing = self._missing_before(word.type)
            if missing is None:
                self._is_mended = True
                continue
            for name in missing:
                self._put_in(name, place)
            self._state.feed_token(word)
            place = Place(token.place.line, token.place.column, token.place.end, token.place.end)
        return Mended(self._finish(place), self._is_mended)

    def _finish(self, place: Place) -> Any:
        """The tree, once all words are read: unfinished parts are ended, the innermost first."""
        waiting: List[Tuple[int, int, Tuple[str, ...], List[int]]] = [(0, 0, (), self._state.state_stack)]
        seen: Set[Tuple[int, ...]] = set()
        while waiting and len(seen) < MOST_ENDING:
            _, _, names, stack = heappop(waiting)
            if self._after(stack, END) is not None:
                for name in names:
                    self._put_in(name, place)
                return self._state.feed_token(self._make(END, ""), True)
            for name, after in self._next(stack, ENDING):
                if tuple(after) not in seen:
                    seen.add(tuple(after))
                    heappush(waiting, (len(after), len(seen), (*names, name), after))
        return None

    def _missing_before(self, kind: str) -> Optional[Tuple[str, ...]]:
        """The fewest words to put in so that one of a kind fits, or nothing where a few do not help."""
        waiting: List[Tuple[Tuple[str, ...], List[int]]] = [((), self._state.state_stack)]
        seen: Set[Tuple[int, ...]] = set()
        for names, stack in waiting:
            if self._after(stack, kind) is not None:
                return names
            if len(names) < MOST_MISSING:
                for name, after in self._next(stack, MISSING):
                    if tuple(after) not in seen:
                        seen.add(tuple(after))
                        waiting.append(((*names, name), after))
        return None

    def _next(self, stack: List[int], listed: Sequence[str]) -> Iterator[Tuple[str, List[int]]]:
        """Those of some words that fit here, each with the stack behind it."""
        for name in listed:
            after = self._after(stack, self._type(name))
            if after is not None:
                yield name, after

    def _after(self, before: List[int], kind: str) -> Optional[List[int]]:
        """The stack of states behind a word of a kind, or nothing where it does not fit."""
        stack = list(before)
        while True:
            step = self._table[stack[-1]].get(kind)
            if step is None:
                return None
            action, what = step
            if action.name == "Shift":
                stack.append(what)
                return stack
            size = len(what.expansion)
            if size:
                del stack[-size:]
            stack.append(self._table[stack[-1]][what.origin.name][1])
            if kind == END and stack[-1] == self._end_state:
                return stack

    def _put_in(self, name: str, place: Place) -> None:
        """Puts in a word that is missing. A name that is missing is empty."""
        self._is_mended = True
        kind = Kind.NAME if name == "name" else Kind.RESERVED if name.isalpha() else Kind.MARK
        word = self._word(Token(kind, "" if name == "name" else name, place))
        self._state.feed_token(word)

    def _word(self, token: Token) -> Any:
        """A token as the parser has it."""
        word = self._make(self._named.get(token.kind) or self._names_of_kinds[token.key], token.text)
        word.token = token
        return word

    def _type(self, name: str) -> str:
        """What the parser calls the kind of a word that may be missing."""
        return Kind.NAME.name if name == "name" else str(self._names_of_kinds[name])
