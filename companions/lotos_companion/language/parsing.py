"""The parser that lark makes of the grammar. This module and `building` alone need lark."""
from __future__ import annotations

import os
from typing import Any, Iterator, Tuple

from lark import Lark
from lark.exceptions import UnexpectedToken
from lark.lexer import Lexer, LexerState
from lark.lexer import Token as LarkToken

from .building import Rules
from .tokens import Kind, Place, Token, tokens

GRAMMAR = os.path.join(os.path.dirname(os.path.realpath(__file__)), "lotos.lark")
STARTS = ("specification", "items", "behaviour", "term_list", "order")
RELABEL = "relabel"
NAMES = (Kind.NAME, Kind.DIGIT_NAME, Kind.SIGN_NAME)


class Word(LarkToken):
    """A token as lark has it, with our own in it."""

    token: Token


class Words(Lexer):
    """Our tokens, under the names that the grammar has for them."""

    __future_interface__ = True  # So that lark hands over the state of the parser too.

    def __init__(self, conf: Any):
        self._names = {it.pattern.value: it.name for it in conf.terminals if it.pattern.type == "str"}

    def lex(self, lexer_state: LexerState, parser_state: Any) -> Iterator[Word]:
        """The words of a text."""
        for token, is_relabel in _with_relabel(lexer_state.text):
            word = Word(RELABEL.upper() if is_relabel else self._name(token), token.text)
            word.token = token
            yield word

    def _name(self, token: Token) -> str:
        return token.kind.name if token.kind in NAMES else str(self._names[token.key])


def make_parser(with_trees: bool = True) -> Lark:
    """The parser, for all that a text may be."""
    with open(GRAMMAR, encoding="ascii") as grammar:
        return Lark(grammar.read(), parser="lalr", lexer=Words, start=list(STARTS), keep_all_tokens=True,
                    transformer=Rules() if with_trees else None)


def _with_relabel(text: str) -> Iterator[Tuple[Token, bool]]:
    """The tokens of a text, each with whether it is the word of a relabelling: this is a name with another one behind it, or
    with `in` two blanks behind it, where a process without gates is called."""
    last = None
    for token in tokens(text):
        if last:
            is_named = last.kind is Kind.NAME and last.key == RELABEL
            is_empty = token.key == "in" and token.place.offset == last.place.end + 2
            yield last, is_named and (token.kind is Kind.NAME or is_empty)
        last = token
    if last:
        yield last, False


def unexpected(fault: UnexpectedToken, text: str) -> Tuple[str, Place]:
    """What is wrong in a text, and where."""
    if isinstance(fault.token, Word):
        return f"{fault.token.token.text} does not fit", fault.token.token.place
    begin = text.rfind("\n") + 1
    return "the text ends too early", Place(text.count("\n") + 1, len(text) - begin + 1, len(text), len(text))
