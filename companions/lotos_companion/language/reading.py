"""Trees from texts, by the grammar, for which Debian's `python3-lark` is wanted."""
from __future__ import annotations

from functools import lru_cache
from typing import Any, Tuple

from .tokens import NoToken, Place
from .tree import Behaviour, Item, OrderItem, Specification, Term


class NoGrammar(Exception):
    """There is no package that reads by a grammar."""

    def __init__(self) -> None:
        super().__init__("Debian's package python3-lark is not there")


class NoTree(Exception):
    """A text is not in the language: where the first word stands that does not fit, which may be its end."""

    def __init__(self, said: str, place: Place):
        super().__init__(f"{said} at {place}")
        self.place = place


def fitting(text: str, start: str = "specification") -> Tuple[str, ...]:
    """The words and signs that fit where the first one stands in a text that does not; `NAME`, `DIGIT_NAME` and `SIGN_NAME`
    stand for all names, and `$END` for the end. None where the text is in the language, or has a place where no token is."""
    parser = _plain_parser()
    from lark.exceptions import UnexpectedToken
    try:
        parser.parse(text, start=start)
    except NoToken:
        pass
    except UnexpectedToken as fault:
        written = {it.name: it.pattern.value for it in parser.terminals}
        return tuple(sorted(written.get(it, it) for it in fault.accepts or ()))
    return ()


def has_grammar() -> bool:
    """Whether texts can be read."""
    try:
        grammar_parser()
    except NoGrammar:
        return False
    return True


@lru_cache(4)
def read_specification(text: str) -> Specification:
    """The tree of a specification. (The last ones are kept: some texts are read for several ends.)"""
    tree = _read(text, "specification")
    assert isinstance(tree, Specification)
    return tree


def read_items(text: str) -> Tuple[Item, ...]:
    """The types and mentions of a library's text."""
    return tuple(_read(text, "items"))


def read_behaviour(text: str) -> Behaviour:
    """The tree of a behaviour, such as the text of a state is, in which a `relabel .. for .. in` may stand."""
    tree: Behaviour = _read(text, "behaviour")
    return tree


def read_terms(text: str) -> Tuple[Term, ...]:
    """The terms of a list."""
    return tuple(_read(text, "term_list"))


def read_order(text: str) -> Tuple[OrderItem, ...]:
    """The items of an order file."""
    return tuple(_read(text, "order"))


def _read(text: str, start: str) -> Any:
    """What a text comes to. `NoTree` where it is not in the language, `NoGrammar` where nothing reads it."""
    parser = grammar_parser()
    from lark.exceptions import UnexpectedToken

    from .parsing import unexpected
    try:
        return parser.parse(text, start=start)
    except NoToken as fault:
        raise NoTree(str(fault).rpartition(" at ")[0], fault.place) from None
    except UnexpectedToken as fault:
        raise NoTree(*unexpected(fault, text)) from None


@lru_cache(None)
def grammar_parser() -> Any:
    """The parser, which is made once."""
    try:
        from .parsing import make_parser
    except ImportError:
        raise NoGrammar from None
    return make_parser()


@lru_cache(None)
def _plain_parser() -> Any:
    """A parser that makes no trees of ours, so that it can be asked what would go on."""
    grammar_parser()
    from .parsing import make_parser
    return make_parser(with_trees=False)
