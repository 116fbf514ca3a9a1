"""The texts of LOTOS: their tokens, trees of them with places, and trees as texts again.

`read_specification(text)` gives a tree whose parts are those of `tree`; `walk` goes through all of them, `text_of` makes a
text of any of them, and `tokens` tells words and comments apart. `NoTree` says where a text is not in the language. `NoGrammar`
says that Debian's `python3-lark` is not there: `has_grammar()` tells it beforehand. Tokens need no package.
"""
from .printing import text_of
from .reading import NoGrammar, NoTree, has_grammar, read_behaviour, read_items, read_order, read_specification, read_terms
from .tokens import Kind, NoToken, Place, Token, comments, tokens
from .walking import all_of, walk

__all__ = ["Kind", "NoGrammar", "NoToken", "NoTree", "Place", "Token", "all_of", "comments", "has_grammar", "read_behaviour",
           "read_items", "read_order", "read_specification", "read_terms", "text_of", "tokens", "walk"]
