"""What is new in a text against one before it, word by word: so that states can be told apart."""
from __future__ import annotations

import re
from difflib import SequenceMatcher
from typing import List, Tuple

WORD = re.compile(r"\w+|\s+|[^\w\s]+")
# Longer texts are not compared, since that takes time by the square of their length.
MOST_WORDS = 6000


def changed_parts(text: str, before: str) -> List[Tuple[bool, str]]:
    """The parts of a text, each with whether it is new, compared word by word with a text before it."""
    words, old = WORD.findall(text), WORD.findall(before)
    if len(words) + len(old) > MOST_WORDS:
        return [(True, text)]
    parts = []
    for kind, _, _, begin, end in SequenceMatcher(None, old, words, False).get_opcodes():
        if begin < end:
            parts.append((kind != "equal", "".join(words[begin:end])))
    return parts
