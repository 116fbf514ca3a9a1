"""Lines at a prompt of prompt-toolkit: a menu of completions, a history that is searched and kept."""
from __future__ import annotations

import os
from typing import Any, Iterable, Iterator

from prompt_toolkit import PromptSession
from prompt_toolkit.auto_suggest import AutoSuggestFromHistory
from prompt_toolkit.completion import CompleteEvent, Completer, Completion
from prompt_toolkit.document import Document
from prompt_toolkit.formatted_text import FormattedText
from prompt_toolkit.history import History
from prompt_toolkit.output import ColorDepth
from prompt_toolkit.styles import Style

from .completion import Ending
from .line_reader import HISTORY_LINES, Complete, TerminalReader, history_file
from .output import visible

# How many completions are shown at once at most, and how long the word on one is.
MOST_SHOWN = 500
LONGEST_WORD = 60
STYLE = Style.from_dict({"prompt": "ansicyan"})


class LineHistory(History):
    """A history in a file with a line for each entry, as the other reader keeps it too."""

    def load_history_strings(self) -> Iterable[str]:
        """The lines of the file, the last one first."""
        try:
            with open(history_file(), encoding="utf-8", errors="replace") as file:
                lines = file.read().split("\n")
        except OSError:
            return []
        return list(dict.fromkeys(it for it in reversed(lines[-HISTORY_LINES:]) if it))

    def append_string(self, string: str) -> None:
        """Adds what was typed: each line of it by itself."""
        for line in filter(None, map(str.strip, string.splitlines())):
            super().append_string(line)

    def store_string(self, string: str) -> None:
        """Adds a line to the file, where it can be written."""
        try:
            os.makedirs(os.path.dirname(history_file()), exist_ok=True)
            with open(history_file(), "a", encoding="utf-8", errors="replace") as file:
                file.write(f"{string}\n")
        except OSError:
            pass


class LineCompleter(Completer):
    """The completions of a line up to the cursor."""

    def __init__(self, complete: Complete):
        self._complete = complete

    def get_completions(self, document: Document, complete_event: CompleteEvent) -> Iterator[Completion]:
        """All of them, as prompt-toolkit wants them."""
        line = document.text_before_cursor
        for it in list(self._complete(line))[:MOST_SHOWN]:
            yield _completion(it, len(line))


def _completion(ending: Ending, length: int) -> Completion:
    what = ending.what if len(ending.what) <= LONGEST_WORD else f"{ending.what[:LONGEST_WORD - 2]}.."
    return Completion(ending.text, ending.begin - length, display=visible(ending.text).strip(), display_meta=visible(what))


class PromptReader(TerminalReader):
    """Reads lines with prompt-toolkit."""

    def __init__(self, complete: Complete, colour: bool):
        super().__init__(colour)
        depth = ColorDepth.DEPTH_4_BIT if colour else ColorDepth.DEPTH_1_BIT
        self._questions: PromptSession[str] = PromptSession(color_depth=depth)
        self._session: PromptSession[str] = PromptSession(
            history=LineHistory(), completer=LineCompleter(complete), complete_while_typing=False, style=STYLE,
            auto_suggest=AutoSuggestFromHistory() if colour else None, color_depth=depth, enable_history_search=True,
            reserve_space_for_menu=6)

    def typed(self, prompt: str) -> str:
        """What is typed, up to Enter."""
        shown: Any = FormattedText([("class:prompt", prompt)])
        return self._session.prompt(shown)

    def asked(self, question: str) -> str:
        """What is typed behind a question."""
        return self._questions.prompt(question)
