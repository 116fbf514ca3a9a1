"""The second session: it takes the steps of the first one in the second text, and tells what each `i` stands for."""
from __future__ import annotations

from typing import Dict, List, Optional, Sequence, Set, Tuple

from ..answers import Answer, Entry, Label, Menu
from ..language import NoGrammar, NoTree
from ..program import Words
from ..traces import Step
from .following import Follower, NoNames, flat_and_own_text
from .hidden_events import HiddenEvent, Kind
from .rewriting import TooMany
from .second_text import MOST_GATES, SecondText, second_text

# At most so many ends before `>>` of one menu are looked at by a step and an undo each.
MOST_ENDS = 20
MOST_KEPT = 1 << 16


class SecondSession(Follower[Optional[HiddenEvent]]):
    """A session of the second text. `NoNames` where there can be none, or where it parts from the first one."""

    def __init__(self, program: str, words: Words):
        self._text = _second_text(program, words)
        super().__init__(program, words, self._text.text, "second")
        self._names: Optional[List[Optional[HiddenEvent]]] = None
        # What was found out before: what labels stand for, which lines were compared, and whether the only `>>` takes no values.
        self._by_label: Dict[str, Optional[HiddenEvent]] = {}
        self._alike: Set[Tuple[str, str]] = set()
        self._has_plain_end = False

    def follow_and_compare(self, done: Sequence[Step], menu: Menu) -> None:
        """Comes to the state behind these steps of the first session, whose menu is compared."""
        self.follow(done)
        self._compare(menu)

    def names(self) -> List[Optional[HiddenEvent]]:
        """The names of the entries of the menu."""
        if self._names is None:
            names: List[Optional[HiddenEvent]] = []
            ends = 0
            for entry in self._menu.entries:
                ends += entry.label.is_internal
                names.append(self._name_end(entry, ends <= MOST_ENDS) if entry.label.is_internal
                             else self._hidden(entry.label.text))
            self._names = names
        return self._names

    def _ask(self, line: str) -> Answer:
        answer = super()._ask(line)
        self._names = None
        return answer

    def _take(self, step: Step) -> Tuple[int, Optional[HiddenEvent]]:
        """Takes a step of the first session, with what tells the values of an end at once behind it."""
        label = self._ask(step.line).label or ""
        if label == step.label:
            return (2, self._take_end()) if label == "i" else (1, None)
        name = self._hidden(label)
        if step.label != "i" or name is None:
            raise NoNames(f"{step.line} comes to {label} in the second text, and to {step.label} in the first")
        return 1, name

    def _take_end(self) -> HiddenEvent:
        """Takes the event that tells the values of an end before `>>`."""
        entry = self._end_entry()
        name = self._hidden(entry.label.text) if entry else None
        if entry is None or name is None:
            raise NoNames("an event i has no name in the second text")
        self._ask(f"step {entry.number}")
        return name

    def _end_entry(self) -> Optional[Entry]:
        """The entry that tells the values of an end before `>>`, behind that end."""
        return next((it for it in self._menu.entries if self._text.is_end(it.label.gate)), None)

    def _hidden(self, text: str) -> Optional[HiddenEvent]:
        """What the text of a label of the second text stands for, if its gate is a fresh one."""
        if text not in self._by_label:
            if len(self._by_label) > MOST_KEPT:
                self._by_label.clear()
                self._alike.clear()
            label = Label.read(text)
            origin = self._text.origins.get(label.gate.lower())
            self._by_label[text] = HiddenEvent(origin, label.values) if origin else None
        return self._by_label[text]

    def _name_end(self, entry: Entry, may_look: bool) -> Optional[HiddenEvent]:
        """The name of an entry that is an end before `>>`. It is looked up by a step and an undo, but where the text has one
        `>>` alone, which takes no values."""
        ends = [it for it in self._text.origins.values() if it.kind is Kind.ENDED]
        if len(ends) == 1 and (self._has_plain_end or entry.variables or not may_look):
            return HiddenEvent(ends[0], () if self._has_plain_end else None)
        if entry.variables or not may_look:
            return None
        menu = self._menu
        self._ask(f"step {entry.number}")
        seen = self._end_entry()
        self._ask("undo")
        self._menu = menu
        self._has_plain_end = len(ends) == 1 and seen is not None and not seen.label.values
        return self._hidden(seen.label.text) if seen else None

    def _compare(self, menu: Menu) -> None:
        """Whether the menu is that of the first session, but for what was hidden there."""
        if len(menu.lines) != len(self._menu.lines):
            raise NoNames(f"the second text has {self._menu.head} where the first has {menu.head}")
        for pair in zip(menu.lines, self._menu.lines):
            if pair[0] != pair[1] and pair not in self._alike:
                if not self._is_entry(Entry.read(pair[0]), Entry.read(pair[1])):
                    raise NoNames(f"the second text has the entry {pair[1]} where the first has {pair[0]}")
                self._alike.add(pair)

    def _is_entry(self, one: Entry, two: Entry) -> bool:
        """Whether an entry `i` is this one of a fresh gate."""
        return (one.label.is_internal and self._hidden(two.label.text) is not None
                and (one.number, one.variables, one.sorts, one.conditions)
                == (two.number, two.variables, two.sorts, two.conditions))


def _second_text(program: str, words: Words) -> SecondText:
    """The second text of a specification. `NoNames` where there is none."""
    flat, source = flat_and_own_text(program, words)
    try:
        return second_text(flat, source)
    except NoGrammar as fault:
        raise NoNames(str(fault)) from None
    except NoTree as fault:
        raise NoNames(f"the flat text is not read: {fault}") from None
    except TooMany:
        raise NoNames(f"more than {MOST_GATES} fresh gates would be wanted") from None
