"""The marked text's form of one definition: in it each event tells by its conditions what takes part in it.

| In the flat text | In the marked text |
|---|---|
| `g !e ?x:S; B` | `g !e ?x:S ?s:Marks [has(m(f, c), s) = yes]; B`, `m` an operation for this event alone |
| `g ?x:S [l = r]; B` | `choice s:Marks [] ([has(m(f, c), s) = yes] -> g ?x:S !s [l = r]; B)` |
| `i; B` | `I !m(f, c); B` |
| `B >> accept x:S in C` | `B >> accept x:S in T !m(f, c); C` |
| `B ||| C` | in `B` the paths `f` and `p` are `left(f)` and `left(p)`, and in `C` they are `right(f)` and `right(p)` |
| `B [> C` | in `C`, before anything happens there, `f` is `over(f)` |
| `P[a](e)` | `P[a, I, T](e, f, p, m(c))` |

Behind an event of a process, `f` is `p` and `c` is `none`: so `p` is where the component stands, `c` the calls by which one came to
the process without anything between, and `f` tells beside `p` what has not ended yet that it would end.

All that take part in an event have one `s` for the set of their marks, of which nothing is known. So the conditions of an entry
list the marks: `has(m3(left(top), none), $1) = yes`. The value `all` has every mark, so that each step can be taken.
"""
from __future__ import annotations

from dataclasses import dataclass, field, replace
from typing import Dict, List, Sequence, Tuple

from ..language import tree
from ..language.tokens import Place
from ..language.tree import Behaviour, Name, Names, Term
from ..naming.definitions import Definitions
from ..naming.mapping import BehaviourMap, one_gate
from .occurrences import Happening, Occurrence

# What is added to a text: the beginnings of its words.
SORTS = ("Mark", "Marks", "Yes", "Path", "Calls")


@dataclass
class Words:
    """The words that are added, none of which the text has, and what the marks stand for by their numbers."""

    stem: str
    occurrences: List[Occurrence] = field(default_factory=list)
    numbers: Dict[Tuple[str, int], int] = field(default_factory=dict)

    def word(self, what: str) -> Name:
        """A word of this meaning."""
        return Name(f"{self.stem}{what}")

    def mark(self, occurrence: Occurrence, process: str, offset: int) -> Name:
        """The operation of an occurrence, which is told by its definition and its place there."""
        number = self.numbers.setdefault((process, offset), len(self.occurrences))
        if number == len(self.occurrences):
            self.occurrences.append(occurrence)
        return self.word(f"m{number}")

    def apply(self, what: str, *arguments: Term) -> Term:
        """A term of one of these words."""
        return Term(self.word(what), arguments)


class Marker(BehaviourMap):
    """Marks the behaviour of one definition."""

    def __init__(self, words: Words, definitions: Definitions, name: str, paths: Tuple[Term, Term], calls: Term):
        super().__init__()
        self._words = words
        self._definitions = definitions
        self._name = name
        self._here, self._path = paths
        self._calls = calls
        self._is_first = True

    def _mark(self, happening: Happening, called: str, place: Place) -> Name:
        occurrence = Occurrence(happening, self._definitions.written(self._name), called,
                                self._definitions.source_place(place), self._is_first)
        return self._words.mark(occurrence, self._name, place.offset)

    def _told(self, happening: Happening, called: str, place: Place) -> Term:
        """The term that tells what happens, and in which component."""
        calls = self._calls if self._is_first else self._words.apply("none")
        return Term(self._mark(happening, called, place), (self._here, calls))

    def _behind(self, part: Behaviour, visible: Names) -> Behaviour:
        """What is behind an event."""
        before = self._is_first, self._here
        self._is_first, self._here = False, self._path
        made = self.behaviour(part, visible)
        self._is_first, self._here = before
        return made

    def _action(self, part: object, visible: Names) -> Behaviour:
        assert isinstance(part, tree.Action)
        words = self._words
        marks, sort = words.word("s"), words.word("Marks")
        told = self._told(Happening.EVENT, part.gate.text, part.head)
        has = tree.Premiss(words.apply("has", told, Term(marks)), words.apply("yes"))
        behind = self._behind(part.next, visible)
        if not part.premiss:
            return tree.Action(part.gate, (*part.offers, tree.Asked((marks,), sort)), has, behind)
        action = tree.Action(part.gate, (*part.offers, tree.Given(Term(marks))), part.premiss, behind)
        return tree.ChooseValue((tree.Variable(marks, sort),), tree.Guard(has, action))

    def _inner(self, part: object, visible: Names) -> Behaviour:
        assert isinstance(part, tree.Inner)
        told = tree.Given(self._told(Happening.INNER, "i", part.head))
        return tree.Action(self._words.word("I"), (told,), None, self._behind(part.next, visible))

    def _enable(self, part: object, visible: Names) -> Behaviour:
        assert isinstance(part, tree.Enable)
        left = self.behaviour(part.left, visible)
        told = tree.Given(self._told(Happening.ENDED, ">>", part.sign_place))
        return replace(part, left=left, right=tree.Action(self._words.word("T"), (told,), None, self._behind(part.right, visible)))

    def _parallel(self, part: object, visible: Names) -> Behaviour:
        assert isinstance(part, tree.Parallel)
        sides = [self._side(("left", "right")[it], (part.left, part.right)[it], visible) for it in (0, 1)]
        made = super()._parallel(replace(part, left=tree.Stop(), right=tree.Stop()), visible)
        assert isinstance(made, tree.Parallel)
        return replace(made, left=sides[0], right=sides[1])

    def _side(self, which: str, part: Behaviour, visible: Names) -> Behaviour:
        before = self._here, self._path
        self._go(which)
        made = self.behaviour(part, visible)
        self._here, self._path = before
        return made

    def _go(self, which: str) -> None:
        """Goes to one side."""
        self._here, self._path = self._words.apply(which, self._here), self._words.apply(which, self._path)

    def _disable(self, part: object, visible: Names) -> Behaviour:
        assert isinstance(part, tree.Disable)
        left, before = self.behaviour(part.left, visible), self._here
        self._here = self._words.apply("over", before)
        right = self.behaviour(part.right, visible)
        self._here = before
        return replace(part, left=left, right=right)

    def _sides_of(self, name: Name, gates: Names, body: Behaviour, visible: Names) -> Sequence[Behaviour]:
        """The sides, each with its own path: they are grouped to the right."""
        before, sides = (self._here, self._path), []
        for count, gate in enumerate(gates, 1):
            rest = self._here, self._path
            if count < len(gates):
                self._go("left")
            sides.append(one_gate(name, gate, self.behaviour(body, visible)))
            self._here, self._path = rest
            self._go("right")
        self._here, self._path = before
        return sides

    def _call(self, part: object, visible: Names) -> Behaviour:
        assert isinstance(part, tree.Call)
        words = self._words
        mark = self._mark(Happening.CALL, part.name.text, part.place)
        chain = Term(mark, (self._calls if self._is_first else words.apply("none"),))
        return replace(part, gates=(*part.gates, words.word("I"), words.word("T")),
                       values=(*part.values, self._here, self._path, chain))


def added_type(words: Words, has_data: bool) -> tree.Type:
    """The type of the words that are added."""
    mark, marks, yes, path, calls = map(words.word, SORTS)

    def line(result: Name, names: Sequence[str], *arguments: Name) -> tree.OperationLine:
        return tree.OperationLine(tuple(tree.OperationName(words.word(it), False) for it in names), arguments, result)

    def marked(is_call: bool) -> List[str]:
        return [f"m{it}" for it, one in enumerate(words.occurrences) if (one.happening is Happening.CALL) is is_call]

    lines = [line(path, ["top"]), line(path, ["left", "right", "over"], path), line(calls, ["none"]), line(marks, ["all"]),
             line(yes, ["yes"]), line(yes, ["has"], mark, marks)]
    lines += [line(calls, [it], calls) for it in marked(True)] + [line(mark, [it], path, calls) for it in marked(False)]
    one = words.word("x")
    all_have = tree.Equation((), words.apply("has", Term(one), words.apply("all")), words.apply("yes"))
    equations = tree.Equations((), (tree.Group(yes, (tree.Variable(one, mark),), (all_have,)),))
    return tree.Type(words.word("Type"), tree.Extension((Name("Data"),) if has_data else (), tree.Sections(
        sorts=(mark, marks, yes, path, calls), operations=tuple(lines), equations=equations)))
