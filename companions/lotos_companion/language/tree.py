"""What a text in LOTOS is made of: a tree of small parts, each with its place.

Trees are equal where they say the same, wherever their parts stand. Names are kept as they are written; `key` is a name
without regard to the case of its letters, as `lotos` compares them.
"""
from __future__ import annotations

from dataclasses import dataclass, field
from typing import Optional, Tuple, Union

from .tokens import Place

NOWHERE = Place(0, 0, 0, 0)


@dataclass(frozen=True)
class Name:
    """A name of anything."""

    text: str
    place: Place = field(default=NOWHERE, compare=False)

    @property
    def key(self) -> str:
        """The name without regard to the case of letters."""
        return self.text.lower()


Names = Tuple[Name, ...]


@dataclass(frozen=True)
class Term:
    """A value expression: an operation or a variable with its arguments, and the sorts behind `of`, the innermost first."""

    name: Name
    arguments: Tuple[Term, ...] = ()
    is_infix: bool = False
    marks: Names = ()
    place: Place = field(default=NOWHERE, compare=False)


@dataclass(frozen=True)
class Variable:
    """A variable that is declared, with its sort."""

    name: Name
    sort: Name

    @property
    def place(self) -> Place:
        """Where its name stands."""
        return self.name.place


Variables = Tuple[Variable, ...]


@dataclass(frozen=True)
class Premiss:
    """A condition: two terms that are equal, or one of the sort `Bool` that is true."""

    left: Term
    right: Optional[Term]
    place: Place = field(default=NOWHERE, compare=False)


# Behaviours


@dataclass(frozen=True)
class Stop:
    """`stop`"""

    place: Place = field(default=NOWHERE, compare=False)


@dataclass(frozen=True)
class AnyValue:
    """`any S` among the values of an `exit`."""

    sort: Name
    place: Place = field(default=NOWHERE, compare=False)


@dataclass(frozen=True)
class Exit:
    """`exit` with its values."""

    values: Tuple[Union[Term, AnyValue], ...] = ()
    place: Place = field(default=NOWHERE, compare=False)


@dataclass(frozen=True)
class Call:
    """A process with its gates and values."""

    name: Name
    gates: Names = ()
    values: Tuple[Term, ...] = ()
    place: Place = field(default=NOWHERE, compare=False)


@dataclass(frozen=True)
class Given:
    """`!e` at an action."""

    term: Term
    place: Place = field(default=NOWHERE, compare=False)


@dataclass(frozen=True)
class Asked:
    """`?x, y:S` at an action."""

    names: Names
    sort: Name
    place: Place = field(default=NOWHERE, compare=False)


Offer = Union[Given, Asked]


@dataclass(frozen=True)
class Action:
    """An event at a gate and what follows it. `head` is the place of the event alone, with its offers and its condition."""

    gate: Name
    offers: Tuple[Offer, ...]
    premiss: Optional[Premiss]
    next: Behaviour
    head: Place = field(default=NOWHERE, compare=False)
    place: Place = field(default=NOWHERE, compare=False)


@dataclass(frozen=True)
class Inner:
    """`i; B`, with the place of the `i` as its head."""

    next: Behaviour
    head: Place = field(default=NOWHERE, compare=False)
    place: Place = field(default=NOWHERE, compare=False)


@dataclass(frozen=True)
class Guard:
    """`[l = r] -> B`"""

    premiss: Premiss
    next: Behaviour
    place: Place = field(default=NOWHERE, compare=False)


@dataclass(frozen=True)
class Hide:
    """`hide a, b in B`"""

    gates: Names
    body: Behaviour
    place: Place = field(default=NOWHERE, compare=False)


@dataclass(frozen=True)
class Binding:
    """`x:S = e` of a `let`."""

    variable: Variable
    term: Term


@dataclass(frozen=True)
class Let:
    """`let x:S = e in B`"""

    bindings: Tuple[Binding, ...]
    body: Behaviour
    place: Place = field(default=NOWHERE, compare=False)


@dataclass(frozen=True)
class ChooseValue:
    """`choice x:S [] B`"""

    variables: Variables
    body: Behaviour
    place: Place = field(default=NOWHERE, compare=False)


@dataclass(frozen=True)
class Among:
    """`g, h in [a, b]` of a `choice` or `par`."""

    names: Names
    gates: Names


@dataclass(frozen=True)
class ChooseGate:
    """`choice g in [a, b] [] B`"""

    among: Tuple[Among, ...]
    body: Behaviour
    place: Place = field(default=NOWHERE, compare=False)


@dataclass(frozen=True)
class Sign:
    """The sign of a parallel: `|||`, `||`, or `|[` with the gates of its set."""

    text: str
    gates: Names = ()
    place: Place = field(default=NOWHERE, compare=False)


@dataclass(frozen=True)
class ParGate:
    """`par g in [a, b] ||| B`"""

    among: Tuple[Among, ...]
    sign: Sign
    body: Behaviour
    place: Place = field(default=NOWHERE, compare=False)


@dataclass(frozen=True)
class Choice:
    """`B [] C`"""

    left: Behaviour
    right: Behaviour
    sign_place: Place = field(default=NOWHERE, compare=False)
    place: Place = field(default=NOWHERE, compare=False)


@dataclass(frozen=True)
class Parallel:
    """`B ||| C`, `B || C` or `B |[a]| C`"""

    sign: Sign
    left: Behaviour
    right: Behaviour
    place: Place = field(default=NOWHERE, compare=False)


@dataclass(frozen=True)
class Disable:
    """`B [> C`"""

    left: Behaviour
    right: Behaviour
    sign_place: Place = field(default=NOWHERE, compare=False)
    place: Place = field(default=NOWHERE, compare=False)


@dataclass(frozen=True)
class Enable:
    """`B >> C`, or with `accept x:S in`."""

    left: Behaviour
    accepted: Variables
    right: Behaviour
    sign_place: Place = field(default=NOWHERE, compare=False)
    place: Place = field(default=NOWHERE, compare=False)


@dataclass(frozen=True)
class Relabel:
    """`relabel a for x in B`, which the texts of states alone have: pairs of an actual gate and the formal one."""

    pairs: Tuple[Tuple[Name, Name], ...]
    body: Behaviour
    place: Place = field(default=NOWHERE, compare=False)


Behaviour = Union[Stop, Exit, Call, Action, Inner, Guard, Hide, Let, ChooseValue, ChooseGate, ParGate, Choice, Parallel, Disable,
                  Enable, Relabel]


# Types


@dataclass(frozen=True)
class Library:
    """`library A, B endlib`"""

    names: Names
    place: Place = field(default=NOWHERE, compare=False)


@dataclass(frozen=True)
class OperationName:
    """The name of an operation, and whether it stands between its arguments."""

    name: Name
    is_infix: bool
    place: Place = field(default=NOWHERE, compare=False)


@dataclass(frozen=True)
class OperationLine:
    """Operations that are declared with one profile."""

    operations: Tuple[OperationName, ...]
    arguments: Names
    result: Name
    place: Place = field(default=NOWHERE, compare=False)


@dataclass(frozen=True)
class Equation:
    """An equation, with the premisses before its `=>`."""

    premisses: Tuple[Premiss, ...]
    left: Term
    right: Term
    place: Place = field(default=NOWHERE, compare=False)


@dataclass(frozen=True)
class Group:
    """`ofsort S forall x:S` with its equations."""

    sort: Name
    variables: Variables
    equations: Tuple[Equation, ...]
    place: Place = field(default=NOWHERE, compare=False)


@dataclass(frozen=True)
class Equations:
    """The equations of a type: the variables of all of them, and their groups by sorts."""

    variables: Variables
    groups: Tuple[Group, ...]
    place: Place = field(default=NOWHERE, compare=False)


@dataclass(frozen=True)
class Sections:
    """The sections of a type, formal ones first. A section that is not there is `None`."""

    formal_sorts: Optional[Names] = None
    formal_operations: Optional[Tuple[OperationLine, ...]] = None
    formal_equations: Optional[Equations] = None
    sorts: Optional[Names] = None
    operations: Optional[Tuple[OperationLine, ...]] = None
    equations: Optional[Equations] = None


@dataclass(frozen=True)
class Extension:
    """What a type adds to the types that it mentions."""

    bases: Names
    sections: Sections


@dataclass(frozen=True)
class SortPair:
    """`new for old` of `sortnames`."""

    new: Name
    old: Name


@dataclass(frozen=True)
class OperationPair:
    """`new for old` of `opnnames`."""

    new: OperationName
    old: OperationName


@dataclass(frozen=True)
class Renames:
    """The pairs of `sortnames` and of `opnnames`."""

    sorts: Tuple[SortPair, ...] = ()
    operations: Tuple[OperationPair, ...] = ()


@dataclass(frozen=True)
class Renaming:
    """`T renamedby`"""

    base: Name
    renames: Renames


@dataclass(frozen=True)
class Actualisation:
    """`T actualizedby U, V using`"""

    base: Name
    actuals: Names
    renames: Renames


@dataclass(frozen=True)
class Type:
    """`type T is .. endtype`"""

    name: Name
    body: Union[Extension, Renaming, Actualisation]
    place: Place = field(default=NOWHERE, compare=False)


Item = Union[Library, Type]


# Definitions


@dataclass(frozen=True)
class Heading:
    """The name, gates, parameters and functionality of a definition; the functionality `noexit` is `None`."""

    name: Name
    gates: Names = ()
    parameters: Variables = ()
    exit_sorts: Optional[Names] = None


@dataclass(frozen=True)
class Process:
    """`process .. endproc`"""

    heading: Heading
    body: Behaviour
    inner: Tuple[Union[Library, Type, Process], ...] = ()
    place: Place = field(default=NOWHERE, compare=False)


@dataclass(frozen=True)
class Specification:
    """A specification: what stands before its behaviour, the behaviour, and what stands behind `where`."""

    heading: Heading
    items: Tuple[Item, ...]
    body: Behaviour
    inner: Tuple[Union[Library, Type, Process], ...] = ()
    place: Place = field(default=NOWHERE, compare=False)


@dataclass(frozen=True)
class OrderItem:
    """An item of an order file: the operation, its sorts where they are written, and `left` or `right` where that is."""

    operation: OperationName
    arguments: Optional[Names]
    result: Optional[Name]
    status: Optional[Name]
    place: Place = field(default=NOWHERE, compare=False)
