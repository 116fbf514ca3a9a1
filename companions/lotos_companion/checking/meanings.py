"""What the number of each refusal means, and what is mostly to be done: the one table of both."""
from __future__ import annotations

from dataclasses import dataclass
from typing import Dict


@dataclass(frozen=True)
class Meaning:
    """A refusal of a specification: its number and name, what it means, and what mends it mostly."""

    number: int
    name: str
    sentence: str
    mend: str


MEANINGS: Dict[int, Meaning] = {it.number: it for it in (
    Meaning(101, "BadByte", "Nothing in LOTOS begins with this byte.",
            "Take it out, or put it into a comment; names have ASCII letters, digits and _ alone."),
    Meaning(102, "OpenComment", "The comment that begins here is not closed.", "Write *) at its end; (*) begins one too."),
    Meaning(103, "TooLong", "The text has more than 1,048,576 bytes.", "Move types into libraries."),
    Meaning(104, "Syntax", "This is the first word or sign that does not fit here.",
            "Look at what stands before it: a missing ; or end.., a reserved word as a name, or sections in another order."),
    Meaning(105, "TooDeep", "Behaviours or terms are nested more than 500 deep here.",
            "Put the inner part into a process or an operation."),
    Meaning(106, "Libraries", "This is the 65th library.", "Put several types into one file."),
    Meaning(201, "DoubleType", "An earlier type has this name, here or in a library.", "Give this one another name."),
    Meaning(202, "UnknownType", "No type has this name, here or in a mentioned library.",
            "Look at its spelling, or mention its library."),
    Meaning(203, "TypeCycle", "This mention closes a circle of types that mention one another.",
            "Take it out, and put what both need into a type of its own."),
    Meaning(204, "DoubleSort", "Two sorts of one name come together here.",
            "Let one type declare the sort and the others mention that type, or rename one."),
    Meaning(205, "UnknownSort", "No sort that is visible here has this name.",
            "Look at its spelling; a type sees its own sorts and those of the types that it mentions."),
    Meaning(206, "DoubleOperation", "Two operations of one name, form and sorts come together here.",
            "Let one type declare it and the others mention that type, or rename one."),
    Meaning(207, "UnknownOperation", "The type that is renamed or filled has no operation of this name and form.",
            "A pair is `new for old`: look at their spelling and their order."),
    Meaning(208, "NotFormal", "This type is filled by others, but nothing in it is formal.",
            "Declare what is filled behind formalsorts and formalopns, or use renamedby."),
    Meaning(209, "MissingActual", "Nothing fills this formal sort or operation.",
            "Add a pair for it behind using, or an actual type that has one of its name and sorts."),
    Meaning(210, "Premised", "The equation has premisses, which this tool does not take.", "Make the test an argument of an if."),
    Meaning(211, "UnknownName", "This name is neither a variable nor an operation that is visible here.",
            "Look at its spelling and whether its type is mentioned; there are no numerals."),
    Meaning(212, "NoReading", "Each name of this term is known, but the whole has no reading at its place.",
            "Some operation has arguments of another number or sort, or brackets are missing."),
    Meaning(213, "TwoReadings", "This term can be read in two ways.", "Say which is meant by `of` and a sort."),
    Meaning(214, "TooLarge", "With this there are more than 65,536 sorts, operations or equations.",
            "Take numbers or pairs where each value has a constant of its own."),
    Meaning(301, "UnknownGate", "No gate of this name is visible here.",
            "A process sees its own gates and those of a hide, par or choice around the place: hand the gate on."),
    Meaning(302, "UnknownProcess", "No process of this name is visible here.",
            "Look at its spelling; one that another process declares behind where is seen in that one alone."),
    Meaning(303, "DoubleName", "A list, or the offers of one event, declare this name twice.", "Give the second another name."),
    Meaning(304, "GateCount", "The call has another number of gates than its process.", "Add or take out gates."),
    Meaning(305, "ValueCount", "The call has another number of values than its process.", "Add or take out values."),
    Meaning(306, "NoBool", "A condition of one term needs a sort Bool with a constant true, and there is none.",
            "Mention the library Boolean, or write the condition with two sides."),
    Meaning(401, "Mismatch", "Two functionalities do not agree here.",
            "Give both sides the same values at exit and accept, or change the functionality that is declared."),
    Meaning(402, "Unguarded", "The process comes back to itself before any event.",
            "Put the call behind an event, such as i, or behind a >>."),
    Meaning(501, "OrderOperation", "No operation has this name, form and sorts.",
            "Look at its spelling; one that stands between its arguments has _ on both sides."),
    Meaning(502, "TwiceListed", "An earlier item lists this operation already; one without sorts lists all of its name.",
            "Take one of the two out."),
    Meaning(503, "BadStatus", "Behind an operation there may stand left, right or a semicolon.",
            "Write left or right, or begin a new item behind a semicolon."),
    Meaning(601, "Unorientable", "The equation is a rule in neither direction by the order of operations.",
            "Declare what is defined behind what defines it; `lotos-order` computes an order file where there is one."),
    Meaning(602, "Unjoined", "Two equations apply to one term and lead to two normal forms.",
            "Look whether one is used from right to left (`lotos-order --list` shows it), or whether their left sides overlap."),
    Meaning(701, "StartValues", "Behind `with` there stands another number of terms than the specification has parameters.",
            "Quote each term as a word of its own."),
)}
