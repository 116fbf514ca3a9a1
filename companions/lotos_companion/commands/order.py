"""The words of `lotos-order`."""
from .description import (JSON, NO_PROGRAM_STATUS, OUTPUT_STATUS, PROGRAM, UNREAD_STATUS, WRONG_WORDS_STATUS, Command, Kind,
                          Option, Word)

COMMAND = Command(
    "lotos-order",
    "computes the order file of a specification, so that each of its equations is used from left to right",
    words=(Word("SPEC", Kind.SPECIFICATION),), with_values=True,
    options=(PROGRAM, Option("-o", "the file to write", "FILE", Kind.ORDER),
             Option("--list", "each equation as it is turned, with its place"), JSON),
    description=(
        "All equations, renamed and actualised, are read from what `lotos flatten` prints of a copy of the texts in which each "
        "is marked. The order is computed from them, and `lotos check` is asked for its answer with it before anything is "
        "written. Which side of an equation is the greater one is told by the path order as `docs/LANGUAGE.md` has it.",
        "Where there is no such order it says which equations no order turns, and which conflict, with what to do. Of the sets "
        "that conflict it tells a smallest one; where that takes more than five seconds, one of which no equation can be left out, "
        "and that it was not shown smallest."),
    statuses=((0, "there is an order, and the program accepts the equations with it"), (1, "there is none, or SPEC is refused"),
              WRONG_WORDS_STATUS, UNREAD_STATUS, OUTPUT_STATUS, NO_PROGRAM_STATUS),
    examples=("lotos-order countdown.lotos -o countdown.order", "lotos-order shop.lotos --list"),
    see_also=("lotos", "lotos-check"), pages=("docs/CHECKING.md",), module="ordering.tool")
