"""The words of `lotos-check`."""
from .description import (COLOR, JSON, NO_PROGRAM_STATUS, OUTPUT_STATUS, PROGRAM, SPEC_WORDS, UNREAD_STATUS, WRONG_WORDS_STATUS,
                          Command, Kind, Option)

COMMAND = Command(
    "lotos-check",
    "checks a specification: the answer of lotos, and below a refusal its line, what it means, and changes that were tried",
    words=SPEC_WORDS, with_values=True,
    options=(PROGRAM, COLOR, JSON, Option("--watch", "checks anew whenever a text is saved, up to Ctrl-C"),
             Option("--bare", "the answer of the program alone"),
             Option("--outline", "in place of a check: the processes with their gates and calls, and the types with their sorts"),
             Option("--picture", "with the outline: a picture of it into a file", "FILE.svg", Kind.FILE)),
    description=(
        "Lines that begin with # are this companion's. What it shows at a place comes from the texts, and from further answers of "
        "the program where it says so. A change is shown only after the program accepted the texts with it, or told a first "
        "fault that stands further on; which of the two it was stands behind it.",
        "With `--json` a report is one line; with `--watch` there are two for each check, the first one at once, the second one "
        "with the changes.",
        "An outline is read by the grammar of the language, which needs Debian's package `python3-lark`; the program is not asked."),
    statuses=((0, "the specification is accepted"), (1, "it is refused"), WRONG_WORDS_STATUS, UNREAD_STATUS, OUTPUT_STATUS,
              (6, "memory ran out, as for the program"), NO_PROGRAM_STATUS),
    examples=("lotos-check ticket_office.lotos", "lotos-check car_park.lotos with 'Succ(0)'",
              "lotos-check --watch countdown.lotos countdown.order"),
    see_also=("lotos", "lotos-order"), pages=("docs/CHECKING.md",), module="checking.tool")
