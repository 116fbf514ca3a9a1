"""The words of `lotos-pairs`."""
from .description import (JSON, NO_PROGRAM_STATUS, OUTPUT_STATUS, PROGRAM, WRONG_WORDS_STATUS, Command, Kind, Option, Word)

COMMAND = Command(
    "lotos-pairs",
    "searches a certificate for `lotos bisim` and has it checked, or what tells two specifications apart and replays it",
    words=(Word("SPEC", Kind.SPECIFICATION), Word("OTHER", Kind.SPECIFICATION)),
    options=(PROGRAM,
             Option("--states", "stop where a specification has more than N states (10000)", "N", Kind.NUMBER, default=10_000),
             Option("--seconds", "stop after N seconds for each", "N", Kind.NUMBER),
             Option("--values", "variables of entries take the values with at most K operations (3)", "K", Kind.NUMBER, default=3),
             Option("--jobs", "N sessions of the program side by side (1)", "N", Kind.NUMBER, default=1),
             Option("--into", "keep the certificate in FOLDER, and both specifications with the values of finite sorts written "
                    "out where their menus have variables", "FOLDER", Kind.FOLDER), JSON),
    description=(
        "The certificate is printed, and what `lotos bisim` says of it stands on the error stream. This companion is trusted "
        "with nothing: a certificate is right where the program accepts it, and a difference is shown by steps that were taken "
        "in both. Strong bisimulation alone is looked at, where internal events count like all others; weak bisimulation is "
        "not offered.",
        "A certificate has no place for words. Where values of finite sorts were written out, it is one for the two texts in "
        "FOLDER: a comment in each says which values these are, and so do the error stream and the answer as JSON."),
    statuses=((0, "a certificate is printed, which `lotos bisim` accepts"), (1, "they differ, as is shown"), WRONG_WORDS_STATUS,
              (3, "a specification could not be walked through, or neither was found within the bounds"), OUTPUT_STATUS,
              NO_PROGRAM_STATUS),
    examples=("lotos-pairs two_cells.lotos two_places.lotos > found.pairs",
              "lotos bisim two_cells.lotos two_places.lotos found.pairs"),
    see_also=("lotos", "lotos-explore"), pages=("docs/BISIMULATION.md",), module="bisimulation.tool")
