"""The words of `lotos-flat`."""
from .description import JSON, NO_PROGRAM_STATUS, OUTPUT_STATUS, PROGRAM, SPEC_WORDS, WRONG_WORDS_STATUS, Command, Kind, Option

COMMAND = Command(
    "lotos-flat",
    "tells of each sort, operation and equation of the flat text which type it came from: the file, the line, the renamings",
    words=SPEC_WORDS,
    options=(PROGRAM, Option("--find", "only what has this name in it", "NAME", Kind.TEXT),
             Option("--text", "the flat text, with a comment behind each part"), JSON),
    description=(
        "The flat text is what `lotos flatten` prints. Where its parts came from is read by this companion, which follows the "
        "names through the types and needs Debian's package python3-lark.",),
    statuses=((0, "all is told"), (1, "the specification is refused, or nothing has the name"), WRONG_WORDS_STATUS,
              (3, "a file cannot be read"), OUTPUT_STATUS, NO_PROGRAM_STATUS),
    examples=("lotos-flat stacks.lotos --find push", "lotos-flat stacks.lotos --text > flat.lotos"),
    see_also=("lotos",), pages=("docs/EXPLORING.md",), module="flattening.tool")
