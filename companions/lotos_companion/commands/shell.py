"""The words of `lotos-shell`."""
from .description import COLOR, NO_PROGRAM_STATUS, NUMBERS, OUTPUT_STATUS, PROGRAM, SPEC_WORDS, Command, Option

NAMES = Option("--names", "names of hidden events in menus, as in a terminal")
PLAIN = Option("--plain", "what the program prints alone, to the byte as `lotos run` does, for its own lines alone")

COMMAND = Command(
    "lotos-shell",
    "a session of lotos for people: a prompt with history and completion around the program's own lines",
    words=SPEC_WORDS, with_values=True, options=(PROGRAM, NUMBERS, NAMES, PLAIN, COLOR),
    description=("In the session, `help` lists the commands. What the program says is shown as it is; lines of the shell's "
                 "own begin with `#`.",),
    statuses=((0, "the work is done"), (1, "the specification was refused"), (2, "the words are wrong"),
              (3, "a file could not be read"), OUTPUT_STATUS, (6, "memory ran out"), NO_PROGRAM_STATUS,
              (128, "and the number of a signal: the program was ended by it")),
    examples=("lotos-shell examples/alternating_bit.lotos", "lotos-shell car_park.lotos with 'Succ(Succ(0))' true"),
    see_also=("lotos", "lotos-trace"), pages=("docs/SHELL.md",), module="shell_tool")
