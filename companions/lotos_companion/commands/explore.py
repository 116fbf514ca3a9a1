"""The words of `lotos-explore`."""
from .description import (JSON, NO_PROGRAM_STATUS, OUTPUT_STATUS, PROGRAM, SPEC_WORDS, WRONG_WORDS_STATUS, Command, Kind, Option)

COMMAND = Command(
    "lotos-explore",
    "explores the states of a specification, breadth first: what is reached, deadlocks with scenarios, files for other tools",
    words=SPEC_WORDS, with_values=True,
    options=(
        PROGRAM,
        Option("--values", "variables of entries take the values with at most K operations (3)", "K", Kind.NUMBER, default=3),
        Option("--states", "stop at N states (100000)", "N", Kind.NUMBER, default=100_000),
        Option("--seconds", "stop after N seconds", "N", Kind.NUMBER),
        Option("--depth", "stop behind N steps", "N", Kind.NUMBER),
        Option("--jobs", "N sessions of the program side by side (1)", "N", Kind.NUMBER, default=1),
        Option("--scenarios", "print at most N scenarios of a kind (10)", "N", Kind.NUMBER, default=10),
        Option("--aut", "write states and transitions for CADP, mCRL2 and others", "FILE", Kind.FILE),
        Option("--dot", "write them for graphviz", "FILE", Kind.FILE),
        Option("--svg", "write a picture of them, where they are few", "FILE", Kind.FILE),
        Option("--traces", "write the scenario of each deadlock as a trace into FOLDER", "FOLDER", Kind.FOLDER), JSON),
    description=(
        "Two states are one where `show` prints one text for them. What is said holds of the states that were met: the report "
        "says where it was cut, and to which size values were taken. Ctrl-C ends the exploration with what was found so far.",),
    statuses=((0, "no deadlock was met"), (1, "one was met, or the specification is refused"), WRONG_WORDS_STATUS,
              (3, "a file cannot be read"), OUTPUT_STATUS, NO_PROGRAM_STATUS),
    examples=("lotos-explore alternating_bit.lotos --values 2 --jobs 4",
              "lotos-explore philosophers.lotos --svg philosophers.svg --traces deadlocks"),
    see_also=("lotos", "lotos-pairs"), pages=("docs/EXPLORING.md",), module="exploring.tool")
