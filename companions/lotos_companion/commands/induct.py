"""The words of `lotos-induct`."""
from .description import (JSON, NO_PROGRAM_STATUS, OUTPUT_STATUS, PROGRAM, WRONG_WORDS_STATUS, Command, Example, Kind, Option, Word)

COMMAND = Command(
    "lotos-induct",
    "searches a certificate for `lotos induct`: proofs that equations hold for all values",
    words=(Word("SPEC", Kind.SPECIFICATION), Word("GOALS", Kind.GOALS)),
    options=(PROGRAM, Option("--interactive", "a proof a step at a time: shows each goal, and takes lines of a certificate"),
             Option("--seconds", "how long each lemma is searched for (20)", "N", Kind.NUMBER, default=20), JSON),
    output="FILE.proofs",
    description=(
        "*GOALS* has the lemmas of a certificate without their proofs:",
        Example("lemma x, y : Nat\nleft x + y\nright y + x"),
        "Those that come first may be used for those behind. Where a certificate stands there, its lemmas alone are read.",
        "What is printed was accepted by the program. It has the lemmas for which a proof was found, and helpers that were "
        "needed. Of the others is told what is open, or values with which the program says that the sides differ."),
    statuses=((0, "a certificate with all lemmas is printed"), (1, "some lemma has no proof, or is false"), WRONG_WORDS_STATUS,
              (3, "a file cannot be read, or is refused"), OUTPUT_STATUS,
              (70, "there is no program, it ended before its time, or it refuses what was found")),
    examples=("lotos-induct sums.lotos products.goals > products.proofs", "lotos induct sums.lotos products.proofs",
              "lotos-induct --interactive sums.lotos products.goals"),
    see_also=("lotos",), pages=("docs/INDUCTION.md",), module="inducting.tool")
