"""The words of the program itself and of its launcher, for the manual page and the completions."""
from .description import SPEC_WORDS, Command, Example, Item, Kind, Section, Verb, Word

VERBS = (
    Verb("check", "reads a specification and shows its first menu", SPEC_WORDS, with_values=True, description=(
        "reads the specification *SPEC*, the libraries that it mentions and the order file *ORDER*, and prints the head of its "
        "report and the first menu.")),
    Verb("run", "reads a specification and answers lines", SPEC_WORDS, with_values=True, description=(
        "does the same, and then answers each line of the input, to its end or to `quit`.")),
    Verb("demo", "walks through a specification of N cells", (Word("N", Kind.NUMBER),), description=(
        "makes a specification of *N* cells, from 1 to 64, walks through its session, and prints what came of it.")),
    Verb("flatten", "prints a specification without its type algebra", SPEC_WORDS, description=(
        "reads what `check` reads, but for the values of parameters, and prints a specification that says the same with one "
        "type and one list of processes.")),
    Verb("bisim", "checks a certificate that two specifications are bisimilar",
         (Word("SPEC", Kind.SPECIFICATION), Word("OTHER", Kind.SPECIFICATION), Word("PAIRS", Kind.PAIRS)), description=(
             "reads two specifications and a certificate, and prints whether the certificate shows that the two are strongly "
             "bisimilar.")),
    Verb("induct", "checks a certificate that equations hold for all ground values",
         (Word("SPEC", Kind.SPECIFICATION), Word("PROOFS", Kind.PROOFS)), description=(
             "reads a specification and a certificate of induction, and prints whether the lemmas of the certificate hold for "
             "all ground values, and which of them meet the formal equations that the types of the specification require.")),
    Verb("build", "proves and builds the program", description="proves and builds the program. It is a word of the launcher."),
    Verb("install", "puts the program into a folder of the PATH", (Word("FOLDER", Kind.FOLDER, optional=True),), description=(
        "puts the built program into a folder of the PATH. It is a word of the launcher.")),
)

LINES = Section("LINES OF A SESSION", (
    Item("`menu`", "prints the menu of the state that was reached."),
    Item("`step` *N* [*TERM*, *TERM*...]", "takes the entry *N* of the menu, with the terms as values of its variables in order."),
    Item("`undo`", "takes back the last step."),
    Item("`trace`", "prints the name of the specification, and the steps that led here with their events and the states behind "
         "them."),
    Item("`save` *NAME*", "puts the trace into the file *NAME*, and writes over what is there."),
    Item("`replay` *NAME*", "takes the steps of the trace in the file *NAME*, from the first state on, and compares each event "
         "and, in format 2, each state."),
    Item("`show`", "prints the behaviour that was reached."),
    Item("`normal` *TERM*", "prints the normal form of the term."),
    Item("`equal` *TERM*, *TERM*", "tells whether the terms are `equal` or `different`."),
    Item("`values` *SORT K*", "lists the values of the sort with at most *K* operations, from 1 to 64."),
    Item("`instances` *N K*", "lists the events of the entry *N* by such values for its variables."),
    Item("`quit`", "ends the session."),
    "A line that is refused leaves the state, the menu and the trace as they were."))

OUTPUT = Section("OUTPUT", (
    "An entry of a menu is",
    Example("K: LABEL for $1:SORT, $2:SORT if LEFT = RIGHT, LEFT = RIGHT"),
    "The label is `i` for an internal event, a gate with a value behind each `!`, or `exit` with values. The variables stand "
    "for any values for which the conditions hold. `events 0` is a deadlock.",
    "A specification is refused by the line",
    Example("refused NUMBER NAME at TEXT:LINE:COLUMN DETAIL"),
    "Lines and columns count from 1, columns in bytes."))

FILES = Section("FILES", (
    Item("*N*`.lib`", "the library that `library` *N* `endlib` mentions, in the folder of the call. `Boolean` and "
         "`NaturalNumber` come with the program."),))

COMMAND = Command(
    "lotos", "simulate specifications in LOTOS", verbs=VERBS,
    description=(
        "`lotos` reads a specification in LOTOS (ISO 8807:1989), with its data types, and prints the menu of the events that "
        "are possible in its first state. Each instance of an entry is an event that the rules of the standard derive, and "
        "each event that they derive is an instance of an entry. A specification that it does not accept is refused with the "
        "first thing that is in the way, and its place.",
        *(Item(f"`{verb.name}`" + "".join(f" *{word.usage}*" for word in verb.words), verb.description) for verb in VERBS),
        "Behind the files of `check` and `run`, `with` and any number of words give the ground terms for the parameters of the "
        "specification, in their order. A file whose name is `with` is written `./with`."),
    sections=(LINES, OUTPUT, FILES),
    statuses=((0, "the work is done"), (1, "the specification was refused"),
              (2, "the words are none of the above, or one of them is not UTF-8"), (3, "a file could not be read"),
              (4, "the input failed"), (5, "the output failed"), (6, "memory ran out"),
              (7, "the input has more than 16,777,216 bytes"), (8, "a certificate was refused"),
              (70, "the launcher could not give an answer or build the program")),
    examples=("lotos check examples/alternating_bit.lotos", "lotos run examples/buffer.lotos < examples/buffer.session",
              "lotos run countdown.lotos countdown.order", "lotos run car_park.lotos with 'Succ(Succ(0))' true"),
    pages=("docs/TUTORIAL.md", "docs/LANGUAGE.md", "docs/USAGE.md", "docs/REFUSALS.md"))
