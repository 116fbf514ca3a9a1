"""The words of `lotos-language-server`."""
from .description import NO_PROGRAM_STATUS, PROGRAM, WRONG_WORDS_STATUS, Command

COMMAND = Command(
    "lotos-language-server",
    "tells an editor what lotos says of a text while it is written, over the language server protocol",
    options=(PROGRAM,),
    description=(
        "An editor starts it and speaks with it over its input and output. What is shown as wrong is the program's answer to "
        "`lotos check`; definitions, references, names that can stand at a place, and the outline are found by the grammar of the "
        "language, also in a text that is not right yet. Debian's package `python3-lark` is wanted.",
        "The editor's setting `words` gives for the name of a specification the words behind it: an order file, `with` and "
        "values. It is an option of initialisation, or stands under `lotos` in the editor's configuration."),
    statuses=((0, "the editor shut the server"), (1, "the input ended before"), WRONG_WORDS_STATUS, NO_PROGRAM_STATUS),
    examples=("lotos-language-server",),
    see_also=("lotos", "lotos-check"), pages=("docs/EDITORS.md",), module="language_server.tool")
