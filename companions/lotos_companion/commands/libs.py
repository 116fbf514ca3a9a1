"""The words of `lotos-libs`."""
from .description import JSON, OUTPUT_STATUS, Command, Kind, Option, Verb, Word

NAMES = Word("NAME", Kind.TEXT, repeated=True)

COMMAND = Command(
    "lotos-libs",
    "data types for specifications: library files that are copied into a folder, and compared with it",
    verbs=(
        Verb("list", "the libraries, with what each has"),
        Verb("show", "the text of a library", (Word("NAME", Kind.TEXT),)),
        Verb("add", "copies libraries and those that they mention into the folder of the call", (NAMES,),
             (Option("--force", "add: writes over files that are other texts"),)),
        Verb("diff", "what was changed in the folder's files since they were copied",
             (Word("NAME", Kind.TEXT, optional=True, repeated=True),))),
    options=(JSON,),
    description=("A specification reads a copy by `library` *NAME* `endlib`, so that who gets the folder needs nothing else.",),
    statuses=((0, "the work is done, and no file was changed"), (1, "a file in the folder is another text than its library"),
              (2, "the words are wrong, or no library has the name"), (3, "a file cannot be read or written"), OUTPUT_STATUS),
    examples=("lotos-libs list", "lotos-libs add Set Digits", "lotos-libs diff"),
    see_also=("lotos",), pages=("docs/LIBRARIES.md",), module="libraries.tool")
