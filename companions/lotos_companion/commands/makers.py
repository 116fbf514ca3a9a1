"""The words of the commands that make files of this repository anew. They have no manual page."""
from .description import Command, Kind, Word

COMMAND_FILES = Command("make-command-files", "writes the manual pages and the completions of companions/ anew from the table "
                        "of the commands", module="commands.files")
EDITOR_FILES = Command("make-editor-files", "writes the files of companions/editors anew from the table of the reserved words",
                       module="editor_files")
PICTURES = Command("make-pictures", "makes the pictures of docs/ anew in a terminal of tmux: the shell, a scenario, Vim",
                   words=(Word("PROGRAM", Kind.FILE, optional=True),),
                   description=("It needs `tmux` and `vim`, and writes into docs/ of the repository that it stands in.",),
                   module="picture_files")

MAKERS = (COMMAND_FILES, EDITOR_FILES, PICTURES)
