"""The pictures of `docs/`, made anew from the alternating bit example in a terminal of tmux: the shell, a scenario, Vim."""
from __future__ import annotations

import os
import shutil
import subprocess
import sys
import tempfile
import time
from typing import Sequence

from .commands import make_parser
from .commands.files import write_files
from .commands.makers import PICTURES
from .options import NO_ANSWER, WRONG_WORDS
from .output import complain
from .program import TOP, find_program
from .terminal_picture import terminal_picture

COMPANIONS = os.path.join(TOP, "companions")
# The lines that are typed into the shell, each with the prompt behind it.
SHELL_LINES = (("step put 2", "lotos 1>"), ("auto", "lotos 2>"), ("state", "lotos 2>"), ("until get", "lotos 4>"),
               ("back 2", "lotos 2/4>"), ("2", "lotos 2:3>"), ("branches", "lotos 2:3>"))


class Terminal:
    """A terminal of tmux with one program in it."""

    def __init__(self, folder: str, command: str, columns: int, lines: int):
        self._socket = os.path.join(folder, "socket")
        self._columns = columns
        self._tmux("new-session", "-d", "-x", str(columns), "-y", str(lines), command)

    def _tmux(self, *words: str) -> str:
        done = subprocess.run(["tmux", "-S", self._socket, "-f", "/dev/null", *words], stdout=subprocess.PIPE,
                              check=True)
        return done.stdout.decode()

    def type(self, text: str) -> None:
        """Types a text and Enter."""
        self._tmux("send-keys", "-l", text)
        self._tmux("send-keys", "Enter")

    def wait(self, text: str) -> None:
        """Waits until the last line that is not empty begins so."""
        end = time.monotonic() + 60
        while not (self._tmux("capture-pane", "-p").rstrip().split("\n")[-1]).startswith(text):
            if time.monotonic() > end:
                sys.exit(f"make-pictures: no {text!r} on the screen:\n{self._tmux('capture-pane', '-p')}")
            time.sleep(0.1)

    def picture(self, title: str) -> str:
        """The picture of what is there, and the end of it."""
        text = self._tmux("capture-pane", "-p", "-e")
        self._tmux("kill-server")
        return terminal_picture(text.rstrip("\n").split("\n"), self._columns, title)


def shell_picture(folder: str, program: str) -> str:
    """A session in the shell."""
    environment = f"env LOTOS='{program}' XDG_STATE_HOME='{folder}' TERM=xterm LC_ALL=C.UTF-8"
    terminal = Terminal(folder, f"{environment} {COMPANIONS}/lotos-shell alternating_bit.lotos", 104, 52)
    terminal.wait("lotos 0>")
    for line, prompt in SHELL_LINES:
        terminal.type(line)
        time.sleep(0.5)
        terminal.wait(prompt)
        time.sleep(0.5)
    return terminal.picture("The alternating bit protocol in lotos-shell")


def editor_picture(folder: str) -> str:
    """The specification in Vim."""
    editors = f"{COMPANIONS}/editors/vim"
    command = (f"vim -N -u NONE -i NONE --cmd 'set rtp^={editors}' "
               "--cmd 'set background=dark t_Co=16 laststatus=2 ruler | filetype plugin on | syntax on' alternating_bit.lotos")
    terminal = Terminal(folder, f"env TERM=xterm LC_ALL=C.UTF-8 {command}", 104, 30)
    time.sleep(3)
    return terminal.picture("The alternating bit protocol in Vim")


def scenario_picture(program: str) -> str:
    """The scenario that the example keeps."""
    return subprocess.run([f"{COMPANIONS}/lotos-trace", "--program", program, "chart", "alternating_bit.trace",
                           "alternating_bit.lotos"], stdout=subprocess.PIPE, check=True).stdout.decode()


def main(given: Sequence[str]) -> int:
    """Makes the three: the status."""
    words = make_parser(PICTURES).parse_args(given).words
    if len(words) > 1:
        complain(f"usage: {PICTURES.usage[0]}")
        return WRONG_WORDS
    program = os.path.abspath(find_program(words[0] if words else None))
    for needed in ("tmux", "vim"):
        if not shutil.which(needed):
            complain(f"make-pictures: there is no {needed}")
            return NO_ANSWER
    os.chdir(os.path.join(TOP, "examples"))
    with tempfile.TemporaryDirectory() as folder:
        pictures = {"shell.svg": shell_picture(folder, program), "alternating_bit.svg": scenario_picture(program),
                    "editor.svg": editor_picture(folder)}
    write_files(os.path.join(TOP, "docs"), pictures)
    return 0
