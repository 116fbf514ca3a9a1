"""The words of `lotos-web`: a session is begun, its page is served and opened, and it ends with the page."""
from __future__ import annotations

import os
import secrets
import tempfile
import threading
from typing import Sequence, Tuple

from .. import output
from ..commands import make_parser
from ..commands.web import COMMAND
from ..numbers import with_numerals
from ..options import ANSWER_IS_NO, NO_ANSWER, UNREAD, WRONG_WORDS, read_line
from ..program import Words, WrongWords, find_program
from ..session import Ended
from .calls import Calls
from .folder import Folder
from .opening import open_browser
from .page_session import PageSession
from .presence import Presence
from .server import PageServer


def main(given: Sequence[str]) -> int:
    """Reads the options and serves the page until it is closed: the status."""
    options = read_line(make_parser(COMMAND), given)
    try:
        words = Words.read(options.words)
    except WrongWords:
        output.complain(f"usage: {COMMAND.usage[0]}")
        raise
    if not os.path.isdir(options.folder):
        output.complain(f"lotos-web: {options.folder} is no folder")
        return WRONG_WORDS
    program = find_program(options.program)
    words = with_numerals(program, words) if options.numbers else words
    beside = [Words(_files(it), words.values) for it in options.beside or []]
    session = PageSession(program, (words, *beside), options.numbers, not options.no_names)
    try:
        session.open()
        return _serve(session, Folder(options.folder), options.port, options.wait, not options.no_browser)
    except Ended as end:
        return _ended(end)
    finally:
        session.close()


def _files(named: str) -> Tuple[str, ...]:
    """A specification beside, with its order file behind a comma if it has one."""
    spec, comma, order = named.rpartition(",")
    return (spec, order) if comma and not os.path.exists(named) else (named,)


def _serve(session: PageSession, folder: Folder, port: int, wait: int, opens: bool) -> int:
    """Serves the page until it has been closed for a while."""
    presence = Presence(wait)
    try:
        server = PageServer(port, secrets.token_urlsafe(24), Calls(session, folder), presence)
    except OSError as fault:
        output.complain(f"lotos-web: no server at port {port}: {fault.strerror}")
        return NO_ANSWER
    thread = threading.Thread(target=server.serve_forever, args=(0.1,), daemon=True)
    thread.start()
    output.write(f"{server.guard.address}\n")
    output.flush()
    try:
        with tempfile.TemporaryDirectory(prefix="lotos-web-") as room:
            if opens and not open_browser(room, server.guard.address):
                output.complain("lotos-web: there is no browser to open: open the address above in one")
            presence.wait()
    finally:
        presence.end()
        server.shutdown()
        server.server_close()
    return 0


def _ended(end: Ended) -> int:
    """Says why the program ended: what it wrote, and its status where that is one of its own for a specification or a file."""
    for line in end.lines:
        output.complain(line)
    if end.status in (ANSWER_IS_NO, UNREAD):
        return end.status
    output.complain(f"lotos-web: the program ended {end.how}")
    return NO_ANSWER

