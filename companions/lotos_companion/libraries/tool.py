"""The words of `lotos-libs`, and what each of its four verbs does."""
from __future__ import annotations

import difflib
import json
import os
import tempfile
from argparse import Namespace
from typing import Any, Dict, List, Sequence

from .. import output
from ..commands import make_parser
from ..commands.libs import COMMAND
from ..options import ANSWER_IS_NO, UNREAD, WRONG_WORDS, read_line
from .shelf import Library, NoLibrary, NoShelf, Shelf, read_text


def main(given: Sequence[str]) -> int:
    """Reads the options and does what the verb says: the status."""
    options = read_line(make_parser(COMMAND), given)
    verb, names = (options.words[0], options.words[1:]) if options.words else ("", [])
    fits = {"list": not names, "show": len(names) == 1, "add": bool(names), "diff": True}
    if not fits.get(verb):
        output.complain("usage: " + "\n       ".join(COMMAND.usage))
        return WRONG_WORDS
    try:
        return _call(verb, names, options, Shelf.found())
    except NoLibrary as fault:
        output.complain(f"lotos-libs: {fault}")
        return WRONG_WORDS
    except NoShelf as fault:
        output.complain(f"lotos-libs: {fault}")
        return UNREAD


def _call(verb: str, names: List[str], options: Namespace, shelf: Shelf) -> int:
    """Does what a verb says."""
    if verb == "list":
        _list(shelf, options.json)
        return 0
    if verb == "show":
        library = shelf.named(names[0])
        output.write(_json(_described(library, True)) if options.json else library.text)
        return 0
    try:
        return _add(shelf.with_mentions(names), options) if verb == "add" else _diff(shelf, names, options.json)
    except OSError as fault:
        output.complain(f"lotos-libs: {fault.filename}: {fault.strerror}")
        return UNREAD


def _list(shelf: Shelf, as_json: bool) -> None:
    """Writes the name of each library with what its first comment says first."""
    libraries = list(shelf.libraries.values())
    if as_json:
        output.write(_json([_described(it, False) for it in libraries]))
        return
    width = max(len(it.name) for it in libraries)
    output.write("".join(f"{it.name.ljust(width)}  {it.summary.split('. ')[0].split(': ')[0].rstrip('.')}\n" for it in libraries))


def _described(library: Library, with_text: bool) -> Dict[str, object]:
    """A library as data."""
    found: Dict[str, object] = {"name": library.name, "file": library.file, "summary": library.summary,
                                "types": library.types, "mentions": library.mentions}
    return {**found, "text": library.text} if with_text else found


def _add(libraries: List[Library], options: Namespace) -> int:
    """Copies files into the folder of the call. One that is there and is another text stays as it is."""
    said = []
    for it in libraries:
        there = os.path.lexists(it.file)
        if there and read_text(it.file) == it.text:
            how = "there"
        elif there and not options.force:
            how = "differs"
        else:
            _put(it.file, it.text)
            how = "added"
        said.append({"file": it.file, "how": how})
    if options.json:
        output.write(_json(said))
    else:
        texts = {"added": "{} is added", "there": "{} is there", "differs":
                 "{} is another text and stays: `lotos-libs diff` shows it, and `--force` writes over it"}
        output.write("".join(texts[it["how"]].format(it["file"]) + "\n" for it in said))
    return ANSWER_IS_NO if any(it["how"] == "differs" for it in said) else 0


def _put(path: str, text: str) -> None:
    """Writes a file whole, or leaves what is there."""
    with tempfile.NamedTemporaryFile("wb", dir=os.path.dirname(path) or ".", prefix=".", delete=False) as file:
        file.write(text.encode("utf-8", "surrogateescape"))
    mask = os.umask(0)
    os.umask(mask)
    os.chmod(file.name, 0o666 & ~mask)
    os.replace(file.name, path)


def _diff(shelf: Shelf, names: List[str], as_json: bool) -> int:
    """Writes what was changed in the folder's files since they were copied: of those that are named, or of all."""
    libraries = [shelf.named(it) for it in names] or [it for it in shelf.libraries.values() if os.path.lexists(it.file)]
    found = [{"file": it.file, "changes": _changes(it, read_text(it.file))} for it in libraries]
    if as_json:
        output.write(_json(found))
    else:
        output.write("".join(line for it in found for line in it["changes"]))
        for it in found:
            if not it["changes"]:
                output.complain(f"{it['file']} is as it came")
        if not found:
            output.complain("no library of these is in this folder")
    return ANSWER_IS_NO if any(it["changes"] for it in found) else 0


def _changes(library: Library, text: str) -> List[str]:
    """The lines of a comparison: none where the file is as it came."""
    lines = difflib.unified_diff(library.text.splitlines(True), text.splitlines(True),
                                 f"{library.file} (as it came)", f"{library.file} (here)")
    return [it if it.endswith("\n") else f"{it}\n\\ no line feed at the end\n" for it in lines]


def _json(value: Any) -> str:
    return json.dumps(value, ensure_ascii=True, indent=2) + "\n"
