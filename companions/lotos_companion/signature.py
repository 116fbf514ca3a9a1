"""The gates, sorts and operations of a specification, as the program flattens it; where it cannot, by a light reading."""
from __future__ import annotations

import os
import re
import subprocess
from dataclasses import dataclass
from typing import Dict, List, Sequence, Tuple

from .data_names import Operation, read_data_names
from .program import Words

# The seconds that the program gets to flatten a specification.
SECONDS = 30
HEAD = re.compile(r"specification [^ ]+ \[([^]]*)\]")
DECLARED = re.compile(r"(_?)([^\s_]\S*?)(_?) : ([^>]*)-> (\S+)")


@dataclass(frozen=True)
class Signature:
    """The operations, in the order of their declarations, the sorts, and the gates of the specification."""

    operations: Tuple[Operation, ...]
    sorts: Tuple[str, ...] = ()
    gates: Tuple[str, ...] = ()

    def of_sort(self, sort: str) -> List[Operation]:
        """The operations whose results have this sort."""
        return [it for it in self.operations if it.result.lower() == sort.lower()]

    @property
    def names(self) -> List[Operation]:
        """The operations, one of each name and form."""
        found: Dict[Tuple[str, bool], Operation] = {}
        for it in self.operations:
            found.setdefault((it.name.lower(), it.infix), it)
        return list(found.values())


def read_signature(program: str, words: Words) -> Signature:
    """The signature of the data of a specification."""
    if all(os.path.isfile(it) for it in words.files):  # A pipe can be read once, and that is for the session.
        try:
            done = subprocess.run([program, "flatten", *words.files], stdin=subprocess.DEVNULL, stdout=subprocess.PIPE,
                                  stderr=subprocess.DEVNULL, timeout=SECONDS, check=False, start_new_session=True)
            if done.returncode == 0 and done.stdout.startswith(b"specification "):
                return _read(done.stdout.decode("utf-8", "surrogateescape").split("\n"))
        except (OSError, ValueError, subprocess.SubprocessError):
            pass
    operations = tuple(read_data_names(words.files[0]))
    return Signature(operations, tuple(dict.fromkeys(it.result for it in operations)))


def _read(flat: Sequence[str]) -> Signature:
    """The signature in the lines of a flat text: gates stand in the first, sorts in one, and each operation has its own."""
    head = HEAD.match(flat[0])
    sorts = next((it for it in flat[1:4] if it.startswith("sorts ")), "sorts ")
    operations = []
    for line in flat[flat.index("opns") + 1:] if "opns" in flat else ():
        declared = DECLARED.fullmatch(line)
        if not declared:
            break
        operations.append(Operation(declared[2], bool(declared[1]), _listed(declared[4]), declared[5]))
    return Signature(tuple(operations), _listed(sorts[len("sorts "):]), _listed(head[1]) if head else ())


def _listed(text: str) -> Tuple[str, ...]:
    return tuple(it.strip() for it in text.split(",") if it.strip())
