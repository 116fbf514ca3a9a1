"""Transcripts: commands behind `$ `, the lines typed to them behind `> `, and all that they write.

They stand in the files of this folder whose names end in .transcripts, and in the blocks ```shell of the pages. A
transcript begins in a folder with the files of the examples, and a block of a page is one. In a file an empty line ends one.
"""
import glob
import os
import re
import subprocess

from .helpers import COMPANIONS, HERE, PROGRAM, TOP, FolderTest, read

PAGES = ("SHELL.md", "SCENARIOS.md", "EDITORS.md", "EXPLORING.md")


def transcripts():
    """Each transcript: where it stands, and its text."""
    for path in sorted(glob.glob(f"{HERE}/*.transcripts")):
        for text in read(path).split("\n\n"):
            yield os.path.basename(path), text.rstrip("\n") + "\n"
    for page in PAGES:
        path = f"{TOP}/docs/{page}"
        for text in re.findall(r"^```shell\n(.*?)^```", read(path) if os.path.exists(path) else "", re.M | re.S):
            yield page, text


def commands(text):
    """Each command of a transcript: its line, what is typed, and what it writes."""
    for command, lines in re.findall(r"^\$ (.*)\n((?:(?!\$ ).*\n)*)", text, re.M):
        parts = lines.splitlines(keepends=True)
        typed = "".join(it[2:] for it in parts if it.startswith("> "))
        yield command, typed, "".join(it for it in parts if not it.startswith("> "))


class Transcripts(FolderTest):
    """All transcripts."""

    maxDiff = None

    def test_transcripts(self):
        counts = {}
        for name, text in transcripts():
            counts[name] = counts.get(name, 0) + 1
            self.doCleanups()
            self.setUp()
            for command, typed, wanted in commands(text):
                with self.subTest(f"{name}: {command}"):
                    self.assertEqual(self._written(command, typed), wanted)
        self.assertGreater(min(counts.values()), 1)

    def _written(self, command, typed):
        """What a command writes, with its status in a line of its own where it is not 0."""
        environment = {**os.environ, "LOTOS": PROGRAM, "PATH": f"{COMPANIONS}:{os.environ['PATH']}"}
        done = subprocess.run(["bash", "-c", command], input=typed.encode(), stdout=subprocess.PIPE,
                              stderr=subprocess.STDOUT, env=environment, timeout=120, check=False)
        said = done.stdout.decode("utf-8", "surrogateescape")
        return said + (f"[status {done.returncode}]\n" if done.returncode else "")
