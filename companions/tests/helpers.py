"""What the tests share: the program, the examples in a folder of their own, and small programs in its place."""
import os
import shutil
import subprocess
import sys
import tempfile
import unittest

HERE = os.path.dirname(os.path.realpath(__file__))
COMPANIONS = os.path.dirname(HERE)
TOP = os.path.dirname(COMPANIONS)
EXAMPLES = os.path.join(TOP, "examples")
PROGRAM = os.path.realpath(os.environ.get("LOTOS", os.path.join(TOP, "crates/lotos_main/out/lotos_main")))
sys.path.insert(0, COMPANIONS)

# A program of a few lines in the place of `lotos`: it has one state, and lines that end it or keep it busy.
STAND_IN = '''#!/usr/bin/env python3
import os, signal, sys, time
def say(*lines):
    sys.stdout.write("".join(it + "\\n" for it in lines))
    sys.stdout.flush()
if os.path.exists("die-at-once"):
    os.kill(os.getpid(), signal.SIGSEGV)
say("accepted S", "data: 0 sorts, 0 operations, 0 equations", "events 1", "1: g")
for line in sys.stdin:
    line = line.strip()
    if line == "step 1":
        say("did g", "events 1", "1: g")
    elif line == "undo":
        say("undone", "events 1", "1: g")
    elif line == "menu":
        say("events 1", "1: g")
    elif line == "trace":
        say("lotos-trace 2 S")
    elif line == "normal hang":
        with open("hanging.new", "w") as file:
            file.write(str(os.getpid()))
        os.rename("hanging.new", "hanging")
        time.sleep(600)
    elif line == "normal die":
        os.kill(os.getpid(), signal.SIGSEGV)
    elif line == "normal half":
        sys.stdout.write("Succ(")
        sys.stdout.flush()
        sys.exit(6)
    elif line == "normal bytes":
        sys.stdout.buffer.write(b"\\xff \\x1b[31m\\n")
        sys.stdout.flush()
    elif line == "long":
        say("one", "two", "three")
    elif line == "quit":
        sys.exit(0)
    else:
        say("refused 801 BadCommand")
'''


def find_tool(*names):
    """The first of these tools that is there, or nothing."""
    return next(filter(None, map(shutil.which, names)), None)


class FolderTest(unittest.TestCase):
    """A test in a folder of its own, with the specifications, libraries, order files and traces of the examples."""

    with_examples = True

    def setUp(self):
        self.folder = tempfile.mkdtemp()
        self.addCleanup(shutil.rmtree, self.folder, True)
        self.addCleanup(os.chdir, os.getcwd())
        os.chdir(self.folder)
        if self.with_examples:
            for name in os.listdir(EXAMPLES):
                if name.endswith((".lotos", ".lib", ".order", ".trace")):
                    shutil.copy(os.path.join(EXAMPLES, name), self.folder)

    def write(self, name, text):
        """Puts a file into the folder: its path."""
        with open(name, "wb") as file:
            file.write(text.encode("utf-8", "surrogateescape"))
        return os.path.join(self.folder, name)

    def stand_in(self, text=STAND_IN):
        """A program in the place of `lotos`: its path."""
        path = self.write("stand-in", text)
        os.chmod(path, 0o755)
        return path

    def run_companion(self, name, *words, typed="", program=PROGRAM, **more):
        """Runs a companion: its status, output and error stream."""
        environment = {**os.environ, "LOTOS": program, **more}
        done = subprocess.run([os.path.join(COMPANIONS, name), *words], input=typed.encode("utf-8", "surrogateescape"),
                              stdout=subprocess.PIPE, stderr=subprocess.PIPE, env=environment, timeout=120, check=False)
        return done.returncode, done.stdout.decode("utf-8", "surrogateescape"), done.stderr.decode("utf-8")


def read(path):
    """The text of a file."""
    with open(path, encoding="utf-8", errors="surrogateescape", newline="") as file:
        return file.read()


def sessions():
    """Each session of the examples: its name, the words behind `run`, its typed text, its report, the traces it saves."""
    for file in sorted(os.listdir(EXAMPLES)):
        name, _, kind = file.rpartition(".")
        if kind != "session":
            continue
        path = os.path.join(EXAMPLES, name)
        words = [name.partition(".")[0] + ".lotos"]
        if os.path.exists(f"{path}.words"):
            words = read(f"{path}.words").split()
        typed = read(f"{path}.session")
        saved = [it[len("save "):] for it in typed.split("\n") if it.startswith("save ")]
        yield name, words, typed, read(f"{path}.report"), saved
