"""All that the shell adds can be turned off: then it writes what `lotos run` writes, to the byte."""
import os
import subprocess

import pytest

from .helpers import COMPANIONS, PROGRAM, FolderTest, sessions

# Lines that the shell would take for its own, lines of the program, and lines of nobody.
LINES = ("help", "redo", "back 1", "goto 0", "branches", "mark x", "state", "names on", "numbers on", "reload", "rebase", "1", "1 ?",
         "1 0", "step 1 ?", "step put 0", "step 1 2", "menu", "menu x", "  menu\t", "", " ", "step 1 0", "save kept", "save kept", "save .",
         "save! kept", "auto", "random 3 1", "until get", "which", "find i", "1: i", "1 => i", "1 0 => put !0", "normal 2", "normal 0 + 0",
         "equal 0, 0", "values Nat 3", "instances 1 2", "show", "trace", "undo", "replay kept", "undo", "undo", "end-of-answer", "quit x",
         "\udcff\udcfe", "\u00e9", "step 1 0\r", "step \x1b[31m", "quit", "menu")


class Plain(FolderTest):
    """The whole output of sessions."""

    def program(self, words, typed):
        """What the program writes in a session."""
        done = subprocess.run([PROGRAM, "run", *words], input=typed, stdout=subprocess.PIPE, check=False)
        return done.returncode, done.stdout

    def shell(self, words, typed):
        """What the shell writes."""
        done = subprocess.run([f"{COMPANIONS}/lotos-shell", *words], input=typed, stdout=subprocess.PIPE, check=False,
                              env={**os.environ, "LOTOS": PROGRAM})
        return done.returncode, done.stdout

    def test_all_lines_with_one_switch(self):
        typed = "".join(f"{it}\n" for it in LINES).encode("utf-8", "surrogateescape")
        for spec in ("alternating_bit.lotos", "stop.lotos"):
            wanted = self.program([spec], typed)
            if os.path.exists("kept"):
                os.remove("kept")
            self.assertEqual(self.shell(["--plain", spec], typed), wanted)
            self.assertEqual(self.shell(["--plain", "--numbers", "--names", spec], typed)[1], wanted[1])

    def test_some_sessions_of_the_examples_with_all_turned_on_and_off_again(self):
        self.check_sessions(("alternating_bit", "lossy_line"))

    @pytest.mark.slow
    def test_sessions_of_the_examples_with_all_turned_on_and_off_again(self):
        self.check_sessions()

    def check_sessions(self, names=None):
        """Types sessions of the examples behind lines that turn all on, and off again."""
        for name, words, typed, _, saved in sessions():
            if "quit" in typed or "dispenser" in name or names and name not in names:
                continue
            with self.subTest(name):
                for trace in saved:
                    os.remove(trace)
                wanted = self.program(words, typed.encode())
                for trace in saved:
                    os.remove(trace)
                off = "names on\nnumbers on\nnames off\nnumbers off\n"
                status, output = self.shell(words, (off + typed).encode())
                lines = [it for it in output.split(b"\n") if not it.startswith(b"# ")]
                self.assertEqual((status, b"\n".join(lines)), wanted)

    def test_no_control_codes_into_a_pipe(self):
        typed = "".join(f"{it}\n" for it in LINES if "\x1b" not in it and "\udcff" not in it).encode("utf-8", "surrogateescape")
        status, output = self.shell(["--numbers", "--names", "alternating_bit.lotos"], typed)
        self.assertEqual(status, 0)
        self.assertNotRegex(output, rb"[\x00-\x09\x0b-\x1f\x7f]")


class Missing(FolderTest):
    """Packages of Debian that are not there."""

    def test_without_a_grammar_the_shell_says_so_and_goes_on(self):
        self.write("lark.py", "raise ImportError")
        status, output, said = self.run_companion("lotos-shell", "--names", "alternating_bit.lotos", PYTHONPATH=self.folder,
                                                  typed="step 1 0\nstate\nrebase\n1\n")
        self.assertEqual((status, said), (0, ""))
        self.assertIn("\n# hidden events have no names: Debian's package python3-lark is not there\ndid put !0\n", output)
        self.assertIn("1: i\n# Debian's package python3-lark is not there\n# there is nothing that a reload lost\ndid i\n", output)
