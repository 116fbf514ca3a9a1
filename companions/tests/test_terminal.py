"""The shell in a real terminal, by tmux."""
import os
import shutil
import subprocess
import sys
import tempfile
import time
import unittest

from .helpers import COMPANIONS, PROGRAM, FolderTest, find_tool, read

TMUX = find_tool("tmux")
SECONDS = 60


@unittest.skipUnless(TMUX, "the shell in a terminal, since there is no tmux")
class InATerminal(FolderTest):
    """A shell at a prompt."""

    def start(self, words, program=PROGRAM, columns=80, lines=24, more=""):
        """Starts the shell in a terminal of its own. (The name of a socket has to be short.)"""
        self.socket_folder = tempfile.mkdtemp(dir="/tmp")
        self.addCleanup(shutil.rmtree, self.socket_folder, True)
        try:
            self.tmux("new-session", "-d", "-x", str(columns), "-y", str(lines),
                      f"env LOTOS='{program}' XDG_STATE_HOME='{self.folder}/state' TERM=xterm LC_ALL=C.UTF-8 {more} "
                      f"{COMPANIONS}/lotos-shell {words}; echo status $?; exec sleep 600")
        except subprocess.CalledProcessError:
            self.skipTest("the shell in a terminal, since tmux gives none")
        self.addCleanup(self.stop, self.socket_folder)

    def stop(self, folder=None):
        """Ends the terminal."""
        subprocess.run([TMUX, "-S", f"{folder or self.socket_folder}/s", "kill-server"], stderr=subprocess.DEVNULL, check=False)

    def tmux(self, *words):
        """A command of the tmux server of this test."""
        return subprocess.run([TMUX, "-S", f"{self.socket_folder}/s", "-f", "/dev/null", *words], stdout=subprocess.PIPE,
                              check=True).stdout.decode()

    def type(self, *keys):
        """Types keys, by their names for tmux."""
        self.tmux("send-keys", *keys)

    def type_line(self, text):
        """Types a line."""
        self.tmux("send-keys", "-l", text)
        self.type("Enter")

    def wait(self, text, times=1, more=()):
        """Waits until the screen has a text so often: the screen."""
        end = time.monotonic() + SECONDS
        while True:
            screen = self.tmux("capture-pane", "-p", *more)
            if screen.count(text) >= times:
                return screen
            if time.monotonic() > end:
                self.fail(f"no {text!r} on the screen:\n{screen}")
            time.sleep(0.05)

    def test_steps_history_and_end(self):
        self.start("dispenser.lotos")
        self.wait("lotos 0>")
        self.type_line("1 fifty")
        self.wait("lotos 1>")
        self.type("Up", "Enter")
        self.wait("refused 804 BadTerm 212")
        screen = self.wait("lotos 1>", 2, ("-e",))
        self.assertIn("\x1b[31mrefused", screen)
        self.assertIn("\x1b[32mdid", screen)
        self.type("C-d")
        self.wait("status 0")
        self.assertTrue(os.path.exists("state/lotos-shell/history"))

    def test_the_prompt_counts_branches_and_steps(self):
        self.start("dispenser.lotos")
        for line, prompt in (("1 fifty", "lotos 1>"), ("1 coffee", "lotos 2>"), ("back", "lotos 1/2>"), ("2", "lotos 2:2>"),
                             ("back 2", "lotos 1:0/2>"), ("goto 1:", "lotos 1:2>")):
            self.type_line(line)
            self.wait(prompt)

    def test_completion(self):
        self.start("alternating_bit.lotos")
        self.wait("lotos 0>")
        self.type("-l", "ste")
        self.type("Tab")
        self.wait("> step")
        self.type("-l", "1 Suc")
        self.type("Tab")
        self.wait("> step 1 Succ(")
        self.type("-l", "0)")
        self.type("Enter")
        self.wait("did put !1")
        self.type("-l", "replay alternating_bit.t")
        self.type("Tab")
        self.wait("alternating_bit.trace")
        self.type("Enter")
        self.wait("replayed 14")
        self.wait("lotos 14>")

    def test_ctrl_c_ends_a_long_command_and_keeps_the_session(self):
        self.start("s.lotos", self.stand_in())
        self.wait("lotos 0>")
        self.type_line("step 1")
        self.wait("lotos 1>")
        self.type_line("normal hang")
        end = time.monotonic() + SECONDS
        while not os.path.exists("hanging") and time.monotonic() < end:
            time.sleep(0.05)
        self.type("C-c")
        self.wait("# the session goes on behind step 1")
        self.type_line("back 1")
        self.wait("lotos 0/1>")
        self.type("-l", "half a line")
        self.wait("half a line")
        time.sleep(0.5)
        self.type("C-c")
        self.wait("lotos 0/1>", 2)

    def test_a_program_that_dies(self):
        self.start("s.lotos", self.stand_in())
        self.wait("lotos 0>")
        self.type_line("step 1")
        self.wait("lotos 1>")
        self.type_line("normal die")
        self.wait("# the session goes on behind step 1")
        self.write("die-at-once", "")
        self.type_line("normal die")
        self.wait("status 139")

    def test_a_save_over_a_file_is_asked(self):
        self.start("dispenser.lotos")
        self.wait("lotos 0>")
        self.write("kept", "")
        self.type_line("save kept")
        self.wait("# kept is there. Write over it? [y/N]")
        self.type_line("n")
        self.wait("# not saved: kept is there")
        self.type_line("save kept")
        self.wait("[y/N]", 2)
        self.type_line("y")
        self.wait("saved kept")

    def test_a_narrow_terminal_and_a_long_menu(self):
        choices = "\n[] ".join(f"gate_number_{count}; stop" for count in range(60))
        gates = ", ".join(f"gate_number_{count}" for count in range(60))
        self.write("many.lotos", f"specification Many [{gates}] : noexit behaviour {choices} endspec")
        self.start("many.lotos", columns=24, lines=20)
        self.wait("lotos 0>")
        screen = self.wait("more: menu")
        left = int(screen.partition("# and ")[2].partition(" more")[0])  # A terminal may get its height after the first menu.
        self.assertIn(left, (41, 45))
        self.assertIn(f"{60 - left}: gate_number_{59 - left}", screen)
        self.type_line("find _59")
        self.wait("60: gate_number_59")
        self.wait("# 1 of 60")

    def test_bytes_that_would_change_the_terminal_are_shown(self):
        self.start("s.lotos", self.stand_in())
        self.wait("lotos 0>")
        self.type_line("normal bytes")
        self.wait("\\xff \\x1b[31m")

    def test_names_and_numbers_are_on_and_one_switch_turns_them_off(self):
        self.start("alternating_bit.lotos")
        self.wait("lotos 0>")
        self.type_line("1 2")
        self.wait("1: i (send !2 !false, hidden in Alternating_Bit)")
        self.type("C-d")
        self.wait("status 0")
        self.stop()
        self.start("--plain alternating_bit.lotos")
        self.wait("lotos 0>")
        self.type_line("1 2")
        self.wait("refused 801 BadCommand")
        self.type_line("step 1 Succ(0)")
        self.wait("did put !Succ(0)")
        self.wait("1: i\n")

    def test_several_lines_that_are_pasted(self):
        self.start("alternating_bit.lotos", lines=40)
        self.wait("lotos 0>")
        self.tmux("set-buffer", "step put 1\nauto\n3\n2\n")
        self.tmux("paste-buffer", "-p")
        self.wait("auto")
        self.type("Enter")
        self.wait("did get !1")
        self.wait("lotos 4>")
        self.type("Up", "Up", "Up", "Up", "Enter")
        self.wait("step put 1", 2)
        self.assertEqual(read("state/lotos-shell/history").split("\n")[:4], ["step put 1", "auto", "3", "2"])

    def test_lines_that_wait_are_thrown_away_by_ctrl_c(self):
        self.start("s.lotos", self.stand_in())
        self.wait("lotos 0>")
        self.tmux("set-buffer", "step 1\nnormal hang\nstep 1\nstep 1\n")
        self.tmux("paste-buffer", "-p")
        self.type("Enter")
        end = time.monotonic() + SECONDS
        while not os.path.exists("hanging") and time.monotonic() < end:
            time.sleep(0.05)
        self.type("C-c")
        self.wait("# the session goes on behind step 1")
        self.type_line("show")
        self.wait("refused 801")
        self.assertNotIn("lotos 2>", self.wait("lotos 1>", 2))

    def test_no_colours_where_they_are_not_wanted(self):
        for more, words in (("NO_COLOR=1", ""), ("", "--color never")):
            with self.subTest(more):
                self.start(f"{words} alternating_bit.lotos", more=more)
                self.wait("lotos 0>")
                self.type_line("1 1")
                screen = self.wait("lotos 1>", 1, ("-e",))
                self.assertNotRegex(screen, "\x1b\\[[0-9;]*[34]?[0-7]m")
                self.stop()

    def test_a_search_tells_how_far_it_is_and_ends_by_ctrl_c(self):
        self.start("sliding_window.lotos with 2", columns=110)
        self.wait("lotos 0>")
        self.type_line("until nowhere")
        self.wait(" steps far")
        self.type("C-c")
        self.wait("# found no way: stopped by Ctrl-C (")
        self.wait("lotos 0>", 2)
        self.assertNotIn(" steps far", self.wait("lotos 0>"))
        self.type_line("until put !2")
        self.wait("did put !2")
        self.wait("lotos 1>")

    def test_values_that_fit_and_the_marks_are_completed(self):
        self.start("entries.lotos", lines=30)
        self.wait("lotos 0>")
        self.type("-l", "1 ")
        self.type("Tab")
        self.wait("0, 1")
        self.wait("fits", 3)
        self.type("C-c")
        self.wait("lotos 0>", 2)
        self.type_line("mark beginning")
        self.wait("# beginning is 1:0")
        self.type("-l", "goto b")
        self.type("Tab")
        self.wait("goto beginning")

    def test_a_menu_of_thousands_of_entries(self):
        parts = ["(" + " [] ".join(f"g !c{one} !c{other}; stop" for other in range(45)) + ")" for one in range(45)]
        names = ", ".join(f"c{count}" for count in range(45))
        text = f"specification Many [g] : noexit type C is sorts C opns {names} : -> C endtype behaviour {' [] '.join(parts)} endspec"
        self.write("many.lotos", text)
        self.start("many.lotos", columns=60)
        self.wait("# and 2006 more: menu")
        self.type("-l", "202")
        self.type("C-a")
        self.type("-l", "step ")
        self.type("C-e", "Tab")
        self.wait("2020")
        self.type("C-c")
        self.type_line("step g !c44 !c43")
        self.wait("did g !c44 !c43")

    def test_without_prompt_toolkit_lines_are_read_as_before(self):
        self.write("prompt_toolkit.py", "raise ImportError")
        self.start("alternating_bit.lotos", more=f"PYTHONPATH={self.folder}")
        self.wait("lotos 0>")
        self.type("-l", "ste")
        self.type("Tab")
        self.type("-l", "1 Suc")
        self.type("Tab")
        self.type("-l", "0)")
        self.type("Enter")
        self.wait("did put !1")
        self.type_line("back")
        self.wait("lotos 0/1>")
