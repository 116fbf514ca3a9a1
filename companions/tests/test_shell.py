"""The shell without a terminal: on all examples, and where things go wrong."""
import os
import signal
import subprocess
import time
import unittest

from .helpers import COMPANIONS, PROGRAM, FolderTest, read, sessions


class Sessions(FolderTest):
    """The sessions of the examples."""

    def test_sessions_of_the_examples_are_answered_as_by_the_program(self):
        for name, words, typed, report, saved in sessions():
            with self.subTest(name):
                for trace in saved:
                    os.remove(trace)
                status, output, said = self.run_companion("lotos-shell", *words, typed=typed)
                self.assertEqual((output, said), (report, ""))
                self.assertEqual(status, 1 if report.startswith("refused") else 0)
                for trace in saved:
                    self.assertTrue(os.path.exists(trace))


class Reloading(FolderTest):
    """A specification that is changed while the shell runs."""

    def test_reload(self):
        text = read("dispenser.lotos")
        shell = subprocess.Popen([f"{COMPANIONS}/lotos-shell", "dispenser.lotos"], stdin=subprocess.PIPE,
                                 stdout=subprocess.PIPE, env={**os.environ, "LOTOS": PROGRAM})
        self.addCleanup(shell.stdout.close)
        self.addCleanup(shell.kill)
        self._says(shell, "1 fifty\n2\n", "did button !tea", "events 0")
        self.write("dispenser.lotos", text.replace("button !tea; stop", "button !tea; cup !tea; stop"))
        self._says(shell, "reload\n", "# 2 of 2 steps taken again", "1: cup !tea")
        self.write("dispenser.lotos", text.replace("[] button !tea; stop", ""))
        self._says(shell, "reload\n", "refused 802 NoEntry 2 of 1", "# step 2 came to button !tea before",
                   "# 1 of 2 steps taken again", "1: button !$1 for $1:Drink")
        self._says(shell, "1 coffee\nundo\n", "undone")
        self.write("dispenser.lotos", text.replace("button ?d:Drink; cup !d", "button !tea; cup !tea"))
        self._says(shell, "reload\n", "# 1 of 1 step taken again", "2: button !tea")
        self._says(shell, "redo\n", "refused 803 ValueCount wanted 0 given 1", "# step 1 coffee came to button !coffee before")
        self._says(shell, "redo\n", "# nothing to redo")
        self._says(shell, "1\nundo\n", "did button !tea", "undone")
        self.write("dispenser.lotos", text.replace("button ?d:Drink; cup !d", "button !coffee; cup !tea"))
        self._says(shell, "reload\nredo\n", "# step 1 came to button !tea before, and comes to button !coffee now")
        self._says(shell, "menu\n", "1: button !coffee", "2: button !tea")
        self.write("dispenser.lotos", "specification")
        self._says(shell, "reload\n", "refused 104 Syntax at dispenser.lotos:1:14", "# the session stays as it was")
        self._says(shell, "menu\n", "2: button !tea")
        shell.stdin.close()
        self.assertEqual(shell.wait(), 0)

    def _says(self, shell, typed, *wanted):
        """Types lines, and looks for what is wanted among the answers."""
        shell.stdin.write(f"{typed}find no such text\n".encode())
        shell.stdin.flush()
        lines = []
        while not lines or not lines[-1].startswith("# 0 of "):
            lines.append(shell.stdout.readline().decode()[:-1])
            self.assertTrue(lines[-1])
        for it in wanted:
            self.assertIn(it, lines)


class Faults(FolderTest):
    """Wrong words, files that are not there, programs that die, outputs that are closed."""

    def test_words(self):
        for words in ([], ["with", "0"], ["a", "b", "c"]):
            with self.subTest(words):
                status, output, said = self.run_companion("lotos-shell", *words)
                self.assertEqual((status, output), (2, ""))
                self.assertTrue(said.startswith("usage: lotos-shell"))

    def test_files(self):
        status, output, _ = self.run_companion("lotos-shell", "none.lotos")
        self.assertEqual((status, output), (3, "cannot read none.lotos\n"))
        status, output, _ = self.run_companion("lotos-shell", "largest_refused.lotos")
        self.assertEqual((status, output), (1, "refused 210 Premised at largest_refused.lotos:9:14\n"))
        status, output, said = self.run_companion("lotos-shell", "buffer.lotos", program="./none")
        self.assertEqual((status, output, said), (70, "", "lotos-shell: ./none is no program that can be run\n"))

    def test_names_of_files_in_other_letters(self):
        name, kept = "b\u00e4 \u4e2d.lotos", "\u00e9 x"
        os.rename("buffer.lotos", name)
        status, output, said = self.run_companion("lotos-shell", name, typed=f"step 1 0\nsave {kept}\nsave {kept}\n")
        self.assertEqual((status, said), (0, ""))
        wanted = [f"saved {kept}", f"# not saved: {kept} is there (save! {kept} writes over it)"]
        self.assertEqual(output.split("\n")[-3:-1], wanted)
        self.assertEqual(read(kept), "lotos-trace 2 Buffer\n1 0 => give !0\n"
                         "at hide pass in Places[give, pass](add(0, empty)) |[pass]| Window[pass, take]\n")

    def test_a_program_that_dies(self):
        status, output, _ = self.run_companion("lotos-shell", "s", program=self.stand_in(), typed="step 1\nnormal die\nmenu\n")
        self.assertEqual((status, output.split("\n")[-2]), (139, "# the program ended by the signal 11"))
        status, output, _ = self.run_companion("lotos-shell", "s", program=self.stand_in(), typed="normal half\n")
        self.assertEqual((status, output.split("\n")[-3:-1]), (6, ["Succ(", "# the program ended with the status 6"]))

    def test_a_shell_that_is_ended_ends_the_program(self):
        self.write("s", "")
        shell = subprocess.Popen([f"{COMPANIONS}/lotos-shell", "s"], stdin=subprocess.PIPE, stdout=subprocess.PIPE,
                                 env={**os.environ, "LOTOS": self.stand_in()})
        self.addCleanup(shell.stdout.close)
        self.addCleanup(shell.stdin.close)
        shell.stdin.write(b"normal hang\n")
        shell.stdin.flush()
        end = time.monotonic() + 60
        while not os.path.exists("hanging") and time.monotonic() < end:
            time.sleep(0.01)
        number = int(read("hanging"))
        shell.send_signal(signal.SIGHUP)
        self.assertEqual(shell.wait(), 128 + signal.SIGHUP)
        self.assertRaises(ProcessLookupError, os.kill, number, 0)

    def test_bytes_go_through_as_they_are(self):
        _, output, _ = self.run_companion("lotos-shell", "s", program=self.stand_in(), typed="normal bytes\n")
        self.assertEqual(output.split("\n")[-2], "\udcff \x1b[31m")

    def test_a_closed_output(self):
        command = f"{COMPANIONS}/lotos-shell buffer.lotos; echo $? >status"
        typed = b"menu\n" * 5000
        subprocess.run(["bash", "-c", f"({command}) | head -n 1"], input=typed, stdout=subprocess.DEVNULL, check=True,
                       env={**os.environ, "LOTOS": PROGRAM}, timeout=120)
        self.assertEqual(read("status"), "5\n")

    def test_streams_that_are_closed_from_the_beginning(self):
        for redirection, wanted in (("<&-", 0), (">&-", 5), ("2>&-", 0), ("<&- >&- 2>&-", 5)):
            with self.subTest(redirection):
                done = subprocess.run(["bash", "-c", f"{COMPANIONS}/lotos-shell buffer.lotos {redirection}"], check=False,
                                      input=b"", stdout=subprocess.PIPE, stderr=subprocess.PIPE,
                                      env={**os.environ, "LOTOS": PROGRAM})
                self.assertEqual((done.returncode, done.stderr), (wanted, b""))

    @unittest.skipUnless(os.path.exists("/dev/full"), "a full output, since there is no /dev/full")
    def test_a_full_output(self):
        with open("/dev/full", "wb") as full:
            done = subprocess.run([f"{COMPANIONS}/lotos-shell", "buffer.lotos"], input=b"", stdout=full, check=False,
                                  stderr=subprocess.PIPE, env={**os.environ, "LOTOS": PROGRAM})
        self.assertEqual(done.returncode, 5)
