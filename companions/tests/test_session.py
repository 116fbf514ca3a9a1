"""How the end of each answer is told: on all examples, on each line and refusal, and where the program dies."""
import os
import time
import unittest

from .helpers import PROGRAM, FolderTest, sessions
from lotos_companion.program import NoProgram, Words, WrongWords, find_program
from lotos_companion.session import Ended, Session

SPEC = ("specification S [g, h] : noexit library NaturalNumber endlib\n"
        " behaviour g ?x:Nat [x lt Succ(Succ(0))]; h !x; stop endspec\n")
MENU = ("events 1", "1: g !$1 for $1:Nat if $1 lt Succ(Succ(0)) = true")
MENU_BEHIND = ("events 1", "1: h !0")
TRACE = ("lotos-trace 2 S", "1 0 => g !0", "at h !0; stop")

# Lines one after another, each with its whole answer.
LINES = [
    ("menu", MENU),
    ("", ()),
    (" \t ", ()),
    ("undo", ("nothing to undo",)),
    ("trace", ("lotos-trace 2 S",)),
    ("step", ("refused 801 BadCommand",)),
    ("step 01", ("refused 801 BadCommand",)),
    ("Menu", ("refused 801 BadCommand",)),
    ("menu x", ("refused 801 BadCommand",)),
    ("trace x", ("refused 801 BadCommand",)),
    ("undo x", ("refused 801 BadCommand",)),
    ("show x", ("refused 801 BadCommand",)),
    ("quit x", ("refused 801 BadCommand",)),
    ("save", ("refused 801 BadCommand",)),
    ("replay", ("refused 801 BadCommand",)),
    ("end-of-answer", ("refused 801 BadCommand",)),
    ("jump", ("refused 801 BadCommand",)),
    ("\udcff", ("refused 801 BadCommand",)),
    ("step 2 0", ("refused 802 NoEntry 2 of 1",)),
    ("step 1", ("refused 803 ValueCount wanted 1 given 0",)),
    ("step 1 x", ("refused 804 BadTerm 211",)),
    ("step 1 \udcff", ("refused 804 BadTerm 101",)),
    ("step 1 Succ(Succ(0))", ("refused 806 Unmet false is not true",)),
    ("replay none", ("refused 807 Unread none",)),
    ("save .", ("refused 808 Unwritten .",)),
    ("replay bad", ("refused 810 BadLine line 2",)),
    ("replay other", ("refused 811 LabelDiffers line 2 kept g !0 found g !Succ(0)",)),
    ("replay far", ("refused 812 Step line 2 802",)),
    ("replay alien", ("refused 813 OtherSpecification kept Other found S",)),
    ("replay changed", ("refused 814 StateDiffers line 3 kept stop found h !0; stop",)),
    ("normal 0 + 0", ("0",)),
    ("normal", ("refused 801 BadCommand",)),
    ("equal 0, 0 + 0", ("equal",)),
    ("equal 0, Succ(0)", ("different",)),
    ("equal 0", ("refused 801 BadCommand",)),
    ("step 1 0", ("did g !0", *MENU_BEHIND)),
    ("trace", TRACE),
    ("save a b \u00e9", ("saved a b \u00e9",)),
    ("show", ("h !0; stop",)),
    ("undo", ("undone", *MENU)),
    ("replay a b \u00e9", ("replayed 1", *MENU_BEHIND)),
    ("step 1", ("did h !0", "events 0")),
    ("menu", ("events 0",)),
    ("quit", ()),
]


class AnswersOfTheProgram(FolderTest):
    """Lines that the built program answers."""

    def test_sessions_of_the_examples(self):
        for name, words, typed, report, saved in sessions():
            with self.subTest(name):
                for trace in saved:
                    os.remove(trace)
                self.assertEqual(self._report(words, typed), report)

    def _report(self, words, typed):
        """All answers of a session, asked line by line."""
        session = Session(PROGRAM, Words.read(words))
        try:
            lines = list(session.opening().lines)
            for line in typed.split("\n"):
                lines += session.ask(line).lines
                if line == "quit":
                    break
        except Ended as end:
            lines = list(end.lines)
        session.kill()
        return "".join(it + "\n" for it in lines)

    def test_each_line_and_refusal(self):
        self.write("s.lotos", SPEC)
        self.write("bad", "lotos-trace 1\ng !0\n")
        self.write("other", "lotos-trace 1\n1 Succ(0) => g !0\n")
        self.write("far", "lotos-trace 1\n5 => i\n")
        self.write("alien", "lotos-trace 2 Other\n")
        self.write("changed", "lotos-trace 2 S\n1 0 => g !0\nat stop\n")
        session = Session(PROGRAM, Words(("s.lotos",)))
        self.assertEqual(session.opening().menu.lines, MENU[1:])
        for line, answer in LINES:
            with self.subTest(line):
                self.assertEqual(session.ask(line).lines, answer)
        self.assertEqual(session.close(), 0)

    def test_specifications_that_are_not_accepted(self):
        self.write("bad.lotos", "specification S : noexit behaviour g; stop endspec")
        for words, status, line in ((["bad.lotos"], 1, "refused 301 UnknownGate at bad.lotos:1:36 g"),
                                    (["none.lotos"], 3, "cannot read none.lotos")):
            with self.subTest(line), self.assertRaises(Ended) as caught:
                Session(PROGRAM, Words.read(words)).opening()
            self.assertEqual((caught.exception.status, caught.exception.lines), (status, (line,)))


class EndsOfTheProgram(FolderTest):
    """A program that ends before its time."""

    with_examples = False

    def _opened(self):
        session = Session(self.stand_in(), Words(("s",)))
        self.addCleanup(session.kill)
        session.opening()
        return session

    def test_death_in_an_answer(self):
        for line, status, lines in (("normal die", -11, ()), ("normal half", 6, ("Succ(",))):
            with self.subTest(line), self.assertRaises(Ended) as caught:
                self._opened().ask(line)
            self.assertEqual((caught.exception.status, caught.exception.lines), (status, lines))

    def test_death_before_the_first_line(self):
        self.write("die-at-once", "")
        with self.assertRaises(Ended) as caught:
            Session(self.stand_in(), Words(("s",))).opening()
        self.assertEqual((caught.exception.status, caught.exception.lines), (-11, ()))

    def test_a_line_that_nobody_knows_may_have_a_longer_answer(self):
        session = self._opened()
        self.assertEqual(session.ask("long").lines, ("one", "two", "three"))
        self.assertEqual(session.ask("menu").lines, ("events 1", "1: g"))

    def test_a_busy_program_is_ended(self):
        session = self._opened()
        session._write("normal hang")
        while not os.path.exists("hanging"):
            time.sleep(0.01)
        session.kill()

    def test_what_is_no_program(self):
        self.write("plain", "")
        for name in ("plain", "./none", "none-in-the-path", "."):
            with self.subTest(name), self.assertRaises(NoProgram):
                find_program(name)

    def test_a_launcher_without_a_program(self):
        os.makedirs("crates/lotos_main/out")
        os.rename(self.stand_in(), "lotos")
        with self.assertRaises(NoProgram) as caught:
            find_program("./lotos")
        self.assertIn("./lotos build", str(caught.exception))


class WordsOfTheLine(unittest.TestCase):
    """The words behind `run`."""

    def test_words(self):
        self.assertEqual(Words.read(["a", "b"]), Words(("a", "b")))
        self.assertEqual(Words.read(["a", "with"]), Words(("a",), ()))
        self.assertEqual(Words.read(["a", "with", "0", "with"]).line("run"), ["run", "a", "with", "0", "with"])
        for wrong in ([], ["with", "0"], ["a", "b", "c"]):
            with self.subTest(wrong), self.assertRaises(WrongWords):
                Words.read(wrong)
