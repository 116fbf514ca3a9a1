"""Reading of the program's texts, of traces, and of the names that a specification declares; decimal numbers."""
import unittest

from .helpers import PROGRAM, FolderTest, sessions
from lotos_companion.answers import Entry, Label, split_terms
from lotos_companion.data_names import Operation, read_data_names
from lotos_companion.numbers import USUAL, Numbers
from lotos_companion.signature import Signature
from lotos_companion.program import Words
from lotos_companion.session import Session
from lotos_companion.traces import BadTrace, Step, Trace, read_trace_text


class Entries(unittest.TestCase):
    """Entries and labels."""

    def test_labels(self):
        self.assertEqual(Label.read("i"), Label("i", "i", ()))
        self.assertTrue(Label.read("i").is_internal)
        self.assertEqual(Label.read("g !f(a, b) !$1"), Label("g !f(a, b) !$1", "g", ("f(a, b)", "$1")))
        self.assertEqual(Label.read("exit"), Label("exit", "exit", ()))
        self.assertEqual(Label.read("exit(f(a, b), c)"), Label("exit(f(a, b), c)", "exit", ("f(a, b)", "c")))

    def test_entries(self):
        entry = Entry.read("12: g !$1 !$2 for $1:Nat, $2:Bool if $1 lt 0 = true, f($1, $2) = a")
        self.assertEqual((entry.number, entry.label.gate, entry.sorts), ("12", "g", ("Nat", "Bool")))
        self.assertEqual(entry.variables, ("$1", "$2"))
        self.assertEqual(entry.conditions, "$1 lt 0 = true, f($1, $2) = a")

    def test_an_operation_with_the_name_if(self):
        entry = Entry.read("1: g !a if b")
        self.assertEqual((entry.label.text, entry.conditions), ("g !a if b", ""))

    def test_lists_of_terms(self):
        self.assertEqual(split_terms("f(a, b), c + d ,e"), ["f(a, b)", "c + d", "e"])
        self.assertEqual(split_terms(""), [])


class Traces(unittest.TestCase):
    """The text of a trace."""

    def test_both_formats(self):
        steps = (Step("1", "0, f(a, b)", "g !0 => h", None, 2), Step("10", "", "i", None, 3))
        self.assertEqual(read_trace_text("lotos-trace 1\n1 0, f(a, b) => g !0 => h\n10 => i"), Trace(None, steps))
        text = "lotos-trace 2 Buffer\n1 0 => g !0\nat h !0; stop\n1 => h !0\nat stop\n"
        steps = (Step("1", "0", "g !0", "h !0; stop", 2), Step("1", "", "h !0", "stop", 4))
        self.assertEqual(read_trace_text(text), Trace("Buffer", steps))
        self.assertEqual(read_trace_text("lotos-trace 1\n"), Trace(None, ()))

    def test_what_is_no_trace(self):
        for text, line in (("", 1), ("trace\n", 1), ("lotos-trace 3\n", 1), ("lotos-trace 2 \n", 1),
                           ("lotos-trace 1\r\n", 1), ("lotos-trace 1\n\n", 2), ("lotos-trace 1\n1 => i\n01 => i\n", 3),
                           ("lotos-trace 1\n1 => i\r\n", 2), ("lotos-trace 1\nx => i\n", 2), ("lotos-trace 1\n1 =>\n", 2),
                           ("lotos-trace 2 S\n1 => i\n", 3), ("lotos-trace 2 S\n1 => i\nstop\n", 3)):
            with self.subTest(text), self.assertRaises(BadTrace) as caught:
                read_trace_text(text)
            self.assertEqual(caught.exception.line, line)

    def test_the_line_that_takes_a_step(self):
        self.assertEqual(Step("2", "a, b", "g").line, "step 2 a, b")
        self.assertEqual(Step("2", "", "g").line, "step 2")


class DecimalNumbers(unittest.TestCase):
    """Numerals and decimal numbers."""

    def test_both_ways(self):
        numbers = Numbers()
        for decimal, numeral in (("1", "Succ(0)"), ("f(2, 0)", "f(Succ(Succ(0)), 0)"),
                                 ("g !3 for $1:Nat", "g !Succ(Succ(Succ(0))) for $1:Nat")):
            self.assertEqual(numbers.to_decimals(numeral), decimal)
        self.assertEqual(numbers.to_numerals("f(2, 0) + 1"), "f(Succ(Succ(0)), 0) + Succ(0)")
        self.assertEqual(numbers.to_decimals("MySucc(0) Succ(x) Succ(f(Succ(0)))"), "MySucc(0) Succ(x) Succ(f(1))")

    def test_what_stays(self):
        for text in ("0", "x1", "1a", "a_2", "(* 3 *)", "007", "1000"):
            self.assertEqual(Numbers().to_numerals(text), text)

    def test_names_of_the_data(self):
        two = Operation("2", False, (), "Nat")
        numbers = Numbers(Signature((*USUAL.operations, two)))
        self.assertEqual(numbers.to_numerals("2, 1"), "2, Succ(0)")
        self.assertEqual(numbers.to_decimals("Succ(Succ(0)), Succ(0)"), "Succ(Succ(0)), 1")


class NamesOfTheData(FolderTest):
    """The light reading of a specification's declarations."""

    def test_as_many_operations_as_the_program_says(self):
        for name, words, _, report, _ in sessions():
            head = report.split("\n")[1] if report.startswith("accepted") else ""
            if head and name not in ("shop", "stacks"):
                with self.subTest(name):
                    operations = read_data_names(words[0])
                    self.assertEqual(len(operations), int(head.split(" operations")[0].split(", ")[1]))

    def test_generic_types_and_new_names(self):
        self.write("g.lotos", """specification G : noexit
            type E is formalsorts Elem formalopns none : -> Elem endtype
            type Box is E sorts Box opns full : Elem -> Box _plus_, _##_ : Box, Box -> Box endtype
            type Coins is sorts Coin opns 1, 5 : -> Coin endtype (* type *)
            type CoinBox is Box actualizedby Coins using sortnames Coin for Elem CoinBox for Box opnnames one for full endtype
            behaviour stop endspec""")
        operations = read_data_names("g.lotos")
        for wanted in (Operation("1", False, (), "Coin"), Operation("one", False, ("Coin",), "CoinBox"),
                       Operation("plus", True, ("CoinBox", "CoinBox"), "CoinBox"), Operation("full", False, ("Elem",), "Box"),
                       Operation("##", True, ("CoinBox", "CoinBox"), "CoinBox")):
            self.assertIn(wanted, operations)

    def test_texts_that_are_none(self):
        for text in ("", "type", "type T is opns", "type T is opns a : b", "library X endlib type T is T endtype", "\udcff(*"):
            with self.subTest(text):
                self.write("t.lotos", text)
                self.assertEqual(read_data_names("t.lotos"), [])
        self.assertEqual(read_data_names("none"), [])
        self.assertEqual(read_data_names("."), [])

    def test_the_libraries_that_come_with_the_program(self):
        self.write("n.lotos", "specification S : noexit library NaturalNumber endlib behaviour stop endspec")
        session = Session(PROGRAM, Words(("n.lotos",)))
        session.opening()
        for it in read_data_names("n.lotos"):
            terms = ["0" if sort == "Nat" else "true" for sort in it.arguments]
            text = f" {it.name} ".join(terms) if it.infix else it.name + (f"({', '.join(terms)})" if terms else "")
            with self.subTest(text):
                self.assertNotIn("refused", session.ask(f"normal (({text}) of {it.result})").first)
        session.kill()
