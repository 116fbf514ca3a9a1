"""Decimal numbers for numerals: overloaded noughts, names that the data declare, and the values of parameters."""
from .helpers import PROGRAM, FolderTest
from lotos_companion.data_names import Operation
from lotos_companion.numbers import Numbers
from lotos_companion.play import Play
from lotos_companion.program import Words
from lotos_companion.signature import Signature

# `1` and `2` are what they seem, `4` is five, and `3` and `7` are constants of another kind.
DIGITS = """specification Digits [g] (n : Nat) : noexit library NaturalNumber endlib
type Octet is NaturalNumber renamedby sortnames Octet for Nat opnnames 0 for 0 endtype
type Names is NaturalNumber, Octet
  opns 1, 2, 4, 7 : -> Nat 3 : -> Octet
  eqns ofsort Nat 1 = Succ(0); 2 = Succ(1); 4 = Succ(Succ(Succ(Succ(Succ(0)))));
endtype
behaviour g ?x:Nat ?y:Octet; g !x !y !n; stop endspec
"""


def numbers(play):
    """The numbers of a play."""
    return Numbers(play.signature, lambda one, other: play.ask(f"equal {one}, {other}").first == "equal")


class Both(FolderTest):
    """The two ways, with the program that says what is equal."""

    def test_usual_ones(self):
        plain = Numbers()
        self.assertEqual(plain.to_numerals("f(2, x1, 0) (* 3 *) + 1"), "f(Succ(Succ(0)), x1, 0) (* 3 *) + Succ(0)")
        self.assertEqual(plain.to_decimals("f(Succ(Succ(0)), 0, Succ(x)) !Succ(0)"), "f(2, 0, Succ(x)) !1")
        self.assertEqual(plain.to_decimals("Succ(Succ(0))), aSucc(0)"), "2), aSucc(0)")

    def test_data_without_numerals(self):
        none = Numbers(Signature((Operation("3", False, (), "S"),)))
        self.assertEqual((none.to_numerals("2 of S, 3"), none.to_decimals("Succ(0)")), ("2 of S, 3", "Succ(0)"))

    def test_overloaded_noughts_and_declared_names(self):
        self.write("digits.lotos", DIGITS)
        play = Play(PROGRAM, Words(("digits.lotos",), ("0",)))
        self.addCleanup(play.kill)
        play.open()
        both = numbers(play)
        for number, sort, shown in ((1, "Nat", "1 of Nat"), (2, "Nat", "2 of Nat"), (3, "Nat", "3 of Nat"), (5, "Octet", "5 of Octet"),
                                    (4, "Nat", None), (7, "Nat", None), (3, "Octet", None), (4, "Octet", "4 of Octet")):
            numeral = "Succ(" * number + f"0 of {sort}" + ")" * number
            self.assertEqual(both.to_decimals(numeral), shown or numeral)
            if shown:  # What is shown can be typed.
                self.assertEqual(play.ask(f"normal {both.to_numerals(shown)}").first, numeral)
        self.assertEqual(both.readings("5 + 7"), ["Succ(Succ(Succ(Succ(Succ(0))))) + 7",
                                                  "Succ(Succ(Succ(Succ(Succ(0))))) + Succ(Succ(Succ(Succ(Succ(Succ(Succ(0)))))))"])
        self.assertEqual(both.readings("7 of Nat"), ["7 of Nat"])


class InTheShell(FolderTest):
    """Numbers that are typed and shown."""

    def shell(self, typed, *words):
        """What the shell writes behind its first menu."""
        status, output, said = self.run_companion("lotos-shell", "--numbers", *words, typed=typed)
        self.assertEqual((status, said), (0, ""))
        return output.split("\n")[4:-1]

    def test_values_of_an_overloaded_nought(self):
        self.write("digits.lotos", DIGITS)
        said = self.shell("step 1 5, 5\nnormal 2 + 1\nnormal 6 of Octet\n", "digits.lotos", "with", "6")
        self.assertEqual([it for it in said if not it.startswith("#")],
                         ["did g !5 of Nat !5 of Octet", "events 1", "1: g !5 of Nat !5 of Octet !6 of Nat", "3 of Nat", "6 of Octet"])

    def test_a_name_of_another_sort_is_no_hindrance(self):
        self.write("digits.lotos", DIGITS)
        said = self.shell("step 1 3, 3\nstep 1 0, 7\n", "digits.lotos", "with", "3")
        self.assertIn("did g !3 of Nat !3", said)
        self.assertIn("1: g !3 of Nat !3 !3 of Nat", said)

    def test_values_of_parameters(self):
        said = self.shell("1\n", "car_park.lotos", "with", "2", "true")
        self.assertIn("did enter", said)
        status, output, _ = self.run_companion("lotos-shell", "car_park.lotos", "with", "2", "true")
        self.assertEqual((status, output.split(" at ")[0]), (1, "refused 211 UnknownName"))
