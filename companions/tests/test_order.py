"""Order files that are computed, which the program has to accept."""
import json
import os
import random
import re
import subprocess
import sys
import unittest
from dataclasses import replace
from itertools import combinations

import pytest

from .helpers import EXAMPLES, HERE, PROGRAM, FolderTest, read
from .shuffled import shuffled
from lotos_companion.checking.check import sources_of
from lotos_companion.checking.desk import Desk
from lotos_companion.checking.sources import Sources
from lotos_companion.language import has_grammar
from lotos_companion.ordering.data import Node, Operation, Signature, Variable
from lotos_companion.ordering.demands import Above, Compared, Comparisons, Side
from lotos_companion.ordering.finding import find_order
from lotos_companion.ordering.order_file import Listing, PathOrder
from lotos_companion.ordering.report import fault_lines
from lotos_companion.ordering.smallest import Conflict, smallest_conflict
from lotos_companion.ordering.solving import Search
from lotos_companion.program import Words

INPUTS = os.path.join(HERE, "texts", "orders")
WORDS = {"car_park": ["with", "Succ(0)", "true"], "sliding_window": ["with", "Succ(Succ(0))"]}
# Equations that cannot all be turned: what stands in the type, and what is said of it.
REFUSED = (
    ("opns f, g : S -> S eqns forall x : S ofsort S f(s(x)) = g(s(x)); g(x) = f(x);", ("together", "f above g", "g above f")),
    ("opns f, g, h, p, q : S -> S eqns forall x : S ofsort S p(x) = q(x); f(x) = g(x); g(x) = h(x); h(x) = f(x); q(x) = p(x);",
     ("no order turns these 2 together, and no smaller set of equations conflicts:", "p above q", "q above p")),
    ("opns p, q : S, S -> S eqns forall x, y : S ofsort S p(x, s(y)) = p(s(x), y); p(s(x), y) = q(p(x, s(y)), x); "
     "q(x, y) = p(x, s(y));", ("together", "wants")),
    ("opns p : S, S -> S eqns forall x, y : S ofsort S p(x, y) = p(y, x);", ("no order turns p(x, y) = p(y, x)", "only swaps")),
    ("opns p : S -> S eqns forall x, y : S ofsort S p(x) = y;", ("y stands on its right side alone",)),
    ("opns p : S, S -> S eqns forall x, y : S ofsort S p(x, z) = x; p(x, y) = s(p(p(x, y), y));", ("calls itself by p(p(x, y), y)", "count down")),
)


def text_with(rest):
    """A specification of numbers with further operations and equations."""
    return f"specification T [g] : noexit type T is sorts S opns z : -> S s : S -> S {rest[len('opns'):]} endtype\n" \
           "behaviour stop endspec\n"


def many_equations(count, seed):
    """A text with so many equations, whose operations are declared in any order."""
    chance = random.Random(seed)
    operations, equations = [], []
    for k in range(count // 4):
        other = f"g{chance.randrange(k)}(x)" if k else "x"
        operations += [f"f{k} : N, N -> N", f"g{k} : N -> N"]
        equations += [f"f{k}(x, z) = x", f"f{k}(x, s(y)) = s(f{k}(x, y))", f"g{k}(z) = z", f"g{k}(s(x)) = f{k}(g{k}(x), {other})"]
    chance.shuffle(operations)
    lines = "\n".join(operations), ";\n".join(equations)
    return f"specification B [g] : noexit type T is sorts N opns z : -> N s : N -> N\n{lines[0]}\n" \
           f"eqns forall x, y : N ofsort N\n{lines[1]}\nendtype behaviour g !z; stop endspec\n"


class Demands(unittest.TestCase):
    """What is demanded for one term to be greater, and the search of an order that meets demands."""

    def test_of_two_operations_and_of_one(self):
        x, y = Variable("x"), Variable("y")
        greater = Comparisons().greater
        self.assertEqual((frozenset((Above(1, 0),)),), greater(Node(1, (x,)), Node(0, (x, x))))
        self.assertEqual((frozenset(),), greater(Node(1, (Node(0, (x,)),)), Node(1, (x,))))
        self.assertEqual((), greater(Node(1, (x,)), y))
        self.assertEqual((), greater(Node(1, (x, y)), Node(1, (y, x))))
        self.assertEqual((frozenset((Above(2, 1), Compared(2, Side.RIGHT))),),
                         greater(Node(2, (x, Node(1, (y,)))), Node(2, (Node(1, (x,)), y))))

    def test_a_conflict_is_a_smallest_one(self):
        above = [tuple([frozenset((Above(f, g),))]) for f, g in ((0, 1), (3, 4), (1, 2), (4, 5), (2, 0), (5, 6))]
        self.assertEqual([0, 2, 4], Search(7).conflict(above))
        self.assertEqual([0, 2, 4], Search(7).conflict(above, True))
        self.assertIsNone(Search(7).solve(above))
        self.assertIsNotNone(Search(7).solve(above[:4]))

    def test_of_two_circles_the_smaller_one(self):
        """Both ways to leave out parts one after another end with the circle of three."""
        above = [tuple([frozenset((Above(f, g),))]) for f, g in ((0, 1), (2, 3), (3, 4), (4, 2), (1, 0))]
        search = Search(5)
        self.assertEqual(([1, 2, 3], [1, 2, 3]), (search.conflict(above), search.conflict(above, True)))
        self.assertEqual(Conflict([0, 4], True), smallest_conflict(search, above))
        self.assertEqual(Conflict([1, 2, 3], False), smallest_conflict(search, above, 0))

    def test_no_set_of_fewer_parts_conflicts(self):
        chance, seen = random.Random(4), set()
        for _ in range(150):
            count = chance.randint(3, 6)
            parts = [tuple({frozenset(Above(*chance.sample(range(count), 2)) for _ in range(chance.randint(1, 2)))
                            for _ in range(chance.randint(1, 2))}) for _ in range(chance.randint(4, 9))]
            search = Search(count)
            if search.solve(parts) is None:
                found = smallest_conflict(search, parts)
                self.assertTrue(found.is_smallest)
                self.assertIsNone(search.solve([parts[it] for it in found.parts]))
                for fewer in combinations(parts, len(found.parts) - 1):
                    self.assertIsNotNone(search.solve(fewer))
                irreducible = min(len(search.conflict(parts, it)) for it in (False, True))
                seen.add(irreducible > len(found.parts))
        self.assertEqual({False, True}, seen)

    def test_a_wrong_choice_is_taken_back(self):
        """Each way that is nearest to the declarations leads into a circle, so that another one is wanted."""
        either = (frozenset((Above(2, 1),)), frozenset((Above(0, 1),)))
        others = [(frozenset((Above(1, 3),)), frozenset((Above(1, 2),))), (frozenset((Above(3, 1),)), frozenset((Above(1, 2),)))]
        found = Search(4).solve([either, *others])
        self.assertTrue(found.holds(Above(0, 1)) and found.holds(Above(1, 2)))


@unittest.skipUnless(has_grammar(), "order files, since there is no python3-lark")
class Orders(FolderTest):
    def order(self, *words, program=PROGRAM):
        """The status, the output and what is said of a computation."""
        return self.run_companion("lotos-order", *words, program=program)

    def test_texts_whose_operations_stand_in_the_wrong_order_are_accepted_with_the_file(self):
        for name in sorted(os.listdir(INPUTS)):
            path = os.path.join(INPUTS, name)
            without = subprocess.run([PROGRAM, "check", path], stdout=subprocess.PIPE, check=False).stdout.decode()
            self.assertIn("refused 601", without)
            status, found, said = self.order(path, "-o", "found.order")
            self.assertEqual((0, "", "lotos-order: found.order is written, and accepted\n"), (status, found, said))
            done = subprocess.run([PROGRAM, "check", path, "found.order"], stdout=subprocess.PIPE, check=False)
            self.assertRegex(done.stdout.decode(), r"^accepted ")
        self.assertEqual("cheap;\n", self.order(os.path.join(INPUTS, "drinks.lotos"))[1])

    def test_an_equation_that_no_order_turns_is_told_with_what_to_do(self):
        """The text of lists, with a division that calls itself by a difference; with an argument that counts down it is turned."""
        text = read(os.path.join(INPUTS, "lists.lotos")).replace("mod : Nat", "mod, div : Nat").replace(
            "      ifn(true", "      div(x, y) = ifn(x lt y, 0, Succ(div(x - y, y)));\n      ifn(true")
        self.write("division.lotos", text)
        status, found, said = self.order("division.lotos", "-o", "division.order")
        self.assertEqual((1, "", False), (status, found, os.path.exists("division.order")))
        line = text[:text.index("div(x, y)")].count("\n") + 1
        self.assertIn(f"no order turns div(x, y) = ifn(x lt y, 0, Succ(div(x - y, y))) at division.lotos:{line}:7 from left to right:\n"
                      "  div calls itself by div(x - y, y), where the first argument that changes is no part of what it was: let a new "
                      "argument count down (docs/REFUSALS.md, 602)\n", said)
        self.write("division.lotos", text.replace("div : Nat, Nat -> Nat", "div : Nat, Nat -> Nat d : Nat, Nat, Nat -> Nat").replace(
            "div(x, y) = ifn(x lt y, 0, Succ(div(x - y, y)));",
            "div(x, y) = d(x, x, y); d(0, x, y) = 0; d(Succ(n), x, y) = ifn(x lt y, 0, Succ(d(n, x - y, y)));"))
        self.assertEqual(0, self.order("division.lotos", "-o", "division.order")[0])

    def test_only_what_has_to_be_is_listed(self):
        for spec, wanted in (("countdown.lotos", "_-_;\n"), ("shop.lotos", "(* No operation has to be listed. *)\n")):
            self.assertEqual((0, wanted, ""), self.order(spec))

    def test_each_equation_is_listed_as_it_is_turned(self):
        status, listed, said = self.order("--list", "countdown.lotos")
        self.assertEqual(0, status)
        self.assertIn("the program accepts the equations with this order", said)
        self.assertEqual(32, len(listed.splitlines()))
        place = next(number for number, it in enumerate(read("countdown.lotos").splitlines(), 1) if "x - Succ(y) =" in it)
        for line in ("library NaturalNumber:13:3: x * 0 -> 0", f"countdown.lotos:{place}:7: x - Succ(y) -> pred(x - y)"):
            self.assertIn(line, listed.splitlines())
        self.write("t.lotos", text_with("opns f : S -> S eqns forall x : S ofsort S x = f(x);"))
        status, listed, said = self.order("--list", "t.lotos")
        place = read("t.lotos").index("x = f(x)") + 1
        self.assertEqual((0, f"t.lotos:1:{place}: f(x) -> x  (from right to left)\n"), (status, listed))
        listed = self.order("--list", os.path.join(INPUTS, "queues.lotos"))[1]
        for it in ("back(q) -> move(none, q)  (back : Numbers -> Numbers)", "back(q) -> move(none, q)  (back : Words -> Words)"):
            self.assertIn(it, listed)
        self.assertIn("accepts it from right to left", said)

    def test_where_there_is_none_it_says_why(self):
        with Desk(PROGRAM) as desk:
            for rest, wanted in REFUSED:
                found = find_order(desk, Sources(Words(("t",)), {"t": text_with(rest).encode()}))
                self.assertFalse(found.is_accepted)
                said = "\n".join(fault_lines(found))
                for it in wanted:
                    self.assertIn(it, said)
            found = find_order(desk, Sources(Words(("t",)), {"t": text_with(REFUSED[0][0]).encode()}))
        self.write("t.lotos", text_with(REFUSED[0][0]))
        status, output, said = self.order("t.lotos", "-o", "t.order")
        self.assertEqual((1, "", False), (status, output, os.path.exists("t.order")))
        self.assertIn("no order turns these 2 together, and no smaller set of equations conflicts:\n", said)
        said = "\n".join(fault_lines(replace(found, is_smallest=False)))
        self.assertRegex(said, "the set is irreducible, and was not shown smallest in [0-9]+ seconds:")

    def test_what_is_printed_as_json(self):
        self.write("t.lotos", text_with(REFUSED[0][0]))
        status, found, _ = self.order("--json", "t.lotos")
        result = json.loads(found)
        self.assertEqual((1, False, 2, True, []), (status, result["accepted"], len(result["conflict"]), result["conflict_is_smallest"],
                                                   result["unturnable"]))
        status, found, _ = self.order("--json", "countdown.lotos")
        self.assertEqual((0, "_-_;\n"), (status, json.loads(found)["order"]))

    def test_another_refusal_is_shown_as_it_is(self):
        self.write("t.lotos", "specification T [g] : noexit behaviour h; stop endspec\n")
        status, found, said = self.order("t.lotos")
        self.assertEqual((1, "refused 301 UnknownGate at t.lotos:1:40 h\n"), (status, found))
        self.assertIn("another reason", said)
        self.assertEqual((3, "cannot read none.lotos\n"), self.order("none.lotos")[:2])
        status, _, said = self.order("countdown.lotos", "-o", "no_folder/t.order")
        self.assertEqual((5, "lotos-order: no_folder/t.order: No such file or directory\n"), (status, said))
        self.assertEqual(2, self.order()[0])
        self.assertEqual(2, self.order("t.lotos", "t.order")[0])

    def test_nothing_is_written_that_the_program_does_not_accept(self):
        """Equations that can be turned and do not join."""
        self.write("t.lotos", text_with("opns f : S -> S eqns forall x : S ofsort S f(x) = z; f(z) = s(z);"))
        status, found, said = self.order("t.lotos", "-o", "t.order")
        self.assertEqual((1, "", False), (status, found, os.path.exists("t.order")))
        self.assertIn("refused 602 Unjoined", said)

    def test_deep_terms_and_many_ways_to_turn_an_equation(self):
        self.write("t.lotos", text_with(f"opns f : S -> S eqns forall x : S ofsort S {'s(' * 400}f(x){')' * 400} = x;"))
        self.assertEqual(0, self.order("t.lotos")[0])
        names = [f"{letter}{k}" for letter in "fgh" for k in range(8)]
        wide = "z"
        for it in names[8:]:
            wide = f"m({wide}, {it}(x))"
        equation = f"f0({', '.join(f'{it}(x)' for it in names[1:8])}) = {wide}"
        self.write("t.lotos", text_with(f"opns m : S, S -> S f0 : S, S, S, S, S, S, S -> S {', '.join(names[1:])} : S -> S eqns "
                                        f"forall x : S ofsort S {equation};"))
        self.assertEqual(0, self.order("t.lotos")[0])

    def test_the_order_is_that_of_the_program(self):
        self.compare_orders(12, 1)

    @pytest.mark.slow
    def test_the_order_is_that_of_the_program_for_many_texts(self):
        self.compare_orders(400, 2)

    def compare_orders(self, count, seed):
        """Compares for random equations and order files whether the program turns them."""
        chance = random.Random(seed)
        operations = [Operation("a", False, (), "S"), Operation("b", False, (), "S"), Operation("f", False, ("S",), "S"),
                      Operation("g", False, ("S", "S"), "S"), Operation("h", False, ("S", "S"), "S")]
        signature = Signature(operations)

        def term(depth):
            if depth == 0 or chance.random() < 0.2:
                return chance.choice([Variable("x"), Variable("y"), Node(0), Node(1)])
            number = chance.choice([2, 3, 4, 3, 4])
            return Node(number, tuple(term(depth - 1) for _ in operations[number].arguments))

        answers = set()
        with Desk(PROGRAM) as desk:
            for _ in range(count):
                left, right = term(3), term(3)
                listed = chance.sample(range(5), chance.randrange(6))
                listing = Listing(tuple(listed), tuple(it for it in listed if chance.random() < 0.4))
                order = PathOrder(5, listing)
                text = "specification T : noexit type T is sorts S opns a, b : -> S f : S -> S g, h : S, S -> S eqns " \
                       f"forall x, y : S ofsort S {signature.written(left)} = {signature.written(right)}; endtype " \
                       "behaviour stop endspec"
                given = {"t": text.encode(), "o": listing.text(signature).encode()}
                turned = left == right or order.greater(left, right) or order.greater(right, left)
                outcome = desk.check(Sources(Words(("t", "o")), given))
                is_601 = bool(outcome.refusal) and outcome.refusal.number == 601
                self.assertEqual(turned, not is_601, (text, given["o"], outcome))
                answers.add(is_601)
        self.assertEqual({True, False}, answers)

    def test_shuffled_examples(self):
        self.shuffle(2, 3, ["shop", "countdown"])

    @pytest.mark.slow
    def test_many_shuffled_examples(self):
        self.shuffle(200, 4, [it[:-6] for it in sorted(os.listdir(EXAMPLES)) if it.endswith(".lotos") and "refused" not in it])

    def shuffle(self, count, seed, names):
        """Shuffles the declarations of examples: with the computed order they have the menus and normal forms that they had."""
        chance = random.Random(seed)
        before = {}
        for number in range(count):
            name = names[number % len(names)]
            if name not in before:
                order = [f"{name}.order"] if os.path.exists(f"{name}.order") else []
                words = [f"{name}.lotos", *order]
                typed = self.typed(*words)
                before[name] = typed, self.session(typed, *words, *WORDS.get(name, []))
            text = shuffled(read(f"{name}.lotos"), chance)
            self.write("shuffled.lotos", text)
            with Desk(PROGRAM) as desk:
                found = find_order(desk, sources_of(Words.read(["shuffled.lotos", *WORDS.get(name, [])])))
            self.assertTrue(found.is_accepted and not found.unturnable, "\n".join([*fault_lines(found), text]))
            self.write("shuffled.order", found.text)
            typed, session = before[name]
            self.assertEqual(session, self.session(typed, "shuffled.lotos", "shuffled.order", *WORDS.get(name, [])), text)

    def typed(self, *files):
        """Lines that walk through menus and ask for the normal forms of the sides of all equations, with constants in the
        places of variables."""
        flat = subprocess.run([PROGRAM, "flatten", *files], stdout=subprocess.PIPE, check=False).stdout.decode()
        constants = {sort: name for name, sort in re.findall(r"(?m)^(\w+) : -> (\w+)$", flat)}
        lines = [f"step {1 + number % 2}\nstep 1\nmenu" for number in range(4)]
        for declared, left, right in re.findall(r"(?m)^ofsort \w+ (?:forall ((?:v\d+ : \w+(?:, )?)+) )?(\S.*) = (.*);$", flat):
            sorts = dict(re.findall(r"(v\d+) : (\w+)", declared))
            if all(it in constants for it in sorts.values()):
                lines += ["normal " + re.sub(r"\bv\d+\b", lambda it: f"({constants[sorts[it[0]]]} of {sorts[it[0]]})", side)
                          for side in (left, right)]
        return "".join(f"{it}\n" for it in lines)

    def session(self, typed, *words):
        """What the program prints in a session."""
        done = subprocess.run([PROGRAM, "run", *words], input=typed.encode(), stdout=subprocess.PIPE, check=False)
        self.assertRegex(done.stdout.decode(), r"^accepted ")
        self.assertNotIn("refused 804", done.stdout.decode())
        return done.stdout.decode()

    def test_forty_equations(self):
        self.many(40)

    @pytest.mark.slow
    def test_a_thousand_equations_in_ten_seconds(self):
        self.many(1000)

    def many(self, count):
        """Computes the order of many equations, and looks at the time that is the companion's own."""
        self.write("many.lotos", many_equations(count, 5))
        runner = "import os, resource, sys; from lotos_companion.ordering.tool import main; status = main(sys.argv[1:]); " \
                 "print(resource.getrusage(resource.RUSAGE_SELF).ru_utime, file=sys.stderr); sys.exit(status)"
        done = subprocess.run([sys.executable, "-c", runner, "many.lotos", "-o", "many.order"], stdout=subprocess.PIPE,
                              stderr=subprocess.PIPE, check=False, env={**os.environ, "LOTOS": PROGRAM, "PYTHONPATH": os.path.dirname(HERE)})
        self.assertEqual(0, done.returncode, done.stderr.decode())
        self.assertLess(float(done.stderr.split()[-1]), 10)
        without = subprocess.run([PROGRAM, "check", "many.lotos"], stdout=subprocess.PIPE, check=False).stdout.decode()
        self.assertRegex(without, "refused 60[12]")
