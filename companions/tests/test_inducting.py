"""Proofs that are searched: the program has to accept what is found, and says itself what is open or false."""
import json
import os
import re
import shutil
import subprocess
import tempfile
import time
import unittest

from .helpers import COMPANIONS, EXAMPLES, PROGRAM, TOP, FolderTest, find_tool, read
from lotos_companion.inducting.data import read_data
from lotos_companion.inducting.goals import BadGoals, read_goals
from lotos_companion.language import has_grammar

REVERSED = """specification Reversed : noexit
  library NaturalNumber endlib
  type Lists is NaturalNumber
    sorts List
    opns
      nil : -> List
      cons : Nat, List -> List
      app : List, List -> List
      rev : List -> List
      first : List -> Nat
    eqns forall x : Nat, k, l : List
      ofsort List
        app(nil, l) = l;
        app(cons(x, k), l) = cons(x, app(k, l));
        rev(nil) = nil;
        rev(cons(x, l)) = app(rev(l), cons(x, nil));
      ofsort Nat
        first(cons(x, l)) = x;
  endtype
behaviour
  stop
endspec
"""
REVERSE_TWICE = [("l : List", "app(l, nil)", "l"), ("k, l, m : List", "app(app(k, l), m)", "app(k, app(l, m))"),
                 ("k, l : List", "rev(app(k, l))", "app(rev(l), rev(k))"), ("l : List", "rev(rev(l))", "l")]
ARITHMETIC = [("x : Nat", "0 + x", "x"), ("x, y : Nat", "Succ(x) + y", "Succ(x + y)"), ("x, y : Nat", "x + y", "y + x"),
              ("x, y, z : Nat", "(x + y) + z", "x + (y + z)"), ("x : Nat", "0 * x", "0"),
              ("x, y : Nat", "Succ(x) * y", "y + (x * y)"), ("x, y : Nat", "x * y", "y * x"),
              ("x, y, z : Nat", "x * (y + z)", "(x * y) + (x * z)"), ("x, y, z : Nat", "(x * y) * z", "x * (y * z)")]


def goals(lemmas):
    """The text of a file of goals."""
    return "".join(f"lemma {variables}\nleft {left}\nright {right}\n" for variables, left, right in lemmas)


def lemmas_of(certificate):
    """The lemmas of a certificate, without what stands in it besides."""
    return re.findall(r"(?m)^lemma (.*)\nleft (.*)\nright (.*)$", certificate)


@unittest.skipUnless(has_grammar(), "proofs that are searched, since there is no python3-lark")
class Inducting(FolderTest):
    """What is found, with the examples and by itself."""

    def search(self, *words, typed=""):
        return self.run_companion("lotos-induct", *words, typed=typed)

    def accepted(self, spec, certificate):
        """What the program says of a certificate."""
        self.write("found.proofs", certificate)
        done = subprocess.run([PROGRAM, "induct", spec, "found.proofs"], stdout=subprocess.PIPE, stderr=subprocess.DEVNULL,
                              check=False)
        return done.stdout.decode()

    def found_whole(self, spec, lemmas):
        """Searches for lemmas, all of which have to be found."""
        self.write("some.goals", goals(lemmas))
        status, certificate, said = self.search(spec, "some.goals")
        self.assertEqual((0, lemmas), (status, [it for it in lemmas_of(certificate) if it in lemmas]), said)
        return certificate, said

    def test_the_proofs_of_the_examples_are_found_from_their_lemmas_alone(self):
        for words in sorted(it for it in os.listdir(EXAMPLES) if it.endswith(".proofs.words")):
            spec, proofs = read(f"{EXAMPLES}/{words}").split()
            with self.subTest(proofs):
                lemmas = lemmas_of(read(f"{EXAMPLES}/{proofs}"))
                certificate, said = self.found_whole(spec, lemmas)
                self.assertEqual(said, self.accepted(spec, certificate))
                self.assertEqual(said, read(f"{EXAMPLES}/{proofs}.report"))

    def test_sums_and_products_are_commutative_and_associative(self):
        certificate, said = self.found_whole("sums.lotos", ARITHMETIC)
        self.assertEqual("certified 9 lemmas\nrequirements 0\n", said)
        self.assertEqual(said, self.accepted("sums.lotos", certificate))

    def test_a_list_turned_round_twice_is_the_list(self):
        self.write("reversed.lotos", REVERSED)
        certificate, said = self.found_whole("reversed.lotos", REVERSE_TWICE)
        self.assertEqual("certified 4 lemmas\nrequirements 0\n", said)
        self.assertEqual(said, self.accepted("reversed.lotos", certificate))

    def test_without_its_lemmas_it_is_open_and_the_goal_is_that_of_the_program(self):
        self.write("reversed.lotos", REVERSED)
        self.write("some.goals", goals(REVERSE_TWICE[-1:]))
        status, certificate, said = self.search("reversed.lotos", "some.goals")
        self.assertEqual((1, ""), (status, certificate))
        self.assertIn("lemma 1: rev(rev(l)) = l: no proof was found. Open is\n"
                      "  rev(app(rev(l.2), cons(l.1, nil))) = cons(l.1, l.2)\n"
                      "  where l = cons(l.1, l.2)\n  hyp 1: rev(rev(l.2)) = l.2\n  variables: l.2 : List, l.1 : Nat\n", said)
        self.assertNotIn("certified", said)
        status, output, _ = self.search("--json", "reversed.lotos", "some.goals")
        found = json.loads(output)
        self.assertEqual((1, False, "", []), (status, found["certified"], found["certificate"], found["program"]))
        self.assertEqual("rev(app(rev(l.2), cons(l.1, nil))) = cons(l.1, l.2)", found["lemmas"][0]["goal"])
        self.assertIn("split l.2", found["lemmas"][0]["next"])

    def test_a_false_lemma_has_values_with_which_the_program_says_that_it_is(self):
        wrong = [("x, y : Nat", "x + y", "x"), ("x, y : Nat", "x * Succ(y)", "y + (x * y)"), ("x : Nat", "x lt x", "false")]
        self.write("some.goals", goals(wrong))
        status, certificate, said = self.search("sums.lotos", "some.goals")
        self.assertEqual(1, status)
        self.assertIn("lemma 1: x + y = x: false: the program says that the sides are different for x = 0, y = Succ(0)\n", said)
        self.assertIn("lemma 2: x * Succ(y) = y + (x * y): false: the program says that the sides are different for ", said)
        self.assertEqual([("x : Nat", "x lt x", "false")], lemmas_of(certificate))
        self.assertEqual("certified 1 lemmas\nrequirements 0\n", self.accepted("sums.lotos", certificate))
        found = json.loads(self.search("--json", "sums.lotos", "some.goals")[1])
        self.assertEqual(["false", "false", "found"], [it["outcome"] for it in found["lemmas"]])

    def test_what_the_program_refuses_is_not_written(self):
        """A program in the place of the true one flattens as it does, and refuses each certificate."""
        path = self.stand_in(f'#!/bin/sh\nif [ "$1" = induct ]; then echo "refused 916 BadUse line 1"; exit 8; fi\n'
                             f'exec {PROGRAM} "$@"\n')
        self.write("some.goals", goals(ARITHMETIC[:1]))
        status, certificate, said = self.run_companion("lotos-induct", "sums.lotos", "some.goals", program=path)
        self.assertEqual((70, ""), (status, certificate))
        self.assertEqual("refused 916 BadUse line 1\nlotos-induct: the program refuses what was found, so nothing is written\n", said)

    def test_operations_that_some_values_begin_with_are_in_the_cover(self):
        self.write("partial.lotos", """specification Partial : noexit
            type Partial is
              sorts S
              opns a, b : -> S
                   f, g : S -> S
              eqns forall x : S ofsort S
                f(a) = b;
                g(a) = a;
                g(b) = a;
                g(f(x)) = a;
            endtype
            behaviour stop endspec""")
        certificate, said = self.found_whole("partial.lotos", [("x : S", "g(x)", "a")])
        self.assertEqual("certified 1 lemmas\nrequirements 0\n", said)
        self.assertIn("cover S a; b; f;\ntree g;\nsplit 0\nleaf\nleaf\nleaf\n", certificate)

    def test_what_fails_for_such_a_value_is_false(self):
        self.write("reversed.lotos", REVERSED)
        self.write("some.goals", goals(ARITHMETIC[:1]))
        status, certificate, said = self.search("reversed.lotos", "some.goals")
        self.assertEqual((1, "", "lemma 1: 0 + x = x: false: the program says that the sides are different for x = first(nil)\n"),
                         (status, certificate, said))

    def test_tests_are_split_by_a_helper(self):
        self.write("smaller.lotos", """specification Smaller : noexit
            library NaturalNumber endlib
            type Smaller is NaturalNumber
              opns if : Bool, Nat, Nat -> Nat
                   one : Bool -> Nat
                   smaller, both : Nat, Nat -> Nat
              eqns forall x, y : Nat ofsort Nat
                if(true, x, y) = x;
                if(false, x, y) = y;
                one(true) = Succ(0);
                one(false) = 0;
                smaller(x, y) = if(x lt y, x, y);
                both(x, y) = one(x lt y) + one(not(x lt y));
            endtype
            behaviour stop endspec""")
        certificate, _ = self.found_whole("smaller.lotos", [("x, y : Nat", "both(x, y)", "Succ(0)")])
        self.assertEqual("certified 2 lemmas\nrequirements 0\n", self.accepted("smaller.lotos", certificate))
        self.assertIn("lemma v1 : Bool\nleft one(v1) + one(not(v1))\nright Succ(0)\nsplit v1\nsame\nsame\n", certificate)

    def test_a_step_at_a_time(self):
        self.write("some.goals", goals(ARITHMETIC[:3]))
        typed = ("help\nsplit z\nsplit x\nundo\nsplit x\nuse hyp 1 left 0 forward\nauto\nsplit y\nnext\n"
                 "use lemma 7 right - forward\nuse lemma 1 right - forward\nproof\nauto\n")
        status, certificate, said = self.search("--interactive", "sums.lotos", "some.goals", typed=typed)
        self.assertEqual(0, status)
        self.assertEqual("certified 3 lemmas\nrequirements 0\n", self.accepted("sums.lotos", certificate))
        for line in ("lemma 1: 0 + x = x\n  0 + x = x\n", "`split z` does not fit here", "`use lemma 7 right - forward` does not fit",
                     "  Succ(0 + x.1) = Succ(x.1)\n  where x = Succ(x.1)\n  hyp 1: 0 + x.1 = x.1\n  variables: x.1 : Nat\n",
                     "  x = 0 + x\n  where y = 0\n", "  use lemma 1 right - forward   gives x = x\n",
                     "  split y\n  use lemma 1 right - forward\n", "all cases are closed\ncertified 3 lemmas\n"):
            self.assertIn(line, said)
        self.assertEqual(["split x", "same", "use hyp 1 left 0 forward", "same"],
                         certificate.split("right x\n")[1].split("\nlemma")[0].split("\n"))

    def test_a_lemma_that_is_left_is_left_out(self):
        self.write("some.goals", goals(ARITHMETIC[:2]))
        status, certificate, said = self.search("--interactive", "sums.lotos", "some.goals", typed="skip\nauto\n")
        self.assertEqual((1, ARITHMETIC[1:2]), (status, lemmas_of(certificate)))
        status, certificate, said = self.search("--interactive", "sums.lotos", "some.goals", typed="quit\n")
        self.assertEqual((1, ""), (status, certificate))

    def test_goals_that_are_none(self):
        data = read_data(PROGRAM, "sums.lotos")
        for text, wanted in (("", "there is no lemma"), ("proof\n", "line 1: a lemma is wanted"),
                             ("lemma x : Natt\nleft x\nright x\n", "line 1: there is no sort Natt"),
                             ("lemma x : Nat\nleft x\n", "line 3: the line `right TERM` of lemma 1 is wanted"),
                             ("lemma x : Nat\nleft x +\nright x\n", "line 3: no term: "),
                             ("lemma x\nleft 0\nright 0\n", "line 1: variables are wanted"),
                             ("lemma x : Nat\nleft x\nright true\n", "line 3: the two sides have no reading of one sort")):
            with self.assertRaises(BadGoals) as fault:
                read_goals(data, text)
            self.assertTrue(str(fault.exception).startswith(wanted), fault.exception)
        self.write("some.goals", "proof\n")
        self.assertEqual((3, "", "some.goals: line 1: a lemma is wanted, with its lines `left` and `right` behind it\n"),
                         self.search("sums.lotos", "some.goals"))
        self.assertEqual((3, "", "cannot read none.goals\n"), self.search("sums.lotos", "none.goals"))
        self.assertIn("usage: lotos-induct", self.search("sums.lotos")[2])
        self.write("bad.lotos", "specification S : noexit behaviour g; stop endspec\n")
        self.assertEqual((3, "", "refused 301 UnknownGate at bad.lotos:1:36 g\n"), self.search("bad.lotos", "some.goals"))

    def test_nothing_of_its_own_says_that_anything_holds(self):
        folder = f"{TOP}/companions/lotos_companion/inducting"
        for name in os.listdir(folder):
            if name.endswith(".py"):
                said = re.findall(r'"([^"\n]*)"', re.sub(r'"""[\s\S]*?"""', "", read(f"{folder}/{name}")))
                self.assertEqual([], [it for it in said if re.search(r"\b(proved|certified \d|holds)\b", it)])


@unittest.skipUnless(has_grammar() and find_tool("tmux"), "the dialogue in a terminal, since there is no tmux or python3-lark")
class InATerminal(FolderTest):
    """The dialogue as somebody types it: the certificate goes into a file, and the goals stay on the screen."""

    def tmux(self, *words):
        return subprocess.run(["tmux", "-S", f"{self.socket}/s", "-f", "/dev/null", *words], stdout=subprocess.PIPE,
                              check=True).stdout.decode()

    def wait(self, text):
        """Waits until the screen has a text: the screen."""
        end = time.monotonic() + 90
        while time.monotonic() < end:
            screen = self.tmux("capture-pane", "-p")
            if text in screen:
                return screen
            time.sleep(0.1)
        self.fail(f"no {text!r} on the screen:\n{screen}")

    def test_a_proof_is_typed(self):
        self.write("some.goals", goals(ARITHMETIC[:1]))
        self.socket = tempfile.mkdtemp(dir="/tmp")
        self.addCleanup(shutil.rmtree, self.socket, True)
        self.addCleanup(subprocess.run, ["tmux", "-S", f"{self.socket}/s", "kill-server"], check=False)
        try:
            self.tmux("new-session", "-d", "-x", "80", "-y", "24",
                      f"env LOTOS='{PROGRAM}' TERM=xterm {COMPANIONS}/lotos-induct --interactive sums.lotos some.goals "
                      "> found.proofs; echo status $?; exec sleep 300")
        except subprocess.CalledProcessError:
            self.skipTest("the dialogue in a terminal, since tmux gives none")
        self.wait("  0 + x = x\n  variables: x : Nat\ninduct>")
        self.tmux("send-keys", "split x", "Enter")
        self.wait("  Succ(0 + x.1) = Succ(x.1)\n  where x = Succ(x.1)\n  hyp 1: 0 + x.1 = x.1\n")
        self.tmux("send-keys", "use hyp 1 left 0 forward", "Enter")
        self.wait("all cases are closed\ncertified 1 lemmas\nrequirements 0\nstatus 0\n")
        self.assertEqual(ARITHMETIC[:1], lemmas_of(read("found.proofs")))
