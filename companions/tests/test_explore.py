"""`lotos-explore` as it is called: reports, files for other tools, pictures, and how it ends."""
import json
import os
import re
import signal
import subprocess
import sys
import time
import unittest
import xml.etree.ElementTree as xml

import pytest

from .helpers import COMPANIONS, EXAMPLES, PROGRAM, FolderTest, read
from lotos_companion.exploring import Explorer, Limits
from lotos_companion.exploring.finite_sorts import FiniteSorts
from lotos_companion.language import has_grammar
from lotos_companion.program import Words

# A deadlock behind `a`, an end behind `b`, and one more way to the state of the deadlock.
ENDS = """specification Ends [a, b, c] : exit
behaviour
  a; c; stop [] b; exit [] i; b; a; (c; stop [] i; i; stop)
endspec
"""
# Entries that nobody can take: by its condition the first, for want of a value the second.
NOBODY = """specification Nobody [g, h] : noexit
  library NaturalNumber endlib
  type Empty is sorts None opns wrap : None -> None endtype
behaviour
  g ?x:Nat [Succ(Succ(0)) lt x]; stop [] h ?y:None; stop
endspec
"""
GROWING = """specification Growing [g] : noexit
  library NaturalNumber endlib
behaviour
  Count[g](0) ||| Count[g](0)
where
  process Count[g](n : Nat) : noexit := g !n; Count[g](Succ(n)) endproc
endspec
"""
SORTS = """specification Many [g] : noexit
  library Boolean endlib
  type Shapes is Boolean
    sorts Colour, Pair, Tree, Pick, Count
    opns red, green : -> Colour
         none : -> Count
         more : Count -> Count
         both : Colour, Bool -> Pair
         leaf : -> Tree
         node : Tree, Tree -> Tree
         one, two : -> Pick
         turn : Pick -> Pick
    eqns forall p : Pick ofsort Pick turn(p) = one;
  endtype
behaviour stop
endspec
"""


class Reports(FolderTest):
    """What is reported."""

    def explore(self, *words):
        """What is found, as data."""
        status, output, said = self.run_companion("lotos-explore", *words, "--json")
        return status, json.loads(output) if output else said

    def test_lines(self):
        status, output, said = self.run_companion("lotos-explore", "dispenser.lotos")
        self.assertEqual((status, said), (1, ""))
        self.assertEqual(output.split("\n")[:-2], [
            "Dispenser: 5 states, 8 transitions, up to 2 steps from the start",
            "taken with all its values, 2 events: coin !$1 for $1:Coin",
            "taken with all its values, 2 events: button !$1 for $1:Drink",
            "each of these states was looked at, and nothing was cut",
            "events: button 3, coin 2, cup 3",
            "1 deadlock",
            "deadlock in state 2 behind 1 step",
            "    step 2 => cup !tea"])
        self.assertRegex(output.split("\n")[-2], r"^took \d+\.\d s, \d+ transitions a second, \d+ MiB$")

    def test_a_deadlock_is_no_end(self):
        self.write("ends.lotos", ENDS)
        status, found = self.explore("ends.lotos")
        self.assertEqual((status, found["gates"]), (1, {"a": 2, "b": 2, "c": 2, "exit": 1, "i": 3}))
        self.assertEqual(len(found["deadlocks"]), 1)
        self.assertEqual([it["label"] for it in found["deadlocks"][0]["steps"]], ["a", "c"])
        self.write("ends.lotos", "specification Ends [a] : exit behaviour a; exit endspec")
        status, found = self.explore("ends.lotos")
        self.assertEqual((status, found["deadlocks"], found["whole"]), (0, [], True))
        status, output, _ = self.run_companion("lotos-explore", "ends.lotos")
        self.assertIn("no deadlock was met among these 3 states", output)
        self.assertNotRegex(output, "deadlock.?free|proved")

    def test_an_entry_that_nobody_can_take(self):
        self.write("nobody.lotos", NOBODY)
        status, found = self.explore("nobody.lotos", "--values", "2")
        self.assertEqual((status, found["deadlocks"], [it["state"] for it in found["unknown"]]), (0, [], [0]))
        self.assertEqual([(it["entry"][:8], it["events"], it["whole"]) for it in found["entries"]],
                         [("g !$1 fo", 0, False), ("h !$1 fo", 0, True)])
        output = self.run_companion("lotos-explore", "nobody.lotos", "--values", "2")[1]
        self.assertIn("taken with values up to the size 2 alone, 0 events: g !$1", output)
        self.assertIn("1 state with entries and no event that is known\n", output)

    def test_what_is_cut_is_said(self):
        self.write("growing.lotos", GROWING)
        status, found = self.explore("growing.lotos", "--states", "40")
        self.assertEqual((status, found["cut"], found["whole"]), (0, "stopped at 40 states", False))
        self.assertLessEqual(found["states"], 40)
        self.assertLess(found["expanded"], found["states"])
        _, found = self.explore("growing.lotos", "--depth", "3")
        self.assertEqual((found["states"], found["cut"]), (10, "stopped behind 3 steps"))
        _, found = self.explore("growing.lotos", "--seconds", "1", "--states", "100000000")
        self.assertEqual(found["cut"], "stopped after 1 seconds")
        output = self.run_companion("lotos-explore", "growing.lotos", "--depth", "3")[1]
        self.assertIn("cut: stopped behind 3 steps; 4 states were met and not looked at", output)

    def test_values_have_a_bound(self):
        for size, events in (("1", 1), ("2", 2), ("4", 4)):
            _, found = self.explore("alternating_bit.lotos", "--values", size, "--depth", "1")
            self.assertEqual((found["entries"][0]["events"], found["entries"][0]["whole"]), (events, False))
        status, output, said = self.run_companion("lotos-explore", "--json", "car_park.lotos", "with", "Succ(0)", "true")
        self.assertEqual((status, said, json.loads(output)["states"]), (0, "", 3))

    def test_words(self):
        self.assertEqual(self.explore("none.lotos"), (3, "cannot read none.lotos\n"))
        self.write("bad.lotos", "specification")
        self.assertEqual(self.explore("bad.lotos")[0], 1)
        self.assertEqual(self.explore()[0], 2)
        self.assertEqual(self.explore("stop.lotos", "--values", "65")[0], 2)

    def test_sorts_of_which_all_values_are_listed(self):
        self.write("sorts.lotos", SORTS)
        self.write("none.order", "turn;")
        for words in (Words(("sorts.lotos",)), Words(("sorts.lotos", "none.order"))):
            finite = FiniteSorts(PROGRAM, words)
            self.addCleanup(finite.close)
            self.assertEqual(finite.values("Colour", 1), ("red", "green"))
            self.assertEqual(finite.values("Pick", 1), ("one", "two"))
            self.assertEqual(len(finite.values("Pair", 3)), 4)
            self.assertIsNone(finite.values("Pair", 2))
            self.assertIsNone(finite.values("Tree", 5))
            self.assertIsNone(finite.values("Count", 5))

    def test_truth_values_beside_numbers_are_two(self):
        self.write("both.lotos", SORTS.replace("library Boolean", "library NaturalNumber"))
        finite = FiniteSorts(PROGRAM, Words(("both.lotos",)))
        self.addCleanup(finite.close)
        if has_grammar():
            self.assertEqual(finite.values("Bool", 1), ("false", "true"))
        self.assertIsNone(finite.values("Nat", 5))
        # With a test that has no equation, there are more.
        self.write("more.lotos", SORTS.replace("library Boolean", "library NaturalNumber").replace(
            "Shapes is Boolean", "Shapes is NaturalNumber").replace("red, green : -> Colour", "red, green : -> Colour  is_even : Nat -> Bool"))
        finite = FiniteSorts(PROGRAM, Words(("more.lotos",)))
        self.addCleanup(finite.close)
        self.assertIsNone(finite.values("Bool", 3))


class NeverSaid(unittest.TestCase):
    """What is never said: only the program says that anything is proved, equal or free of deadlocks."""

    def test_nothing_of_its_own_says_that_anything_holds(self):
        for folder in ("exploring", "bisimulation", "flattening"):
            for name in sorted(os.listdir(f"{COMPANIONS}/lotos_companion/{folder}")):
                if name.endswith(".py"):
                    text = re.sub(r'"""[\s\S]*?"""|#.*', "", read(f"{COMPANIONS}/lotos_companion/{folder}/{name}"))
                    said = [it for it in re.findall(r'"([^"\n]*)"', text) if it not in ("bisimilar ", "equal")]
                    self.assertEqual([], [it for it in said if re.search(r"\b(proved|equal|bisimilar|deadlock.?free)\b", it)], name)


class Files(FolderTest):
    """What is written for other tools, and pictures."""

    def test_aut(self):
        self.assertEqual(self.run_companion("lotos-explore", "two_places.lotos", "--aut", "found.aut")[0], 0)
        self.assertEqual(read("found.aut"), 'des (0, 4, 3)\n(0, "inp", 1)\n(1, "inp", 2)\n(1, "out", 0)\n(2, "out", 1)\n')

    def test_dot(self):
        self.run_companion("lotos-explore", "dispenser.lotos", "--dot", "found.dot")
        text = read("found.dot")
        self.assertIn('0 -> 1 [label="coin !ten\\ncoin !fifty"];', text)
        self.assertIn('2 [color="#b3261e", fontcolor="#b3261e"];', text)

    def picture(self, *words, **more):
        """The texts and the circles of a picture."""
        self.run_companion("lotos-explore", *words, "--svg", "found.svg", **more)
        root = xml.fromstring(read("found.svg"))
        space = "{http://www.w3.org/2000/svg}"
        return ([it.text for it in root.iter(f"{space}text")], [it.get("class") for it in root.iter(f"{space}circle")],
                len([it for it in root.iter(f"{space}path") if it.get("class")]))

    def test_a_picture_of_our_own(self):
        os.mkdir("tools")
        os.symlink(sys.executable, "tools/python3")
        texts, circles, arrows = self.picture("dispenser.lotos", PATH="tools")
        self.assertEqual((len(circles), arrows), (5, 7))
        self.assertIn("cup !coffee", texts)
        self.assertEqual(sorted(circles), ["state", "state", "state", "state dead", "state first"])

    def test_terms_are_escaped(self):
        self.write("signs.lotos", """specification Signs [g] : noexit
            type T is sorts S opns < : -> S & : S, S -> S _<>_ : S, S -> S endtype
            behaviour g !&(<, <) !(< <> <); stop endspec""")
        texts, _, _ = self.picture("signs.lotos")
        self.assertIn("g !&(<, <) !< <> <", texts)

    def test_graphviz_makes_the_picture_where_it_is_there(self):
        os.mkdir("tools")
        with open("tools/dot", "w", encoding="utf-8") as file:
            file.write("#!/bin/sh\n[ \"$1\" = -Tsvg ] && grep -q digraph && echo '<svg>drawn</svg>'\n")
        os.chmod("tools/dot", 0o755)
        self.run_companion("lotos-explore", "dispenser.lotos", "--svg", "found.svg", PATH=f"{self.folder}/tools:{os.environ['PATH']}")
        self.assertEqual(read("found.svg"), "<svg>drawn</svg>\n")

    def test_no_picture_of_many_states(self):
        self.write("growing.lotos", GROWING)
        said = self.run_companion("lotos-explore", "growing.lotos", "--states", "300", "--svg", "found.svg")[2]
        self.assertIn("no picture is made of more than 200 states", said)
        self.assertFalse(os.path.exists("found.svg"))

    def test_the_scenario_of_a_deadlock_can_be_replayed(self):
        _, output, _ = self.run_companion("lotos-explore", "philosophers.lotos", "--traces", "kept", "--json")
        dead, = json.loads(output)["deadlocks"]
        trace = f"kept/deadlock_{dead['state']}.trace"
        done = subprocess.run([PROGRAM, "run", "philosophers.lotos"], input=f"replay {trace}\nmenu\n".encode(), stdout=subprocess.PIPE,
                              check=True)
        self.assertTrue(done.stdout.decode().endswith(f"replayed {len(dead['steps'])}\nevents 0\nevents 0\n"))


class Ends(FolderTest):
    """How it ends before all is seen."""

    def test_ctrl_c_ends_with_what_was_found_so_far(self):
        self.write("growing.lotos", GROWING)
        with subprocess.Popen([f"{COMPANIONS}/lotos-explore", "growing.lotos", "--states", "10000000", "--json", "--jobs", "2"],
                              stdout=subprocess.PIPE, env={**os.environ, "LOTOS": PROGRAM}) as running:
            while not read(f"/proc/{running.pid}/task/{running.pid}/children"):
                time.sleep(0.1)
            time.sleep(1)
            running.send_signal(signal.SIGINT)
            output, _ = running.communicate(timeout=100)
        found = json.loads(output)
        self.assertEqual((running.returncode, found["cut"]), (0, "stopped by Ctrl-C"))
        self.assertGreater(found["states"], 10)
        self.assertGreater(found["memory_kib"], 1000)

    def test_progress_on_a_terminal(self):
        self.write("growing.lotos", GROWING)
        line = f"{COMPANIONS}/lotos-explore growing.lotos --seconds 2 --states 10000000"
        done = subprocess.run(["script", "-qec", line, "/dev/null"], stdout=subprocess.PIPE, stdin=subprocess.DEVNULL, check=False,
                              env={**os.environ, "LOTOS": PROGRAM}, timeout=60)
        said = done.stdout.decode()
        self.assertRegex(said, r"\r\d+ states, \d+ of them to look at, \d+ transitions, depth \d+, \d+ s, \d+ transitions a second, "
                               r"\d+ MiB")
        self.assertIn("cut: stopped after 2 seconds", said)

    def test_a_program_that_ends(self):
        program = self.stand_in('''#!/usr/bin/env python3
import sys
def say(*lines):
    sys.stdout.write("".join(it + "\\n" for it in lines))
    sys.stdout.flush()
say("accepted S", "data: 0 sorts, 0 operations, 0 equations", "events 1", "1: g")
for line in sys.stdin:
    if line == "show\\n":
        say("first")
    elif line == "step 1\\n":
        sys.exit(6)
    else:
        say("refused 801 BadCommand")
''')
        status, output, _ = self.run_companion("lotos-explore", "stop.lotos", program=program)
        self.assertEqual(status, 0)
        self.assertIn("cut: the program ended with the status 6; 1 states were met and not looked at", output)
        program = self.stand_in(read(program).replace("sys.exit(6)", 'say("what?")'))
        output = self.run_companion("lotos-explore", "stop.lotos", program=program)[1]
        self.assertIn("cut: the program answered what?; 1 states were met and not looked at", output)


class Speed(unittest.TestCase):
    """How many transitions a second: the demand is 10,000 by four processors."""

    @pytest.mark.slow
    def test_the_alternating_bit(self):
        explorer = Explorer(PROGRAM, Words((f"{EXAMPLES}/alternating_bit.lotos",)), values=20, jobs=4, limits=Limits(seconds=50))
        os.chdir(EXAMPLES)
        before = os.times()
        graph = explorer.run()
        after = os.times()
        self.assertIsNone(explorer.cut)
        used = sum(after[:4]) - sum(before[:4])
        # By the processor time of the companion and of its sessions, since other work may go on beside it.
        self.assertGreater(4 * graph.transitions / used, 10_000)
        self.assertTrue(re.search(r"\d+ transitions a second", explorer.ended.line))


if __name__ == "__main__":
    unittest.main()
