"""Certificates that are found, which the program has to accept, and differences, which have to be there when steps are taken."""
import json
import os
import random
import subprocess
import unittest
from dataclasses import replace

import pytest

from .helpers import EXAMPLES, PROGRAM, FolderTest, read
from lotos_companion.bisimulation.expanding import Expansion
from lotos_companion.bisimulation.refinement import Refinement
from lotos_companion.exploring import Explorer
from lotos_companion.language import has_grammar, read_specification, text_of, tree, walk
from lotos_companion.program import Words
from lotos_companion.session import Session

# A buffer of two cells, of which the first hands things over by a hidden event, and the same as one process with that `i`.
TWO_CELLS_IN_A_ROW = '''specification Row [inp, out] : noexit
behaviour
  hide middle in Cell[inp, middle] |[middle]| Cell[middle, out]
where
  process Cell[a, b] : noexit := a; b; Cell[a, b] endproc
endspec
'''
TWO_PLACES_WITH_I = '''specification Places [inp, out] : noexit
behaviour
  None[inp, out]
where
  process None[inp, out] : noexit := inp; First[inp, out] endproc
  process First[inp, out] : noexit := i; Second[inp, out] endproc
  process Second[inp, out] : noexit := inp; Both[inp, out] [] out; None[inp, out] endproc
  process Both[inp, out] : noexit := out; First[inp, out] endproc
endspec
'''
BRANCHING = ("a; (b; stop [] c; stop)", "a; b; stop [] a; c; stop")
# Messages of a finite sort in the alternating bit protocol.
MESSAGES = "type Messages is sorts Msg opns hello, bye : -> Msg endtype"
OPEN = '''specification Open [g, h] : noexit
  library Boolean endlib
behaviour
  g ?x:Bool; (let y:Bool = not(x) in (choice z:Bool [] [z eq y] -> i; h ?w:Bool [w or z]; h !w; After[g, h](z)))
where
  process After[g, h](x : Bool) : noexit :=
    g ?x, y:Bool !x [x and y]; h !x; stop [] h !x; (g !x; exit(any Bool) ||| h; exit(x)) >> accept x:Bool in g !x; stop
  endproc
endspec
'''


def small(behaviour, gates="a, b, c"):
    """A specification of one behaviour."""
    return f"specification S [{gates}] : noexit behaviour {behaviour} endspec\n"


def finite_alternating_bit(turned):
    """The alternating bit protocol with two messages; turned, its processes stand on the other sides of their parallels."""
    text = read(f"{EXAMPLES}/alternating_bit.lotos").replace("library NaturalNumber endlib", f"library Boolean endlib {MESSAGES}")
    text = text.replace("Nat", "Msg")
    if turned:
        text = text.replace("(Sender[put, send, done](false) ||| Receiver[get, arrive, answer](false))",
                            "(Receiver[get, arrive, answer](false) ||| Sender[put, send, done](false))")
        text = text.replace("(There[send, arrive] ||| Back[answer, done])", "(Back[answer, done] ||| There[send, arrive])")
    return text


class Differences(FolderTest):
    """What the tests of this file share."""

    def pairs(self, *words, status=None):
        """The status and the output of a search, as data, and what was said."""
        done, output, said = self.run_companion("lotos-pairs", *words, "--json")
        if status is not None:
            self.assertEqual(done, status, said)
        return done, json.loads(output) if output else None, said

    def bisim(self, left, right, lines):
        """What the program says of a certificate."""
        path = self.write("tried.pairs", "".join(f"{it}\n" for it in lines))
        done = subprocess.run([PROGRAM, "bisim", left, right, path], stdout=subprocess.PIPE, check=False)
        return done.returncode, done.stdout.decode().rstrip("\n")

    def holds(self, file, formula):
        """Whether a formula holds of the first state of a specification: looked at here, by a session of the program."""
        session = Session(PROGRAM, Words((file,)))
        try:
            return self._holds(session, session.opening().menu, formula)
        finally:
            session.kill()

    def _holds(self, session, menu, formula):
        found = False
        for step, label in self._events(session, menu):
            if not found and label.lower() == formula["label"].lower():
                behind = session.ask(step).menu
                found = all(self._holds(session, behind, it) for it in formula["behind"])
                session.ask("undo")
        return found != formula["not"]

    def _events(self, session, menu):
        """The steps of a menu with their labels, values up to the size 3."""
        for entry in menu.entries:
            if entry.variables:
                for line in session.ask(f"instances {entry.number} 3").lines[1:]:
                    taken, _, label = line.partition(" => ")
                    yield f"step {taken}", label
            else:
                yield f"step {entry.number}", entry.label.text

    def check(self, left, right, *more):
        """Has two specifications compared and the outcome tried: nothing where they are alike, else what tells them apart."""
        status, found, said = self.pairs(left, right, *more)
        if status == 0:
            self.assertEqual(self.bisim(*found["files"], found["pairs"]), (0, found["bisim"]))
            self.assertTrue(more or found["files"] == [left, right])
            return None
        self.assertEqual(status, 1, said)
        self.assertTrue(self.holds(found["holds_of"], found["tree"]), found)
        self.assertFalse(self.holds(found["not_of"], found["tree"]), found)
        self.assertEqual({found["holds_of"], found["not_of"]}, {left, right})
        return found


class Pairs(Differences):
    def test_what_is_found_is_accepted(self):
        for spec, other, count in (("two_cells.lotos", "two_places.lotos", 4), ("two_places.lotos", "two_cells.lotos", 4),
                                   ("handshake.lotos", "handshake.lotos", 10)):
            status, output, said = self.run_companion("lotos-pairs", spec, other)
            self.assertEqual((status, said), (0, f"lotos bisim {spec} {other}: bisimilar {count} pairs\n"))
            self.assertEqual(self.bisim(spec, other, output.split("\n")[:-1]), (0, f"bisimilar {count} pairs"))

    def test_the_step_between_two_cells_in_a_row_is_an_event_like_all_others(self):
        self.write("row.lotos", TWO_CELLS_IN_A_ROW)
        self.write("with_i.lotos", TWO_PLACES_WITH_I)
        self.assertIsNone(self.check("row.lotos", "with_i.lotos"))
        self.assertIsNone(self.check("with_i.lotos", "row.lotos"))
        for one, other in (("row.lotos", "two_places.lotos"), ("two_places.lotos", "row.lotos")):
            found = self.check(one, other)
            self.assertIn((found["depth"], found["holds_of"], found["formula"]),
                          ((2, "row.lotos", "<inp><i>true"), (2, "two_places.lotos", "<inp><inp>true")))

    def test_a_sequence_of_events(self):
        self.write("one_place.lotos", small("P[a, b] where process P[a, b] : noexit := a; b; P[a, b] endproc", "a, b"))
        self.write("lossy.lotos", small("P[a, b] where process P[a, b] : noexit := a; (b; P[a, b] [] a; stop) endproc", "a, b"))
        status, output, said = self.run_companion("lotos-pairs", "one_place.lotos", "lossy.lotos")
        self.assertEqual((status, said), (1, ""))
        self.assertEqual(output, """they differ: of lossy.lotos holds, and of one_place.lotos does not,
    <a><a>true
replayed in both:
    lossy.lotos: step 1 => a
    one_place.lotos: step 1 => a
    lossy.lotos: step 2 => a
    one_place.lotos: it has no event a; its events: b
""")

    def test_what_no_sequence_tells_apart(self):
        self.write("late.lotos", small(BRANCHING[0]))
        self.write("early.lotos", small(BRANCHING[1]))
        for one, other in (("late.lotos", "early.lotos"), ("early.lotos", "late.lotos")):
            found = self.check(one, other)
            self.assertEqual((found["depth"], found["sequence"]), (2, None))
            self.assertIn(found["formula"], ("<a>(<b>true and <c>true)", "<a>not <b>true", "<a>not <c>true"))

    def test_a_variable_of_few_values_is_written_out(self):
        self.write("open.lotos", OPEN)
        status, _, said = self.run_companion("lotos-pairs", "open.lotos", "open.lotos")
        self.assertEqual(status, 3)
        self.assertIn("--into FOLDER", said)
        status, output, said = self.run_companion("lotos-pairs", "open.lotos", "open.lotos", "--into", "kept")
        self.assertEqual(status, 0, said)
        self.assertRegex(said, r"^lotos bisim kept/left_open.lotos kept/right_open.lotos: bisimilar \d+ pairs\n"
                               r"with all values of Bool written out in both: false, true\n$")
        self.assertEqual({"Bool": ["false", "true"]}, self.pairs("open.lotos", "open.lotos", "--into", "kept", status=0)[1]["values"])
        self.assertIn("all values of these sorts written out", read("kept/left_open.lotos"))
        self.assertIn("Bool: false, true", read("kept/left_open.lotos"))
        self.assertEqual(read("kept/found.pairs"), output)
        self.assertEqual(self.bisim("kept/left_open.lotos", "kept/right_open.lotos", output.split("\n")[:-1])[0], 0)

    def test_what_is_written_out_has_the_events_that_it_had(self):
        values = {"bool": ("false", "true")}
        self.write("open.lotos", OPEN)
        self.write("closed.lotos", Expansion(OPEN, lambda it: values.get(it.lower()), {"not", "eq", "or", "and"}).text)
        sides = [Explorer(PROGRAM, Words((it,)), values=3).run() for it in ("open.lotos", "closed.lotos")]
        self.assertGreater(sides[0].states, 15)
        self.assertTrue(any(it.opens for it in sides[0].menus))
        self.assertFalse(any(it.opens for it in sides[1].menus))
        refinement = Refinement(*sides)
        self.assertTrue(refinement.are_one(0, refinement.offset))

    def test_values_without_an_end(self):
        self.write("any.lotos", small("g ?x:Nat; h !x; stop", "g, h").replace("behaviour", "library NaturalNumber endlib behaviour"))
        self.write("next.lotos", small("g ?x:Nat; h !Succ(x); stop", "g, h").replace("behaviour", "library NaturalNumber endlib "
                                                                                   "behaviour"))
        self.assertIsNotNone(self.check("any.lotos", "next.lotos"))
        status, _, said = self.pairs("any.lotos", "any.lotos")
        self.assertEqual(status, 3)
        self.assertIn("not all values of Nat", said)
        # The bound of the one is none of the other: `g` takes each number on both sides, `Succ(x)` or not.
        self.write("two.lotos", small("g ?x:Nat; stop [] (choice y:Nat [] g !Succ(y); stop)", "g, h").replace(
            "behaviour", "library NaturalNumber endlib behaviour"))
        self.write("one.lotos", small("g ?x:Nat; stop", "g, h").replace("behaviour", "library NaturalNumber endlib behaviour"))
        self.assertEqual(self.pairs("two.lotos", "one.lotos")[0], 3)

    def test_states_that_are_written_alike_and_are_two(self):
        part = "(let x:Bool = true in g !x; i; (let y:Bool = x in h !y; stop))"
        twice = f"g; {part} [] h; {part} [] i; {part}"
        text = small(twice, "g, h").replace("behaviour", "library Boolean endlib behaviour")
        self.write("twice.lotos", text)
        self.assertIsNone(self.check("twice.lotos", "twice.lotos"))

    def test_what_cannot_be_searched(self):
        def search(*words):
            return self.run_companion("lotos-pairs", *words)
        self.assertEqual(search("none.lotos", "stop.lotos"), (3, "", "cannot read none.lotos\n"))
        status, output, said = search("--states", "3", "two_cells.lotos", "two_places.lotos")
        self.assertEqual((status, output), (3, ""))
        self.assertIn("two_cells.lotos: stopped at 3 states", said)
        self.assertEqual(search("stop.lotos")[0], 2)
        self.write("bad.lotos", "specification")
        self.assertEqual(search("bad.lotos", "stop.lotos")[0], 3)
        self.write("data.lotos", read("two_places.lotos").replace("behaviour", "library Boolean endlib behaviour", 1))
        status, output, said = search("data.lotos", "two_places.lotos")
        self.assertEqual((status, output), (3, ""))
        self.assertIn("refused 901 OtherData", said)

    def test_weak_bisimulation_is_named_as_not_offered(self):
        self.assertIn("weak bisimulation is not offered", " ".join(self.run_companion("lotos-pairs", "--help")[1].split()))


def sites(specification):
    """The parts of a specification's behaviours that can be changed."""
    return [it for it in walk(specification) if isinstance(it, (tree.Choice, tree.Parallel, tree.Action, tree.Inner, tree.Call))]


def changed(part, chance):
    """A part that is changed in one place: in some ways it behaves as before, in others it does not."""
    if isinstance(part, (tree.Choice, tree.Parallel)):
        turned = replace(part, left=part.right, right=part.left)
        return chance.choice([turned, turned, part.left if isinstance(part, tree.Choice) else turned])
    if isinstance(part, tree.Inner):
        return chance.choice([part.next, tree.Inner(part), tree.Choice(part, part)])
    if isinstance(part, tree.Action):
        return chance.choice([tree.Choice(part, part), tree.Inner(part), replace(part, next=tree.Stop())])
    return chance.choice([tree.Choice(part, tree.Stop()), tree.Stop(), tree.Inner(part)])


def exchanged(part, old, new):
    """A tree with one part in place of another one, which is found by its being the very same."""
    if part is old:
        return new
    if isinstance(part, tuple):
        return tuple(exchanged(it, old, new) for it in part)
    if not hasattr(part, "__dataclass_fields__"):
        return part
    return replace(part, **{it: exchanged(getattr(part, it), old, new) for it in part.__dataclass_fields__})


@unittest.skipUnless(has_grammar(), "changed examples, since there is no python3-lark")
class Changed(Differences):
    """Examples with a change, against what they were."""

    def some(self, count, names, seed):
        """Has so many changed examples compared: how many were alike, and how many were not."""
        chance = random.Random(seed)
        alike = [0, 0]
        while sum(alike) < count:
            name = chance.choice(names)
            specification = read_specification(read(name))
            part = chance.choice(sites(specification))
            self.write("changed.lotos", text_of(exchanged(specification, part, changed(part, chance))))
            if subprocess.run([PROGRAM, "check", "changed.lotos"], stdout=subprocess.PIPE, check=False).returncode == 0:
                with self.subTest(name, text=read("changed.lotos")):
                    alike[self.check(name, "changed.lotos", "--into", "kept") is not None] += 1
        return alike

    def test_a_few(self):
        alike, not_alike = self.some(6, ["two_places.lotos", "dispenser.lotos"], 3)
        self.assertTrue(alike and not_alike)

    @pytest.mark.slow
    def test_thirty(self):
        names = ["two_places.lotos", "two_cells.lotos", "handshake.lotos", "token_ring.lotos", "peterson.lotos",
                 "philosophers.lotos", "dispenser.lotos", "lossy_line.lotos", "vote.lotos"]
        alike, not_alike = self.some(30, names, 1)
        self.assertTrue(alike > 4 and not_alike > 4, (alike, not_alike))


class AlternatingBit(Differences):
    @pytest.mark.slow
    def test_with_messages_of_a_finite_sort_and_processes_turned(self):
        self.write("bit.lotos", finite_alternating_bit(False))
        self.write("turned.lotos", finite_alternating_bit(True))
        for one, other in (("bit.lotos", "turned.lotos"), ("turned.lotos", "bit.lotos")):
            status, found, said = self.pairs(one, other, "--into", "kept")
            self.assertEqual(status, 0, said)
            self.assertEqual(self.bisim(*found["files"], found["pairs"]), (0, found["bisim"]))
            self.assertIn("Msg: hello, bye", read("kept/left_" + one))
        self.write("wrong.lotos", finite_alternating_bit(True).replace("answer !not(bit); Receiver", "get !m; answer !not(bit); Receiver"))
        _, found, _ = self.pairs("bit.lotos", "wrong.lotos", status=1)
        self.assertTrue(self.holds(found["holds_of"], found["tree"]))
        self.assertFalse(self.holds(found["not_of"], found["tree"]))


if __name__ == "__main__":
    unittest.main()
