"""The walk through the states of a specification, and the search for an event."""
import os
import unittest

from .helpers import EXAMPLES, PROGRAM, FolderTest
from lotos_companion.exploring import Explorer, Goal, Limits, Unexpected, shortest_way
from lotos_companion.program import Words
from lotos_companion.session import Ended, Session

GUESSED = '''specification Guessed [g, h, won] : noexit
  library NaturalNumber endlib
behaviour
  g ?x:Nat; Next[g, h, won](x)
where
  process Next[g, h, won](x : Nat) : noexit :=
    [x le Succ(0)] -> i; Next[g, h, won](x)
    [] [x eq Succ(Succ(0))] -> h ?y:Nat [y lt x]; won !y; stop
    [] [x eq Succ(Succ(Succ(Succ(Succ(0)))))] -> won ?b:Bool; stop
  endproc
endspec
'''


def explore(name, **more):
    """The states of a specification."""
    explorer = Explorer(PROGRAM, Words((os.path.join(EXAMPLES, name),)), **more)
    return explorer, explorer.run()


class States(unittest.TestCase):
    """What is reached, counted by hand."""

    def test_a_buffer(self):
        explorer, graph = explore("two_places.lotos")
        self.assertIsNone(explorer.cut)
        self.assertEqual(list(graph.all_transitions()), [(0, "inp", 1), (1, "inp", 2), (1, "out", 0), (2, "out", 1)])
        self.assertEqual([it.line for it in graph.way(2)], ["step 1", "step 1"])

    def test_two_cells_are_four_states(self):
        _, graph = explore("two_cells.lotos")
        self.assertEqual((graph.states, graph.transitions, graph.depth), (4, 8, 2))
        self.assertEqual(graph.gates(), {"inp": 4, "out": 4})
        self.assertEqual(graph.deadlocks(), {})

    def test_the_states_have_the_same_numbers_with_several_sessions(self):
        os.chdir(EXAMPLES)
        _, one = explore("alternating_bit.lotos", values=2)
        explorer, three = explore("alternating_bit.lotos", values=2, jobs=3)
        self.assertGreater(len(explorer.crew.workers), 1)
        self.assertEqual(list(one.numbers), list(three.numbers))
        self.assertEqual(list(one.all_transitions()), list(three.all_transitions()))

    def test_an_end_is_no_deadlock(self):
        _, graph = explore("handshake.lotos")
        self.assertIn("exit", graph.gates())
        self.assertEqual(graph.deadlocks(), {})
        _, graph = explore("stop.lotos")
        self.assertEqual(graph.deadlocks(), {0: []})

    def test_each_state_is_expanded_whole_or_not_at_all(self):
        explorer, graph = explore("two_cells.lotos", limits=Limits(states=3))
        self.assertEqual(explorer.cut, "stopped at 3 states")
        self.assertEqual((graph.states, graph.expanded, graph.transitions), (3, 1, 2))
        explorer, graph = explore("two_cells.lotos", limits=Limits(depth=1))
        self.assertEqual((explorer.cut, graph.states, graph.expanded), ("stopped behind 1 steps", 3, 1))
        explorer, _ = explore("two_cells.lotos", limits=Limits(states=4, depth=3))
        self.assertIsNone(explorer.cut)

    def test_each_way_leads_where_it_says(self):
        _, graph = explore("two_cells.lotos")
        for state, shown in enumerate(graph.texts()):
            session = Session(PROGRAM, Words((os.path.join(EXAMPLES, "two_cells.lotos"),)))
            self.addCleanup(session.kill)
            session.opening()
            for step in graph.way(state):
                self.assertEqual(session.ask(step.line).label, step.label)
            self.assertEqual(session.ask("show").first, shown)


class Ways(FolderTest):
    """A shortest way to an event."""

    with_examples = False

    def way(self, *goal, **more):
        spec = self.write("guessed.lotos", GUESSED)
        found = shortest_way(PROGRAM, Words((spec,)), Goal(*goal), **more)
        return found, None if found.way is None else [it.line for it in found.way]

    def test_by_values_of_a_size(self):
        found, way = self.way("won")
        self.assertEqual(way, ["step 1 Succ(Succ(0))", "step 1 0", "step 1"])
        self.assertEqual(found.way[-1].label, "won !0")
        self.assertEqual(self.way("WON", ("0 + Succ(0)",))[1], ["step 1 Succ(Succ(0))", "step 1 Succ(0)", "step 1"])
        self.assertEqual(self.way("i")[1], ["step 1 0", "step 1"])

    def test_by_values_that_are_named(self):
        five = "Succ(Succ(Succ(Succ(Succ(0)))))"
        self.assertEqual(self.way("g", (five,))[1], [f"step 1 {five}"])
        self.assertEqual(self.way("h", ("Succ(Succ(0))",))[1], None)
        self.assertEqual(self.way("won", ("true",), steps=[f"step 1 {five}"])[1], ["step 1 true"])

    def test_what_is_not_found_says_what_was_cut(self):
        found, way = self.way("won", limits=Limits(depth=1))
        self.assertEqual((way, found.cut), (None, "stopped behind 1 steps"))
        found, way = self.way("won", values=2)
        self.assertEqual((way, found.cut, found.open_entries), (None, None, ("g !$1 for $1:Nat",)))

    def test_what_is_wrong(self):
        with self.assertRaisesRegex(ValueError, "refused 804"):
            self.way("won", ("Succ(",))
        with self.assertRaisesRegex(Unexpected, "refused 802"):
            self.way("won", steps=["step 7"])
        spec = self.write("bad.lotos", "specification")
        with self.assertRaises(Ended):
            shortest_way(PROGRAM, Words((spec,)), Goal("g"))


if __name__ == "__main__":
    unittest.main()
