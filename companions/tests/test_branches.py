"""The tree of the branches that a session took."""
import unittest

from lotos_companion.branches import Branches
from lotos_companion.traces import Step


def steps(text):
    """Steps whose labels are the words of a text."""
    return [Step("1", it, f"g !{it}") for it in text.split()]


class Tree(unittest.TestCase):
    """Steps that are taken, taken back, and taken otherwise."""

    def setUp(self):
        self.tree = Branches()
        for way in ("a b c d", "a b", "a b e f", "a", "a g", "", "a b e h"):
            self.tree.follow(steps(way))

    def test_each_state_has_a_name(self):
        self.assertEqual(self.tree.here.name, "4:4")
        for name, way in (("1:4", "a b c d"), ("1:", "a b c d"), ("2:3", "a b e"), ("2:", "a b e f"), ("2:1", "a"), ("3:", "a g"),
                          ("4:", "a b e h"), ("1:0", "")):
            self.assertEqual(self.tree.find(name).path, steps(way), name)
        for name in ("5:", "1:5", "3:3", "0:1", "x", "", "1", ":1"):
            self.assertIsNone(self.tree.find(name), name)

    def test_runs(self):
        runs = [(run.level, [it.name for it in run.nodes]) for run in self.tree.runs()]
        self.assertEqual(runs, [(0, ["1:0", "1:1"]), (1, ["1:2"]), (2, ["1:3", "1:4"]), (2, ["2:3"]), (3, ["2:4"]), (3, ["4:4"]),
                                (1, ["3:2"])])

    def test_marks(self):
        self.tree.follow(steps("a b e"))
        self.tree.marks["there"] = self.tree.here
        self.tree.follow(steps("a"))
        self.assertEqual(self.tree.find("there").name, "2:3")
        self.assertEqual(self.tree.names_of(self.tree.find("2:3")), ["there"])

    def test_a_long_way_takes_little_time_and_no_deep_stack(self):
        self.tree.follow(steps("a " * 20000))
        self.tree.follow(steps("a " * 10000), steps("a " * 10000))
        self.assertEqual(len(self.tree.find("5:20000").path), 20000)
        self.assertEqual(self.tree.here.name, "5:10000")
        self.assertEqual(sum(len(it.nodes) for it in self.tree.runs()), 20000 + 8)
