"""The outline of a specification, as lines and as a picture."""
import json
import unittest
from xml.etree import ElementTree

import pytest

from .helpers import FolderTest, read

pytest.importorskip("lark", reason="outlines, since there is no python3-lark")

TEXT = """specification Two [a, b] (n : Nat) : noexit
  library NaturalNumber endlib
  type Thing is Boolean
    formalsorts Thing
    formalopns none : -> Thing
  endtype
  type Box is Thing
    sorts Box
    opns empty : -> Box
         full : Thing -> Box
    eqns forall x : Thing ofsort Box full(none) = empty;
  endtype
  type Numbers is Box actualizedby NaturalNumber using
    sortnames Nat for Thing Numbers for Box opnnames 0 for none
  endtype
behaviour
  hide c in (P[a, c](n) |[c]| P[c, b](0) ||| Gone[a])
where
  process P[g, h](x : Nat) : exit(Nat) :=
    Q[g] >> Q[h] >> exit(x)
  where
    process Q[g] : exit := g; R[g] endproc
  endproc
  process R[h] : exit := h; exit endproc
endspec
"""
LINES = """1: specification Two[a, b](n : Nat) : noexit
    hides c
    calls P[a, c]
    calls P[c, b]
    calls Gone[a], which is not declared
  19: process P[g, h](x : Nat) : exit(Nat)
      calls Q[g]
      calls Q[h]
    22: process Q[g] : exit
        calls R[g]
  24: process R[h] : exit
libraries NaturalNumber
3: type Thing is Boolean (formal); sorts Thing, 1 operation
7: type Box is Thing; sorts Box, 2 operations, 1 equation
13: type Numbers is actualised: Box, NaturalNumber; sorts Numbers
"""


class OutlineTest(FolderTest):
    """`lotos-check --outline`."""

    def test_the_lines_of_an_outline(self):
        self.write("two.lotos", TEXT)
        self.assertEqual((0, LINES, ""), self.run_companion("lotos-check", "--outline", "two.lotos"))

    def test_the_values_of_an_outline(self):
        self.write("two.lotos", TEXT)
        status, said, _ = self.run_companion("lotos-check", "--outline", "--json", "two.lotos")
        outline = json.loads(said)
        self.assertEqual((0, ["Two", "P", "Q", "R"]), (status, [it["name"] for it in outline["parts"]]))
        self.assertEqual([1, 1, None], [it["of"] for it in outline["parts"][0]["calls"]])

    def test_a_picture_has_a_box_for_each_and_an_arrow_for_each_call(self):
        self.write("two.lotos", TEXT)
        self.assertEqual(0, self.run_companion("lotos-check", "--outline", "--picture", "two.svg", "two.lotos")[0])
        picture = ElementTree.fromstring(read("two.svg"))
        kinds = [it.get("class") for it in picture.iter()]
        self.assertEqual((4, 3, 5), (kinds.count("definition"), kinds.count("type"), kinds.count("arrow")))
        boxes = [it for it in picture.iter() if it.get("class") in ("definition", "type")]
        for number, one in enumerate(boxes):
            for other in boxes[:number]:
                self.assertFalse(self.overlap(one, other))

    def overlap(self, one, other):
        """Whether two boxes overlap."""
        def span(box, begin, size):
            return float(box.get(begin)), float(box.get(begin)) + float(box.get(size))
        pairs = [(span(one, *it), span(other, *it)) for it in (("x", "width"), ("y", "height"))]
        return all(first[0] < second[1] and second[0] < first[1] for first, second in pairs)

    def test_every_example_has_an_outline(self):
        for name in ("abracadabra", "shop", "sliding_window", "alternating_bit"):
            status, said, faults = self.run_companion("lotos-check", "--picture", f"{name}.svg", f"{name}.lotos")
            self.assertEqual((0, ""), (status, faults))
            self.assertNotIn("not declared", said)
            ElementTree.fromstring(read(f"{name}.svg"))

    def test_what_is_no_specification_has_none(self):
        self.write("bad.lotos", "specification S : noexit behaviour stop; endspec\n")
        status, said, faults = self.run_companion("lotos-check", "--outline", "bad.lotos")
        self.assertEqual((1, ""), (status, said))
        self.assertIn("bad.lotos: ; does not fit at 1:40", faults)
        self.assertEqual(3, self.run_companion("lotos-check", "--outline", "gone.lotos")[0])


if __name__ == "__main__":
    unittest.main()
