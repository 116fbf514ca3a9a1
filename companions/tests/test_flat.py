"""Where the parts of a flat text came from: looked at in the texts, and against what the program makes of marked equations."""
import json
import os
import subprocess
import unittest

import pytest

from .helpers import PROGRAM, FolderTest, read
from lotos_companion.checking.desk import Desk
from lotos_companion.checking.sources import Sources
from lotos_companion.flattening.flat import flat_parts
from lotos_companion.language import has_grammar
from lotos_companion.ordering.equations import read_data
from lotos_companion.program import Words

# A generic type that is actualised by a renamed one, and renamed once more; a type in a process; a library.
LAYERS = """specification Layers [g] : noexit
  library NaturalNumber, Marks endlib
  type Holder is
    formalsorts Thing
    formalopns nothing : -> Thing
    sorts Box
    opns empty : -> Box
         put : Thing, Box -> Box
         _beside_ : Box, Box -> Box
         look : Box -> Thing
    eqns forall t : Thing, b : Box
      ofsort Thing look(empty) = nothing; look(put(t, b)) = t;
      ofsort Box b beside empty = b;
  endtype
  type Seals is Marks renamedby sortnames Seal for Mark opnnames wax for ink endtype
  type Sealed is Holder actualizedby Seals using
    sortnames Seal for Thing
    opnnames wax for nothing
  endtype
  type Chests is Sealed renamedby sortnames Chest for Box opnnames _within_ for _beside_ endtype
  type Both is Chests, NaturalNumber
    opns weight : Chest -> Nat
    eqns ofsort Nat weight(empty) = 0;
  endtype
behaviour P[g]
where
  process P[g] : noexit := stop
  where
    type Inner is sorts Own opns own : -> Own endtype
  endproc
endspec
"""
MARKS = """type Marks is
  sorts Mark
  opns ink : -> Mark
       twice : Mark -> Mark
  eqns forall m : Mark ofsort Mark twice(twice(m)) = twice(m);
endtype
"""


def flatten(*words):
    """What the program prints."""
    done = subprocess.run([PROGRAM, "flatten", *words], stdout=subprocess.PIPE, check=False)
    return done.stdout.decode() if done.returncode == 0 else None


@unittest.skipUnless(has_grammar(), "the origins of flat texts, since there is no python3-lark")
class Origins(FolderTest):
    def found(self, name, spec):
        """The lines for a name."""
        return [it.line for it in flat_parts(Words((spec,)), flatten(spec)) if name.strip("_").lower() in it.names]

    def layers(self):
        self.write("Marks.lib", MARKS)
        return self.write("layers.lotos", LAYERS) and "layers.lotos"

    def test_lines(self):
        spec = self.layers()
        self.assertEqual(self.run_companion("lotos-flat", spec, "--find", "ink"),
                         (0, "operation ink : -> Mark <- Marks (Marks.lib:3)\n", ""))
        self.assertEqual(self.found("wax", spec), [
            "operation wax : -> Seal <- Marks (Marks.lib:3), written ink : -> Mark, renamed in Seals (layers.lotos:15)",
            "equation look(empty of Box) = wax <- Holder (layers.lotos:12), written look(empty) = nothing, actualised in Sealed "
            "(layers.lotos:16)",
            "equation look(empty of Chest) = wax <- Holder (layers.lotos:12), written look(empty) = nothing, actualised in Sealed "
            "(layers.lotos:16), renamed in Chests (layers.lotos:20)"])
        self.assertEqual(self.found("within", spec)[0],
                         "operation _within_ : Chest, Chest -> Chest <- Holder (layers.lotos:9), written _beside_ : Box, Box -> Box, "
                         "actualised in Sealed (layers.lotos:16), renamed in Chests (layers.lotos:20)")
        self.assertEqual(self.found("_beside_", spec)[0],
                         "operation _beside_ : Box, Box -> Box <- Holder (layers.lotos:9), actualised in Sealed (layers.lotos:16)")
        self.assertEqual(self.found("weight", spec)[1], "equation weight(empty of Chest) = 0 <- Both (layers.lotos:23)")
        self.assertEqual(self.found("own", spec), ["sort Own <- Inner (layers.lotos:29)", "operation own : -> Own <- Inner "
                                                   "(layers.lotos:29)"])
        self.assertIn("sort Nat <- NaturalNumber (library NaturalNumber:3)", self.found("Nat", spec))

    def test_the_parts_of_some_examples_are_found_where_they_are_written(self):
        self.assertGreater(self.told([("shop.lotos",), ("stacks.lotos",), ("countdown.lotos", "countdown.order")]), 100)

    @pytest.mark.slow
    def test_all_parts_of_the_examples_are_found_where_they_are_written(self):
        self.assertGreater(self.told([(it,) for it in sorted(os.listdir()) if it.endswith(".lotos")]), 500)

    def told(self, specs):
        """Looks at all parts of specifications: how many they are."""
        told = 0
        for words in specs:
            flat = flatten(*words)
            for part in flat_parts(Words(words), flat) if flat else ():
                with self.subTest(words[0], part=part.text):
                    self.assertTrue(part.origins)
                    for origin in part.origins:
                        self.stands_there(origin)
                    told += 1
        return told

    def stands_there(self, origin):
        """Looks for the first word of what is written in its line."""
        if not origin.file.startswith("library "):
            line = read(origin.file).split("\n")[origin.line - 1].lower()
            self.assertIn(origin.written.split()[0].split("(")[0].strip("_").lower(), line)

    def test_equations_come_from_where_the_program_has_them(self):
        specs = [self.layers(), "stacks.lotos", "bags.lotos"]
        for spec in specs:
            parts = flat_parts(Words((spec,)), flatten(spec))
            found = {(it.file, it.line) for part in parts if part.kind == "equation" for it in part.origins}
            with self.subTest(spec), Desk(PROGRAM) as desk:
                data = read_data(desk, Sources(Words((spec,))))
                self.assertEqual(found, {(it.written.place.text, it.written.place.line) for it in data.equations})
                self.assertTrue(found)

    def test_the_text_with_comments_says_the_same(self):
        for spec in (self.layers(), "stacks.lotos", "stop.lotos"):
            output = self.run_companion("lotos-flat", spec, "--text")[1]
            self.write("commented.lotos", output)
            self.assertEqual(flatten("commented.lotos"), flatten(spec))
            self.assertEqual(output.count("(* "), len(flat_parts(Words((spec,)), flatten(spec))))

    def test_for_scripts_and_what_is_wrong(self):
        found = json.loads(self.run_companion("lotos-flat", self.layers(), "--find", "WAX", "--json")[1])[0]
        self.assertEqual((found["kind"], found["text"], found["origins"][0]["through"][0]["type"]), ("operation", "wax : -> Seal", "Seals"))
        self.assertEqual(self.run_companion("lotos-flat", "stop.lotos", "--find", "none")[:2], (1, ""))
        self.assertEqual(self.run_companion("lotos-flat", "none.lotos"), (3, "", "cannot read none.lotos\n"))
        self.assertEqual(self.run_companion("lotos-flat")[0], 2)
        self.write("bad.lotos", "specification")
        status, output, said = self.run_companion("lotos-flat", "bad.lotos")
        self.assertEqual((status, output), (1, ""))
        self.assertIn("refused 104", said)


if __name__ == "__main__":
    unittest.main()
