"""Files that the shell and its pictures write: what is there already, and blanks that have to stay."""
import glob
import os
import subprocess
import xml.etree.ElementTree as tree

from .helpers import PROGRAM, TOP, FolderTest, find_tool, read
from lotos_companion.terminal_picture import terminal_picture

SPACE = "{http://www.w3.org/XML/1998/namespace}space"
BISIM_SPEC = "specification S [g] : noexit type T is sorts S opns a, b : -> S endtype behaviour {} endspec"
PAIRS = "l 0 1\nl 0 2\nr 0 1\nr 0 2\np 0 0\np 1 1\np 2 2\n"


class Saving(FolderTest):
    """`save` where something has the name."""

    def test_a_folder(self):
        os.mkdir("kept")
        _, output, _ = self.run_companion("lotos-shell", "stop.lotos", typed="save kept\nsave! kept\nsave kept/trace\n")
        self.assertEqual(output.split("\n")[-4:-1], ["# not saved: kept is a folder", "refused 808 Unwritten kept", "saved kept/trace"])
        self.assertEqual(os.listdir("kept"), ["trace"])

    def test_a_file(self):
        self.write("kept", "x")
        _, output, _ = self.run_companion("lotos-shell", "stop.lotos", typed="save kept\n")
        self.assertEqual(output.split("\n")[-2], "# not saved: kept is there (save! kept writes over it)")
        self.assertEqual(read("kept"), "x")
        self.run_companion("lotos-shell", "stop.lotos", typed="save! kept\n")
        self.assertEqual(read("kept"), "lotos-trace 2 Idle\n")


class Blanks(FolderTest):
    """Pictures as SVG, which programs that are no browsers show too."""

    def test_blanks_stay(self):
        _, chart, _ = self.run_companion("lotos-trace", "chart", "alternating_bit.trace", "alternating_bit.lotos")
        for text in (chart, terminal_picture(["a    b"], 20, "t"), *map(read, glob.glob(f"{TOP}/docs/*.svg"))):
            picture = tree.fromstring(text)
            for it in picture.iter("{http://www.w3.org/2000/svg}text"):
                if "  " in (it.text or ""):
                    self.assertIn("preserve", (picture.get(SPACE), it.get(SPACE)))
            self.assertEqual(picture.get(SPACE), "preserve")

    def test_they_are_drawn(self):
        draw = find_tool("rsvg-convert")
        if not draw:
            self.skipTest("a picture that is drawn, since there is no rsvg-convert")
        drawn = []
        for line in ("a" + " " * 8 + "b", "a b"):
            self.write("one.svg", terminal_picture([line], 20, "t").replace('lengthAdjust="spacingAndGlyphs"', "")
                       .replace("textLength", "data-length"))
            drawn.append(subprocess.run([draw, "one.svg"], stdout=subprocess.PIPE, check=True).stdout)
        self.assertNotEqual(*drawn)


class OpenMenus(FolderTest):
    """What `docs/BISIMULATION.md` says of entries with variables."""

    def test_values_with_choices_between_them_have_no_variable(self):
        self.write("closed.lotos", BISIM_SPEC.format("g !a; stop [] g !b; g !a; stop"))
        self.write("open.lotos", BISIM_SPEC.format("choice x:S [] g !x; stop"))
        self.write("pairs", PAIRS)
        answers = [subprocess.run([PROGRAM, "bisim", it, it, "pairs"], stdout=subprocess.PIPE, check=False).stdout.decode()
                   for it in ("closed.lotos", "open.lotos")]
        self.assertTrue(answers[1].startswith("refused 905 OpenMenu"), answers)
        self.assertFalse(answers[0].startswith("refused 905"), answers)
