"""What the tests of a project take of its source."""
import json
import os
import re
import unittest
import unittest.mock

from .helpers import PROGRAM, FolderTest, read
from lotos_companion.language import has_grammar
from lotos_companion.program import Words
from lotos_companion.testing.coverage import covered, merged
from lotos_companion.testing.coverage_text import coverage_lines
from lotos_companion.testing.found import Place

BELL = """specification Bell [ring, halt] : noexit (* Nothing here: <ring> *)
behaviour Waiting[ring, halt] where
  process Waiting[ring, halt] : noexit :=
    ring; (i; Waiting[ring, halt] [] halt; Other[halt])
  endproc
  process Other[halt] : noexit := hide quiet in (quiet; exit >> halt; stop) endproc
endspec
"""
SCENARIO = "lotos-scenario 1\nring\ni\nring\n"
SESSION = "step 1\nundo\nstep 1\nnormal 0\n"
REPORT = ("accepted Bell\ndata: 0 sorts, 0 operations, 0 equations\nevents 1\n1: ring\ndid ring\nevents 2\n1: i\n2: halt\nundone\n"
          "events 1\n1: ring\ndid ring\nevents 2\n1: i\n2: halt\nrefused 804 BadTerm 211\n")


@unittest.skipUnless(has_grammar(), "what tests take of the source, since there is no python3-lark")
class Covered(FolderTest):
    """How often each event, call and process is taken."""

    with_examples = False

    def setUp(self):
        super().setUp()
        self.write("bell.lotos", BELL)
        self.write("bell.scenario", SCENARIO)

    def taken(self, *words):
        """The status, and how often each site is taken, by its line and its name."""
        status, output, said = self.run_companion("lotos-test", "--coverage", "--json", *words)
        self.assertEqual(said, "")
        found = {it["specification"]: {(site["line"], site["kind"], site["name"]): site["taken"] for site in it["sites"]}
                 for it in json.loads(output)["coverage"]}
        return status, found

    def test_each_site_is_counted(self):
        status, found = self.taken()
        self.assertEqual((status, found), (0, {"bell.lotos": {
            (2, "call", "Waiting"): 1, (3, "process", "Waiting"): 2, (4, "event", "ring"): 2, (4, "event", "i"): 1,
            (4, "call", "Waiting"): 1, (4, "event", "halt"): 0, (4, "call", "Other"): 0, (6, "process", "Other"): 0,
            (6, "event", "quiet"): 0, (6, "end", ">>"): 0, (6, "event", "halt"): 0}}))

    def test_tests_are_added_up_and_undone_steps_are_taken_too(self):
        self.write("bell.session", SESSION)
        self.write("bell.report", REPORT)
        self.write("bell.whole.scenario", "lotos-scenario 1\npossible: must\nring\n")
        self.write("bell.ends.scenario", "lotos-scenario 1\nring\nhalt\ni (quiet)\ni\nhalt\n")
        status, found = self.taken("--jobs", "2")
        self.assertEqual(status, 0)
        sites = found["bell.lotos"]
        self.assertEqual((sites[4, "event", "ring"], sites[2, "call", "Waiting"], sites[3, "process", "Waiting"]), (6, 5, 6))
        self.assertEqual([sites[it] for it in ((4, "event", "halt"), (4, "call", "Other"), (6, "event", "quiet"),
                                               (6, "end", ">>"), (6, "event", "halt"))], [1] * 5)

    def test_text_and_page(self):
        os.mkdir("deep<b>")
        self.write("deep<b>/s.scenario", "lotos-scenario 1\nrun: ../bell.lotos\nring\n")
        status, output, _ = self.run_companion("lotos-test", "--coverage", "--coverage-page", "page.html")
        self.assertEqual(status, 0)
        lines = output.splitlines()
        self.assertEqual(lines[2:8], ["coverage of bell.lotos", "  2  2:11    Waiting[ring, halt] in Bell",
                                      "  3  3:11    process Waiting", "  3  4:5     ring in Waiting", "  1  4:12    i in Waiting",
                                      "  1  4:15    Waiting[ring, halt] in Waiting"])
        self.assertIn("  taken: 2 of 5 events, 0 of 1 ends, 2 of 3 calls, 1 of 2 processes", lines)
        self.assertTrue([it for it in lines if it.startswith("  not told: types and their equations")])
        page = read("page.html")
        self.assertIn('<span class="taken" title="event, taken 3 times">ring<span class="count">3</span></span>', page)
        self.assertIn('<span class="never" title="event, taken never">halt<span class="count">0</span></span>', page)
        self.assertIn("(* Nothing here: &lt;ring&gt; *)", page)
        shown = re.sub(r'<span class="(?:line|count)">\d+</span>', "", re.search(r"<pre>(.*?)</pre>", page, re.S)[1])
        self.assertEqual(re.sub(r"<[^>]*>", "", shown).replace("&lt;", "<").replace("&gt;", ">"), BELL.rstrip("\n"))

    def test_what_cannot_be_told_is_said(self):
        class Mute:
            """Stands for what tells the parts of events where it can tell nothing."""

            why_off = "the text is too large"

            def __init__(self, play):
                pass

            def steps(self):
                return [()]

            def occurrences(self):
                return ()

            def kill(self):
                pass

        with unittest.mock.patch("lotos_companion.testing.coverage.Actions", Mute):
            found = covered(PROGRAM, Place(Words(("bell.lotos",)), "."), ["step 1"])
        lines = list(coverage_lines(merged([found, found])[0]))
        self.assertIn("  nothing is told of the events of bell.lotos: the text is too large", lines)
        self.assertIn("  taken: nothing is known", lines)


if __name__ == "__main__":
    unittest.main()
