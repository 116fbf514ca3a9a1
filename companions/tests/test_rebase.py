"""Traces and scenarios carried over to edited specifications, by what events are called."""
import json
import os
import shutil
import unittest

import pytest

from .helpers import EXAMPLES, HERE, PROGRAM, FolderTest, read
from lotos_companion.language import has_grammar
from lotos_companion.naming import NamedPlay
from lotos_companion.program import Words
from lotos_companion.scenario import read_trace_file
from lotos_companion.scenarios import Verdict, play_scenario, read_scenario, result_lines
from lotos_companion.scenarios.called import Called

NAMES = ["put !Succ(0)", "i (send !Succ(0) !false)", "i (i of There)", "i (i of Waiting at Sender)", "i (send !Succ(0) !false)",
         "i (arrive !Succ(0) !false)", "get !Succ(0)", "i (answer !false)", "i (i of Back)", "i (i of Waiting at Sender)",
         "i (send !Succ(0) !false)", "i (arrive !Succ(0) !false)", "i (answer !false)", "i (done !false)"]
RENAMED = {"There": "Channel", "Waiting": "Pending", "Back": "Return", "Sender": "Transmitter", "Receiver": "Taker"}
LOSS = " [] i; There[send, arrive]"


def renamed(text, names):
    """A text with other names."""
    for old, new in names.items():
        text = text.replace(old, new)
    return text


@unittest.skipUnless(has_grammar(), "names of hidden events, since there is no python3-lark")
class Rebased(FolderTest):
    """Traces of the alternating bit."""

    def setUp(self):
        super().setUp()
        self.text = read("alternating_bit.lotos")
        shutil.copy(f"{HERE}/edits/alternating_bit_turned.lotos", "turned.lotos")

    def rebase(self, new, *words):
        return self.run_companion("lotos-trace", "rebase", *words, "alternating_bit.trace", "alternating_bit.lotos", new)

    def called(self, specification, path):
        """What the steps of a trace are called, which has to be one of this specification."""
        play = NamedPlay(PROGRAM, Words((specification,)))
        self.addCleanup(play.kill)
        play.open()
        names = []
        for step in read_trace_file(path).steps:
            play.take(step)
            names.append(str(Called(play).last_step(step.label)))
            self.assertEqual(play.ask("show").first, step.state)
        return names

    def assert_carried(self, new, names):
        status, trace, said = self.rebase(new)
        self.assertEqual(status, 0, trace)
        self.write("new.trace", trace)
        self.assertEqual(self.called(new, "new.trace"), names)
        return said

    def test_lines_and_stations_turned(self):
        self.assertEqual(self.assert_carried("turned.lotos", NAMES), "")

    def test_processes_renamed(self):
        self.write("renamed.lotos", renamed(self.text, RENAMED))
        said = self.assert_carried("renamed.lotos", [renamed(it, RENAMED) for it in NAMES])
        for old, new in RENAMED.items():
            self.assertIn(f"{old} is {new} here", said)

    @pytest.mark.slow
    def test_turned_and_renamed_with_hidden_gates(self):
        names = {**RENAMED, "arrive": "reach", "done": "settled", "Alternating_Bit": "Bit"}
        self.write("both.lotos", renamed(read("turned.lotos"), names))
        self.assert_carried("both.lotos", [renamed(it, names) for it in NAMES])

    def test_a_line_that_loses_nothing(self):
        self.write("safe.lotos", self.text.replace(LOSS, ""))
        status, said, _ = self.rebase("safe.lotos")
        self.assertEqual((status, said.splitlines()), (1, [
            "parts at step 3 of 14", "  wanted:   i (i of {There})", "  possible: i (i of Waiting at Sender)",
            "            i (arrive !Succ(0) !false)", "  nearest:  i (i of {Waiting at Sender})"]))
        # No other process stands for the one that lost it, whatever both are called.
        self.write("safe.lotos", renamed(self.text.replace(LOSS, ""), RENAMED))
        status, said, _ = self.rebase("safe.lotos")
        self.assertEqual((status, said.splitlines()[0]), (1, "parts at step 3 of 14"))

    @pytest.mark.slow
    def test_json(self):
        self.write("safe.lotos", self.text.replace(LOSS, ""))
        status, said, _ = self.rebase("safe.lotos", "--json")
        report = json.loads(said)
        self.assertEqual((status, report["verdict"], report["parts"]["step"], len(report["steps"])), (1, "failed", 3, 2))
        self.assertEqual(report["parts"]["wanted"], "i (i of There)")
        status, said, _ = self.rebase("turned.lotos", "--json")
        report = json.loads(said)
        self.assertEqual((status, [it["called"] for it in report["steps"]], report["parts"]), (0, NAMES, None))
        self.assertEqual((report["steps"][2]["choices"], report["trace"][0]), (1, "lotos-trace 2 Alternating_Bit"))

    @pytest.mark.slow
    def test_how_many_entries_are_called_the_same(self):
        status, trace, said = self.run_companion("lotos-trace", "rebase", "philosophers.trace", "philosophers.lotos",
                                                 "philosophers.lotos")
        self.assertEqual((status, trace), (0, read("philosophers.trace")))
        self.assertIn("step 5: i (up !Succ(0)): one of 2", said)

    @pytest.mark.slow
    def test_the_old_specification_is_found_beside_the_trace(self):
        os.mkdir("work")
        shutil.move("turned.lotos", "work/alternating_bit.lotos")
        status, trace, said = self.run_companion("lotos-trace", "rebase", "alternating_bit.trace", "work/alternating_bit.lotos")
        self.assertEqual(status, 0)
        self.write("new.trace", trace)
        self.assertEqual(self.called("work/alternating_bit.lotos", "new.trace"), NAMES)
        self.assertNotIn("not there", said)
        # Where it is not there, that is said.
        shutil.copy("alternating_bit.trace", "work")
        status, trace, said = self.run_companion("lotos-trace", "rebase", "work/alternating_bit.trace",
                                                 "work/alternating_bit.lotos")
        self.assertEqual(status, 0)
        self.assertIn("its old specification is not there", said)

    @pytest.mark.slow
    def test_what_does_not_fit(self):
        self.assertEqual(self.rebase("philosophers.lotos")[0], 1)
        status, trace, said = self.run_companion("lotos-trace", "rebase", "alternating_bit.trace", "turned.lotos", "turned.lotos")
        self.assertEqual((status, trace), (3, ""))
        self.assertIn("alternating_bit.trace: line 2", said)
        self.assertEqual(self.rebase("none.lotos")[0], 3)
        self.assertEqual(self.run_companion("lotos-trace", "rebase", "alternating_bit.trace")[0], 2)
        self.assertEqual(self.run_companion("lotos-trace", "rebase", "none.trace", "turned.lotos")[0], 3)


class Kept(FolderTest):
    """Scenarios that outlive an edit."""

    def played(self, spec, *lines):
        play = NamedPlay(PROGRAM, Words((spec,)))
        self.addCleanup(play.kill)
        return play_scenario(play, read_scenario("\n".join(("lotos-scenario 1", *lines)) + "\n"))

    def test_normal_forms_may_change(self):
        text = """specification S [g, h] : noexit
        type T is sorts T opns a, b, c : -> T f : T -> T eqns ofsort T f(a) = b; endtype
        behaviour hide k in g ?x:T; k !f(x); h !f(x); stop endspec"""
        lines = ("g !a", "i (k !b)", "h !b")
        self.write("s.lotos", text)
        self.assertEqual(self.played("s.lotos", *lines).verdict, Verdict.PASSED)
        self.write("s.lotos", text.replace("f(a) = b;", "f(a) = b; b = c;").replace("a, b, c : -> T", "c, b, a : -> T"))
        result = self.played("s.lotos", *lines)
        self.assertEqual((result.verdict, result.taken[-1].step.label), (Verdict.PASSED, "h !c"))
        self.assertEqual(self.played("s.lotos", "g !a", "i (k !a)").verdict, Verdict.FAILED)

    def test_without_names_nothing_is_sure(self):
        for lines, verdict in ((["i (send !0)"], Verdict.INCONCLUSIVE), (["i"], Verdict.PASSED), ([], Verdict.PASSED)):
            play = NamedPlay(PROGRAM, Words(("alternating_bit.lotos",)), with_names=False)
            self.addCleanup(play.kill)
            result = play_scenario(play, read_scenario("\n".join(("lotos-scenario 1", "put !0", *lines)) + "\n"))
            self.assertEqual(result.verdict, verdict)
            self.assertEqual([it.partition(" (")[0] for it in result.said],
                             ["hidden events have no names"] if verdict is Verdict.INCONCLUSIVE else [])

    @unittest.skipUnless(has_grammar(), "names of hidden events, since there is no python3-lark")
    def test_names_of_a_scenario_alone(self):
        self.write("s.lotos", renamed(read("alternating_bit.lotos"), RENAMED))
        result = self.played("s.lotos", *NAMES)
        self.assertEqual((result.verdict, len(result.taken)), (Verdict.PASSED, 14))
        self.assertEqual(result.renamed, {"There": "Channel", "Waiting": "Pending", "Back": "Return", "Sender": "Transmitter"})
        self.assertIn("There is Channel here", list(result_lines(result)))
        # Each name stands for one process throughout.
        result = self.played("s.lotos", *NAMES[:3], *[it.replace("Waiting", "There") for it in NAMES[3:]])
        self.assertEqual(result.verdict, Verdict.FAILED)

    @unittest.skipUnless(has_grammar(), "names of hidden events, since there is no python3-lark")
    def test_calls_of_one_process_are_told_apart(self):
        text = """specification S [g] : noexit behaviour hide a, b in One[a] ||| Two[b] where
        process One[x] : noexit := Loss[x] endproc process Two[x] : noexit := Loss[x] endproc
        process Loss[x] : noexit := i; x; stop endproc endspec"""
        self.write("s.lotos", text)
        self.assertEqual([it.called for it in self.played("s.lotos", "i (i of Loss at Two)", "i (b)", "i (i of Loss)").taken],
                         ["i (i of Loss at Two)", "i (b)", "i (i of Loss at One)"])
        self.assertEqual(self.played("s.lotos", "i (i of Loss at Two)", "i (a)").verdict, Verdict.FAILED)
        self.write("s.lotos", text.replace("Two", "Zwei"))
        self.assertEqual([it.called for it in self.played("s.lotos", "i (i of Loss at One)", "i (i of Loss at Two)").taken],
                         ["i (i of Loss at One)", "i (i of Loss at Zwei)"])


@unittest.skipUnless(has_grammar(), "names of hidden events, since there is no python3-lark")
class Carried(FolderTest):
    """The tests of a project, which `lotos-test --rebase` writes anew."""

    with_examples = False
    FILES = ("alternating_bit.lotos", "alternating_bit.session", "alternating_bit.report", "alternating_bit.trace")

    def setUp(self):
        super().setUp()
        for folder in (".", ".before"):
            os.makedirs(folder, exist_ok=True)
            for name in self.FILES:
                shutil.copy(f"{EXAMPLES}/{name}", folder)
        self.write("alternating_bit.scenario", "\n".join(("lotos-scenario 1", "# Lost once.", *NAMES)) + "\n")
        self.turned = read(f"{HERE}/edits/alternating_bit_turned.lotos")

    def ran(self, *words):
        status, said, _ = self.run_companion("lotos-test", *words)
        return status, {it.split()[-1]: it.rpartition(" ")[0].strip() for it in said.splitlines() if it[:1].isalpha()}, said

    def test_all_that_happens_in_the_edited_text_is_written_anew(self):
        self.write("alternating_bit.lotos", renamed(self.turned, RENAMED))
        status, endings, said = self.ran(".", "alternating_bit.trace")
        self.assertEqual((status, endings), (1, {"alternating_bit.scenario": "passed", "alternating_bit.session": "failed",
                                                 "alternating_bit.trace": "failed"}))
        status, endings, said = self.ran("--rebase", "--old", ".before", ".", "alternating_bit.trace")
        self.assertEqual((status, set(endings.values())), (0, {"carried over"}), said)
        self.assertIn("    written: alternating_bit.report\n", said)
        self.assertEqual(read("alternating_bit.scenario"), "\n".join(
            ("lotos-scenario 1", "# Lost once.", *(renamed(it, RENAMED) for it in NAMES))) + "\n")
        self.assertEqual(read("alternating_bit.session").split("\n")[:5],
                         ["equal not(not(true)), true", "step 1 Succ(0)", "step 1", "step 1", "step 1"])
        status, endings, _ = self.ran(".", "alternating_bit.trace")
        self.assertEqual((status, set(endings.values())), (0, {"passed"}))

    def test_what_does_not_happen_any_more_is_left_as_it_is(self):
        self.write("alternating_bit.lotos", read("alternating_bit.lotos").replace(LOSS, ""))
        before = {it: read(it) for it in os.listdir(".") if os.path.isfile(it)}
        status, endings, said = self.ran("--rebase", "--old", ".before", ".", "alternating_bit.trace")
        self.assertEqual((status, set(endings.values())), (1, {"failed"}))
        self.assertEqual(said.count("parts at step 3 of 14"), 2)
        self.assertIn("line 4: i (i of There) is not possible", said)
        self.assertEqual({it: read(it) for it in os.listdir(".") if os.path.isfile(it)}, before)

    @pytest.mark.slow
    def test_lines_of_all_kinds(self):
        typed = ["menu", "step 1 Succ(0)", "step 7", "undo", "step 1 0", "step 1", "step 2", "undo", "step 3", "normal 0", "quit"]
        self.write("alternating_bit.session", "\n".join(typed) + "\n")
        self.write("alternating_bit.lotos", self.turned)
        os.remove("alternating_bit.scenario")
        self.assertEqual(self.ran("--rebase")[0], 1)
        status, _, said = self.ran("--rebase", "--old", ".before")
        self.assertEqual(status, 0, said)
        self.assertEqual(read("alternating_bit.session").split("\n"),
                         ["menu", "step 1 Succ(0)", "step 7", "undo", "step 1 0", "step 1", "step 1", "undo", "step 3",
                          "normal 0", "quit", ""])
        self.assertEqual(self.ran()[0], 0)


if __name__ == "__main__":
    unittest.main()
