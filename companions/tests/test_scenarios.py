"""Scenarios by what their events are called: their text, and what is said of them in sessions of the program."""
import unittest

import pytest

from .helpers import PROGRAM, FolderTest
from lotos_companion.play import Play
from lotos_companion.program import Words
from lotos_companion.scenarios import (BadScenario, Event, Gap, Happens, Impossible, Kind, Scenario, Verdict, play_scenario,
                                       read_event, read_scenario, renamed_text, result_lines, scenario_text)

# A door with a bell that can be out of order; hidden steps with and without a choice between them.
DOOR = """specification Door [ring, open, shut] : noexit
library NaturalNumber endlib
behaviour
  hide wire, fuse in Bell[ring, wire, fuse](0) |[wire]| Porter[open, shut, wire]
where
  process Bell[ring, wire, fuse](n : Nat) : noexit :=
    ring; (wire !n; Bell[ring, wire, fuse](n) [] fuse; wire !Succ(n); Bell[ring, wire, fuse](Succ(n)))
  endproc
  process Porter[open, shut, wire] : noexit :=
    wire ?n:Nat; open !n; shut; Porter[open, shut, wire]
  endproc
endspec
"""


def lines(*given):
    """The text of a scenario with these lines."""
    return "\n".join(("lotos-scenario 1", *given)) + "\n"


class Texts(unittest.TestCase):
    """The text of a scenario."""

    def test_what_is_read(self):
        text = lines("# A comment.", "run: 'a file.lotos' with 'Succ(0)'", "possible: must", "states: 50", "",
                     "  put !Succ(0) !a # b", "..", "not get !0", "i", "i (send !0)", "i (i of There)",
                     "i (send !0, hidden in There at A in B[x](f(0, 1)), line 7)", "exit(0, f(0, 1))", "not !0", "not not", "not",
                     "i for 0, 1", "i (exit(0) before >> in P)", "i (exit)")
        scenario = read_scenario(text)
        self.assertEqual((scenario.kind, scenario.words, scenario.states),
                         (Kind.MUST, ("a file.lotos", "with", "Succ(0)"), 50))
        self.assertEqual(scenario.items, (
            Happens(Event("put", ("Succ(0)", "a # b")), 7), Gap(8), Impossible(Event("get", ("0",)), 9),
            Happens(Event(is_hidden=True), 10), Happens(Event("send", ("0",), True), 11),
            Happens(Event(is_hidden=True, process="There"), 12),
            Happens(Event("send", ("0",), True, "There", ("A", "B[x](f(0, 1))")), 13),
            Happens(Event("exit", ("0", "f(0, 1)")), 14), Happens(Event("not", ("0",)), 15), Impossible(Event("not"), 16),
            Happens(Event("not"), 17), Happens(Event(is_hidden=True, given=("0", "1")), 18),
            Happens(Event("exit", ("0",), True, "P"), 19), Happens(Event("exit", (), True), 20)))

    def test_what_is_written_is_read_again(self):
        items = tuple(Happens(read_event(it)) for it in (
            "put !Succ(0)", "i", "i (send !0 !1, hidden in P at Q)", "i (i of P)", "exit", "exit(0, 1)", "i (exit(0))",
            "i (exit before >> in P at Q in R)", "i for 0, f(1, 2)", "not !0"))
        for kind in Kind:
            scenario = Scenario((*items, Gap(), Impossible(read_event("get"))), kind, ("a b.lotos", "with", ""), 77)
            again = read_scenario(scenario_text(scenario, ("one", "two")))
            self.assertEqual(list(map(str, again.items)), list(map(str, scenario.items)))
            self.assertEqual((again.kind, again.words, again.states), (kind, scenario.words, 77))

    def test_the_place_of_a_fault(self):
        for text, line, why in (
                ("", 1, "the first line"), ("lotos-scenario 2\n", 1, "the first line"),
                (lines("# x", "put !"), 3, "a value is missing"), (lines("", "", "put 0"), 4, "put 0 is no gate"),
                (lines("put !f(0"), 2, "f(0 is no term"), (lines("..", "i (a b)"), 3, "a b is no gate"),
                (lines("i (send, hidden in a b)"), 2, "a b is no name of a process"), (lines("..."), 2, "is no gate"),
                (lines("possible: perhaps"), 2, "is one of may, must, never"), (lines("states: 0"), 2, "from 1 on"),
                (lines("wish: 1"), 2, "wish: is none of"), (lines("run:"), 2, "names a specification"),
                (lines("run: 'a"), 2, "no closing quotation"), (lines("put", "states: 1"), 3, "before the events"),
                (lines("states: 1", "states: 1"), 3, "in line 2 already")):
            with self.subTest(text):
                with self.assertRaises(BadScenario) as fault:
                    read_scenario(text)
                self.assertEqual(fault.exception.line, line)
                self.assertIn(why, fault.exception.why)

    def test_new_names_leave_all_else_as_it_is(self):
        text = lines("# There is a line.", "", "  i (i of There)", "There", "not i (send !0, hidden in There)  ", "..")
        new = renamed_text(text, read_scenario(text), lambda name: {"send": "give"}.get(name, name),
                           lambda name: {"There": "Line"}.get(name, name))
        self.assertEqual(new, lines("# There is a line.", "", "  i (i of Line)", "There", "not i (give !0, hidden in Line)", ".."))


class Played(FolderTest):
    """Scenarios in sessions."""

    def play(self, *given, spec="door.lotos", text=DOOR):
        """What comes of a scenario."""
        self.write("door.lotos", text)
        play = Play(PROGRAM, Words((spec,)))
        self.addCleanup(play.kill)
        return play_scenario(play, read_scenario(lines(*given)))

    def assert_verdict(self, verdict, *given, **more):
        result = self.play(*given, **more)
        self.assertEqual(result.verdict, verdict, list(result_lines(result)))
        return result

    def test_as_it_is_written(self):
        self.assert_verdict(Verdict.PASSED, "ring", "i", "i", "open !Succ(0)", "shut")
        self.assert_verdict(Verdict.PASSED, "RING", "..", "Open !0 + Succ(0)", "ring")
        self.assert_verdict(Verdict.FAILED, "ring", "open !0")
        self.assert_verdict(Verdict.FAILED, "ring", "i", "i", "open !0")

    def test_all_entries_are_tried_and_how_many_is_said(self):
        result = self.assert_verdict(Verdict.PASSED, "ring", "i", "open !0")
        self.assertEqual([it.step.number for it in result.taken], ["1", "2", "2"])
        self.assertEqual(list(result_lines(result)), ["step 2: i: one of 2"])
        self.assertEqual([it for it in result.trace if not it.startswith("at ")],
                         ["lotos-trace 2 Door", "1 => ring", "2 => i", "2 => open !0"])

    def test_where_it_parts(self):
        result = self.assert_verdict(Verdict.FAILED, "ring", "..", "open !Succ(Succ(0))", "shut")
        self.assertEqual(result.parting.item, 2)
        self.assertEqual([it.called for it in result.parting.taken], ["ring"])
        self.assertEqual(result.parting.possible, ("i", "ring", "open !Succ(0)", "open !0"))
        self.assertEqual(result.parting.nearest, "open !Succ(0)")
        self.assertEqual(list(result_lines(result)), [
            "parts at step 2 of 3", "  wanted:   open !Succ({Succ(}0){)}", "  possible: i", "            ring",
            "            open !Succ(0)", "            open !0", "  nearest:  open !Succ(0)"])

    def test_what_is_impossible(self):
        self.assert_verdict(Verdict.PASSED, "not open !0", "ring", "i", "not open !Succ(0)", "open !0", "not i", "shut")
        self.assert_verdict(Verdict.FAILED, "ring", "not i")
        # An event with a variable is tried with the value.
        self.assert_verdict(Verdict.FAILED, "not put !Succ(0)", spec="alternating_bit.lotos")
        self.assert_verdict(Verdict.PASSED, "put !0", "not put !0", spec="alternating_bit.lotos")

    def test_may_and_never(self):
        for kind, verdict in (("may", Verdict.PASSED), ("never", Verdict.FAILED)):
            self.assert_verdict(verdict, f"possible: {kind}", "ring", "open !0", "shut", "ring", "open !Succ(0)")
            self.assert_verdict(verdict, f"possible: {kind}", "put !0", "get !0", "put !Succ(0)", spec="alternating_bit.lotos")
        for kind, verdict in (("may", Verdict.FAILED), ("never", Verdict.PASSED)):
            self.assert_verdict(verdict, f"possible: {kind}", "ring", "open !Succ(Succ(0))")
            self.assert_verdict(verdict, f"possible: {kind}", "put !0", "get !Succ(0)", spec="alternating_bit.lotos")

    def test_must(self):
        safe = DOOR.replace("fuse; wire !Succ(n)", "fuse; wire !n")
        self.assert_verdict(Verdict.PASSED, "possible: must", "ring", "not shut", "open !0", "shut", "ring", text=safe)
        result = self.assert_verdict(Verdict.FAILED, "possible: must", "ring", "open !0")
        self.assertIn("  and then it is not possible, and there is no hidden step", list(result_lines(result)))
        result = self.assert_verdict(Verdict.FAILED, "possible: must", "ring", "not open !Succ(0)")
        self.assertIn("  and then it is possible", list(result_lines(result)))
        # A line that loses can lose for ever.
        result = self.assert_verdict(Verdict.FAILED, "possible: must", "put !0", "get !0", spec="alternating_bit.lotos")
        self.assertIn("  and then hidden steps can go on for ever", list(result_lines(result)))

    def test_what_the_bound_ends_is_inconclusive(self):
        endless = DOOR.replace("ring; (wire !n;", "fuse; Bell[ring, wire, fuse](Succ(n)) [] ring; (wire !n;")
        for kind in ("may", "never"):
            result = self.assert_verdict(Verdict.INCONCLUSIVE, f"possible: {kind}", "states: 60", "shut", text=endless)
            self.assertIn("not all was tried", result.said[0])
        self.assert_verdict(Verdict.INCONCLUSIVE, "states: 60", "..", "shut", text=endless)
        self.assert_verdict(Verdict.INCONCLUSIVE, "possible: must", "states: 60", "ring", text=endless)
        self.assert_verdict(Verdict.INCONCLUSIVE, "states: 2", "ring", "i", "open !0")
        # What is near is found all the same.
        self.assert_verdict(Verdict.PASSED, "possible: may", "states: 60", "ring", "open !Succ(0)", text=endless)

    @pytest.mark.slow
    def test_values_that_no_label_tells(self):
        choice = "specification S [g] : noexit library NaturalNumber endlib behaviour choice x:Nat [] i; g !x; stop endspec"
        self.assert_verdict(Verdict.PASSED, "i", "g !Succ(Succ(0))", text=choice)
        self.assert_verdict(Verdict.PASSED, "i for Succ(0)", "g !Succ(0)", text=choice)
        # There are more values than can be tried.
        for kind, item in (("must", "not h"), ("never", "h !0")):
            result = self.assert_verdict(Verdict.INCONCLUSIVE, f"possible: {kind}", item, text=choice)
            self.assertIn("not all values were tried of an entry with variables: their sorts have more than are tried", result.said)
        # Of these there are two.
        colour = "type C is sorts C opns red, blue : -> C endtype"
        two = choice.replace("library NaturalNumber endlib", colour).replace("Nat", "C")
        self.assert_verdict(Verdict.PASSED, "possible: must", "not h", text=two)
        self.assert_verdict(Verdict.FAILED, "i", "g !blue", "i", text=two)

    def test_all_values_of_a_sort_with_few_are_tried(self):
        choice = "specification S [g] : noexit library Boolean endlib behaviour choice x:Bool [] i; g !x; stop endspec"
        self.assert_verdict(Verdict.PASSED, "possible: must", "not h", text=choice)
        self.assert_verdict(Verdict.PASSED, "possible: never", "h !true", text=choice)
        self.assert_verdict(Verdict.FAILED, "possible: must", "g !true", text=choice)
        self.assert_verdict(Verdict.FAILED, "possible: never", "g !false", text=choice)

    def test_a_refused_specification(self):
        from lotos_companion.session import Ended
        with self.assertRaises(Ended):
            self.play("ring", text="specification")


class Made(FolderTest):
    """Scenarios made of traces and sessions."""

    @pytest.mark.slow
    def test_each_trace_and_session_makes_one_that_passes(self):
        for source, words in (("retransmission.trace", ["retransmission.lotos"]), ("car_park.trace", [
                "car_park.lotos", "with", "Succ(Succ(0))", "true"]), ("philosophers.trace", ["philosophers.lotos"])):
            with self.subTest(source):
                status, text, said = self.run_companion("lotos-trace", "scenario", source, *words)
                self.assertEqual((status, said), (0, ""))
                self.write("made.scenario", text)
                status, said, _ = self.run_companion("lotos-test", "made.scenario")
                self.assertEqual((status, said.split("\n")[0]), (0, "passed       made.scenario"))

    def test_of_a_session_and_of_visible_events_alone(self):
        self.write("s.session", "menu\nstep 1 Succ(0)\nstep 1\nundo\nstep 1\nnormal 0\n\nquit\nstep 1\n")
        status, text, _ = self.run_companion("lotos-trace", "scenario", "s.session", "alternating_bit.lotos")
        first, second = read_scenario(text).items
        self.assertEqual((status, str(first), second.event.is_hidden), (0, "put !Succ(0)", True))
        status, text, _ = self.run_companion("lotos-trace", "scenario", "--visible", "alternating_bit.trace",
                                             "alternating_bit.lotos")
        self.assertEqual((status, list(map(str, read_scenario(text).items))),
                         (0, ["put !Succ(0)", "..", "get !Succ(0)", ".."]))

    def test_a_trace_that_does_not_fit(self):
        status, text, said = self.run_companion("lotos-trace", "scenario", "dispenser.before.trace", "dispenser.lotos")
        self.assertEqual((status, text), (1, ""))
        self.assertIn("dispenser.before.trace: line 3, step 2 => button !coffee: did button !tea", said)


if __name__ == "__main__":
    unittest.main()
