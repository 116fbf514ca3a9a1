"""The commands of the shell, typed into a pipe: what each answers, and what it leaves as it was."""
import os
import re
import signal
import subprocess
import unittest

import pytest

from .helpers import COMPANIONS, EXAMPLES, PROGRAM, FolderTest, read
from lotos_companion.language import has_grammar
from lotos_companion.traces import read_trace_text

LABELS = """specification Labels [g, h, done] : exit(Nat) library NaturalNumber endlib
behaviour
  g !0; h !0; exit(0) [] g !Succ(0) ?b:Bool; stop [] g ?x:Nat [x lt Succ(Succ(Succ(0)))]; h !(x + Succ(0)); exit(x)
  [] done; stop [] i; exit(any Nat)
  [] choice x:Nat [] [x lt Succ(Succ(0))] -> h !(x + Succ(Succ(0))); exit(x)
endspec
"""
RENAMED = """specification Renamed [g] : noexit library NaturalNumber endlib
type Octet is NaturalNumber renamedby sortnames Octet for Nat opnnames 0 for 0 endtype
type Box is formalsorts Element sorts Box opns full : Element -> Box endtype
type OctetBox is Box actualizedby Octet using sortnames Octet for Element OctetBox for Box endtype
behaviour Loop[g](0) where
process Loop[g](n : Nat) : noexit := g ?x:Nat ?y:Octet [Succ(n) lt x]; g ?b:OctetBox !n; Loop[g](x) endproc endspec
"""
LINE = """specification Line [put, get] : noexit library NaturalNumber endlib
behaviour hide pass in First[put, pass] |[pass]| Second[pass, get] where
process First[put, pass] : noexit := put ?x:Nat; pass !x; First[put, pass] endproc
process Second[pass, get] : noexit := pass ?x:Nat; get !x; Second[pass, get] [] i; stop endproc endspec
"""


class CommandTest(FolderTest):
    """Lines that are typed one after another."""

    def answers(self, words, *lines, options=()):
        """What is answered to each line; the first menu is left out."""
        typed = "".join(f"{it}\nfind ~\n" for it in ("find ~", *lines))
        status, output, said = self.run_companion("lotos-shell", *options, *words, typed=typed)
        self.assertEqual((status, said), (0, ""))
        return re.split(r"^# 0 of \d+\n", output, flags=re.M)[2:-1]

    def state(self, words, *lines, options=()):
        """The last answers, to `show` and `trace`, behind some lines."""
        return self.answers(words, *lines, "show", "trace", options=options)[-2:]


class Gates(CommandTest):
    """Events that are taken by what they are called."""

    def setUp(self):
        super().setUp()
        self.write("labels.lotos", LABELS)

    def steps(self, *lines, before=(), options=()):
        """What is answered to each of these lines in the state behind others."""
        typed = [it for line in lines for it in (line, f"goto {len(before)}")]
        return dict(zip(lines, self.answers(["labels.lotos"], *before, *typed, options=options)[len(before)::2]))

    def test_one_entry_fits(self):
        labels = {"step done": "done", "step DONE": "done", "step g !Succ(0) !true": "g !Succ(0) !true",
                  "step g Succ(0), true": "g !Succ(0) !true", "step g !(Succ(0) + Succ(0))": "g !Succ(Succ(0))",
                  # Values behind operations are found.
                  "step h !Succ(Succ(Succ(0)))": "h !Succ(Succ(Succ(0)))"}
        for line, answer in self.steps(*labels).items():
            self.assertTrue(answer.startswith(f"did {labels[line]}\n"), (line, answer))

    def test_several_entries_fit_and_none_is_taken(self):
        said = self.steps("step g 0", "step g", "trace")
        self.assertEqual(said["step g 0"], "1: g !0\n3: g !$1 for $1:Nat if $1 lt Succ(Succ(Succ(0))) = true\n"
                         "# 2 entries fit: take one by its number\n")
        self.assertTrue(said["step g"].endswith("# 3 entries fit: take one by its number\n"))
        self.assertEqual(said["trace"], "lotos-trace 2 Labels\n")

    def test_none_fits(self):
        wanted = {"step g 0, 0": "# none of these comes to g !0 !0\n", "step g true": "refused 804 BadTerm 212\n",
                  "step exit": "# no entry is at exit\n", "step nowhere": "refused 801 BadCommand\n",
                  "step g !Succ(Succ(Succ(0)))": "refused 806 Unmet false is not true\n",
                  "step h !Succ(0)": "# none of these comes to h !Succ(0)\n"}
        for line, answer in self.steps(*wanted).items():
            self.assertTrue(answer.endswith(wanted[line]), (line, answer))

    def test_an_entry_that_asks_for_values(self):
        said = self.steps("step exit", "step exit(Succ(0))", "step exit 0", before=("step i",))
        self.assertTrue(said["step exit"].endswith("# it asks for 1 value: step exit TERM, .. (1 ? lists some that fit)\n"))
        self.assertTrue(said["step exit(Succ(0))"].startswith("did exit(Succ(0))\n"))
        self.assertTrue(said["step exit 0"].startswith("did exit(0)\n"))

    def test_decimal_numbers(self):
        said = self.steps("step g 2", "step h 3", options=["--numbers"])
        self.assertTrue(said["step g 2"].startswith("did g !2\n"))
        self.assertTrue(said["step h 3"].startswith("did h !3\n"))

    @unittest.skipUnless(has_grammar(), "names of hidden events, since there is no python3-lark")
    def test_hidden_events_by_name(self):
        self.write("line.lotos", LINE)
        answers = self.answers(["line.lotos"], "step put 2", "step pass", "undo", "step pass !1", "step pass 2",
                               options=["--names", "--numbers"])
        self.assertTrue(answers[1].startswith("did i (pass !2, hidden in Line)\n"))
        self.assertIn("# no entry is at pass !1\n", answers[3])
        self.assertTrue(answers[4].startswith("did i (pass !2, hidden in Line)\n"))


class CopiedLines(CommandTest):
    """Lines that were copied from a menu, or from what `instances` prints."""

    def test_lines_of_instances(self):
        answers = self.answers(["entries.lotos"], "instances 1 3", "1 0, Succ(0) => pair !0 !Succ(0)", "undo",
                               "7 0, Succ(0) => pair !0 !Succ(0)", "undo", "1 0, Succ(0) => other !0", "1 0, 0 => pair !0 !0",
                               "1 0, Succ(0) => pair !0 !Succ(Succ(0))")
        self.assertIn("1 0, Succ(0) => pair !0 !Succ(0)\n", answers[0])
        for place in (1, 3):
            self.assertTrue(answers[place].startswith("did pair !0 !Succ(0)\n"))
        self.assertEqual(answers[5], "# the menu has no other !0\n")
        self.assertEqual(answers[6], "refused 806 Unmet false is not true\n")
        self.assertTrue(answers[7].startswith("did pair !0 !Succ(Succ(0))\n"))

    def test_lines_of_menus(self):
        self.write("labels.lotos", LABELS)
        answers = self.answers(["labels.lotos"], "1: g !0", "undo", "9: g !0", "undo", "1: done", "undo",
                               "3: g !$1 for $1:Nat if $1 lt Succ(Succ(Succ(0))) = true", "2: h !0", "1: i", "1: no !0")
        for place, label in ((0, "g !0"), (2, "g !0"), (4, "done"), (8, "i")):
            self.assertTrue(answers[place].startswith(f"did {label}\n"), answers[place])
        self.assertEqual(answers[6], "# it asks for 1 value: 3 TERM, .. (3 ? lists some that fit)\n")
        self.assertTrue(answers[7].endswith("# none of these comes to h !0\n"))
        self.assertEqual(answers[9], "# the menu has no no !0\n")

    @unittest.skipUnless(has_grammar(), "names of hidden events, since there is no python3-lark")
    def test_as_they_are_shown_with_names_and_numbers(self):
        self.write("line.lotos", LINE)
        answers = self.answers(["line.lotos"], "1 2", "menu", "1: i (pass !2, hidden in Line)", "3: get !2",
                               options=["--names", "--numbers"])
        self.assertIn("1: i (i of Second)\n", answers[1])
        self.assertTrue(answers[2].startswith("did i (pass !2, hidden in Line)\n"))
        self.assertIn("did get !2\n", answers[3])


@unittest.skipUnless(has_grammar(), "names of hidden events, since there is no python3-lark")
class NamesOff(CommandTest):
    """Names that cannot be told: the shell says so with a word, and goes on without them."""

    def test_a_second_session_that_is_killed(self):
        self.write("line.lotos", LINE)
        with subprocess.Popen([f"{COMPANIONS}/lotos-shell", "--names", "line.lotos"], stdin=subprocess.PIPE, stdout=subprocess.PIPE,
                              env={**os.environ, "LOTOS": PROGRAM}) as shell:
            self.addCleanup(shell.kill)
            self.typed(shell, "step put 0", "find ~")
            said = self.until_found(shell)
            self.assertIn("2: i (pass !0, hidden in Line)", said)
            sessions = [it for it in read(f"/proc/{shell.pid}/task/{shell.pid}/children").split()
                        if "line.lotos" not in read(f"/proc/{it}/cmdline").split("\0")]
            self.assertEqual(len(sessions), 1)
            os.kill(int(sessions[0]), signal.SIGKILL)
            self.typed(shell, "2", "find ~")
            said = self.until_found(shell)
            self.assertIn("# hidden events have no names: the second session ended by the signal 9", said)
            self.assertTrue({"did i", "2: get !0"} <= set(said), said)
            self.typed(shell, "undo", "find ~")
            self.assertTrue({"undone", "2: i"} <= set(self.until_found(shell)))

    def test_a_text_that_is_too_large(self):
        self.write("large.lotos", f"specification S [g] : noexit behaviour {'g; (i; stop) ||| ' * 410} stop endspec")
        answers = self.pipe_once("large.lotos", "step 1\nstep 1\n")
        self.assertIn("# hidden events have no names: more than 400 fresh gates", answers)

    def pipe_once(self, spec, typed):
        """What a shell with names writes."""
        status, output, said = self.run_companion("lotos-shell", "--names", spec, typed=typed)
        self.assertEqual((status, said), (0, ""))
        return output

    def typed(self, shell, *lines):
        shell.stdin.write("".join(f"{it}\n" for it in lines).encode())
        shell.stdin.flush()

    def until_found(self, shell):
        """The lines up to the answer to `find ~`."""
        lines = []
        while not lines or not lines[-1].startswith("# 0 of "):
            lines.append(shell.stdout.readline().decode()[:-1])
            self.assertTrue(lines[-1])
        return lines


class FittingValues(CommandTest):
    """`N ?`."""

    def test_values_are_listed_that_can_be_typed(self):
        self.write("renamed.lotos", RENAMED)
        said, = self.answers(["renamed.lotos"], "1 ?")
        lines = said.split("\n")[:-1]
        self.assertEqual(lines[0], "1 Succ(Succ(0 of Nat)), 0 of Octet")
        self.assertEqual(lines[-1], "# 20 choices of values that fit; there may be more")
        for answer in self.answers(["renamed.lotos"], lines[0], "undo", lines[1])[::2]:
            self.assertIn("did g !", answer)

    def test_shown_with_decimal_numbers(self):
        said = self.answers(["buffer.lotos"], "1 ?", "step 1 ?", options=["--numbers"])
        self.assertEqual(said[0].split("\n")[:3], ["1 0", "1 1", "1 2"])
        self.assertEqual(said[0], said[1])

    def test_where_there_is_nothing_to_list(self):
        said = self.answers(["stop.lotos"], "1 ?")
        self.assertEqual(said, ["refused 804 BadTerm 104\n"])
        self.write("labels.lotos", LABELS)
        self.assertEqual(self.answers(["labels.lotos"], "1 ?"), ["# entry 1 asks for no values\n"])


class Ways(CommandTest):
    """`until`."""

    def test_a_shortest_way_by_hidden_steps(self):
        answer = self.answers(["alternating_bit.lotos"], "1 0", "until get")[1]
        self.assertEqual([it for it in answer.split("\n") if it.startswith("did")], ["did i", "did i", "did get !0"])
        self.assertIn("# 3 steps, a shortest way (", answer)

    def test_values_that_are_wanted_and_values_that_do_not_matter(self):
        spec = ["alternating_bit.lotos"]
        self.assertIn("did get !Succ(Succ(0))", self.answers(spec, "until get !2", options=["--numbers", "--color=never"])[0]
                      .replace("get !2", "get !Succ(Succ(0))"))
        self.assertIn("did get !0", self.answers(spec, "until get ?")[0])
        self.assertIn("did get !Succ(Succ(Succ(Succ(0))))",
                      self.answers(spec, "until get !Succ(Succ(Succ(Succ(0))))")[0])

    def test_where_none_is_found_the_session_stays(self):
        for spec, line, why in (("token_ring.lotos", "until nowhere", "there is none ("),
                                ("alternating_bit.lotos", "until get within 2", "within 2 steps there is none ("),
                                ("buffer.lotos", "until take !(Succ(Succ(0)) + Succ(Succ(0)))", "there is none with values of at most 7 operations (")):
            with self.subTest(spec):
                before = self.state([spec], "1 0" if spec == "buffer.lotos" else "menu", "undo", "redo")
                behind = self.state([spec], "1 0" if spec == "buffer.lotos" else "menu", "undo", line, "redo")
                self.assertEqual(before, behind)
                self.assertIn(f"# found no way: {why}", self.answers([spec], line)[0])

    def test_what_is_no_goal(self):
        said = self.answers(["buffer.lotos"], "until", "until take !nothing", "until !0")
        self.assertEqual(said[0], "# usage: until GATE [!TERM|?..] [within N]\n")
        self.assertEqual(said[1], "# nothing: refused 804 BadTerm 211\n")
        self.assertEqual(said[2], said[0])


class Branching(CommandTest):
    """Back and forth, branches and marks."""

    def test_branches_and_marks(self):
        said = self.answers(["dispenser.lotos"], "1 fifty", "1 coffee", "mark coffee", "back", "2", "branches", "goto coffee", "branches",
                            "goto 2:", "back 2", "redo 2", "goto 1:1", "goto 3:1", "goto 2:9", "goto tea", "mark 1", "mark", "goto coffee",
                            "goto coffee")
        self.assertEqual(said[5], "# 1:0-1  coin !fifty\n#   1:2  button !coffee (coffee)\n#   2:2  button !tea <- here\n")
        self.assertEqual(said[6], "undone\ndid button !coffee\nevents 1\n1: cup !coffee\n")
        self.assertEqual(said[7], "# 1:0-1  coin !fifty\n#   1:2  button !coffee (coffee) <- here\n#   2:2  button !tea\n")
        self.assertEqual(said[8], "undone\ndid button !tea\nevents 0\n")
        self.assertIn("did coin !fifty\ndid button !tea\n", said[10])
        self.assertIn("undone\nevents 2\n", said[11])
        for place, name in ((12, "3:1"), (13, "2:9"), (14, "tea")):
            self.assertEqual(said[place], f"# there is no {name}: branches shows what there is\n")
        self.assertEqual(said[15], "# the name of a mark begins with a letter, and has letters, digits and _.- behind it\n")
        self.assertEqual(said[16], "# coffee is 1:2\n# this is 1:1\n")
        self.assertEqual(said[18], "# this is that state\n")

    def test_what_was_undone_is_redone_along_its_branch(self):
        said = self.answers(["alternating_bit.lotos"], "replay alternating_bit.trace", "goto 3", "1", "goto 1:5", "redo 9", "goto 2:", "redo")
        self.assertEqual(said[4].count("did "), 9)
        self.assertEqual(said[6], "# nothing to redo\n")

    def test_each_step_of_a_command_has_its_place_in_the_tree(self):
        said = self.answers(["alternating_bit.lotos"], "random 40 1", "goto 20", "random 20 2", "branches", "goto 1:40", "goto 2:40")
        fork = int(re.match(r"# 1:0-(\d+) ", said[3])[1])
        self.assertGreaterEqual(fork, 20)
        for place in (4, 5):
            self.assertEqual((said[place].count("undone"), said[place].count("did ")), (40 - fork, 40 - fork))


@unittest.skipUnless(has_grammar(), "states as trees, since there is no python3-lark")
class States(CommandTest):
    """`state`."""

    def test_components_in_normal_form_with_what_moved(self):
        said = self.answers(["alternating_bit.lotos"], "state", "1 2", "state", "auto", "state", "3", "state", "find no",
                            options=["--numbers"])
        head = "#   hide send, arrive, answer, done in\n#     |[send, arrive, answer, done]|\n#       |||\n"
        self.assertEqual(said[0], f"{head}#         Sender[put, send, done](false)\n#         Receiver[get, arrive, answer](false)\n"
                         "#       |||\n#         There[send, arrive]\n#         Back[answer, done]\n")
        self.assertIn("# >       send !2 !false; Waiting[put, send, done](2, false)\n", said[2])
        self.assertEqual(said[6], f"{head}#         Waiting[put, send, done](2, false)\n"
                         "# >       get !2; answer !false; Receiver[get, arrive, answer](true)\n"
                         "#       |||\n# >       There[send, arrive]\n#         Back[answer, done]\n")

    def test_the_session_stays_as_it_was(self):
        lines = ("replay alternating_bit.trace", "goto 9")
        before = self.state(["alternating_bit.lotos"], *lines)
        behind = self.state(["alternating_bit.lotos"], *lines, "state", "state", options=["--names"])
        self.assertEqual(before, behind)
        redone = self.answers(["alternating_bit.lotos"], *lines, "state", "redo 5")[-1]
        self.assertEqual(redone.count("did "), 5)

    def test_variables_named_like_constants_are_left(self):
        self.write("shadow.lotos", """specification Shadow [g, h] : noexit library NaturalNumber endlib
type T is NaturalNumber opns one : -> Nat eqns ofsort Nat one = Succ(0); endtype
behaviour g !one; (g ?one:Nat; h !one !(one + 0); stop [> h !one; stop) endspec""")
        said = self.answers(["shadow.lotos"], "state", "1", "state", "step g 0", "state", options=["--numbers"])
        self.assertEqual(said[0], "#   g !one; (g ?one:Nat; h !one !one + 0; stop [> h !one; stop)\n")
        self.assertEqual(said[2].split("\n")[:2], ["#   [> h !one; stop", "# >   g ?one:Nat; h !one !one + 0; stop"])
        self.assertEqual(said[4].split("\n")[1], "# >   h !0 !0; stop")

    def test_what_comes_back_to_where_it_was_is_marked_too(self):
        self.write("loop.lotos", "specification Loop [g] : noexit behaviour P[g] ||| P[g] ||| P[g] where\n"
                   "process P[g] : noexit := g; P[g] endproc endspec")
        said = self.answers(["loop.lotos"], "2", "state")
        self.assertEqual(said[1], "#   |||\n#     P[g]\n# >   P[g]\n#     P[g]\n")

    def test_a_state_that_is_deep(self):
        deep = " |[g]| ".join(["g; stop"] * 400)
        self.write("deep.lotos", f"specification Deep [g] : noexit behaviour {deep} endspec")
        said, = self.answers(["deep.lotos"], "state")
        self.assertEqual(said.count("g; stop"), 400)


class Chances(CommandTest):
    """`random`."""

    def test_renamed_and_overloaded_sorts_do_not_end_it(self):
        self.write("renamed.lotos", RENAMED)
        said, = self.answers(["renamed.lotos"], "random 12 1")
        self.assertIn("# 12 steps with the seed 1\n", said)
        self.assertEqual(said.count("did g !"), 12)

    def test_a_seed_gives_the_same_steps_again(self):
        one, _, other, third = self.answers(["buffer.lotos"], "random 30 5", "goto 0", "random 30 5", "random 30")
        self.assertEqual(one, other)
        self.assertRegex(third, r"# 30 steps with the seed \d+\n$")

    @pytest.mark.slow
    def test_no_example_ends_it_early(self):
        for spec in ("buffer", "shop", "retransmission", "sliding_window", "ticket_office", "vote", "two_phase_commit", "inres"):
            words = read(f"{EXAMPLES}/{spec}.words").split() if spec == "sliding_window" else [f"{spec}.lotos"]
            said, = self.answers(words, "random 200 3")
            self.assertTrue("# 200 steps with the seed 3\n" in said or ", and nothing is possible" in said, (spec, said[-300:]))


@unittest.skipUnless(has_grammar(), "names of hidden events, since there is no python3-lark")
class Edits(CommandTest):
    """A specification that is edited while the shell has it."""

    def reloaded(self, before, text, behind, options=("--names",)):
        """What is answered to lines behind an edit, which stand behind others."""
        done, told = self.pipe(("lotos-shell", *options, "edited.lotos"), before)
        self.write("edited.lotos", text)
        return self.pipe(done, behind, told)

    def pipe(self, shell, lines, told=None):
        """Types lines into a shell that runs or is begun: its answers."""
        if told is None:
            process = subprocess.Popen([f"{COMPANIONS}/{shell[0]}", *shell[1:]], stdin=subprocess.PIPE, stdout=subprocess.PIPE,
                                       env={**os.environ, "LOTOS": PROGRAM})
            self.addCleanup(process.stdout.close)
            self.addCleanup(process.kill)
        else:
            process = shell
        process.stdin.write("".join(f"{it}\n" for it in (*lines, "find ~")).encode())
        process.stdin.flush()
        answers = []
        while not answers or not answers[-1].startswith("# 0 of "):
            answers.append(process.stdout.readline().decode()[:-1])
            self.assertTrue(answers[-1])
        if told is None:
            return process, answers
        process.stdin.close()
        process.wait()
        return answers

    def test_hidden_events_that_were_turned_are_looked_for_by_what_they_are_called(self):
        text = read("alternating_bit.lotos")
        sides = ("(Sender[put, send, done](false) ||| Receiver[get, arrive, answer](false))",
                 "(There[send, arrive] ||| Back[answer, done])")
        turned = text.replace(sides[0], "x").replace(sides[1], sides[0]).replace("x\n", f"{sides[1]}\n")
        self.assertNotEqual(text, turned)
        self.write("edited.lotos", text)
        said = self.reloaded(["replay alternating_bit.trace"], turned, ["reload", "rebase", "rebase", "trace"])
        self.assertIn("# rebase looks for the other steps by what their events are called", said)
        self.assertIn("# 14 steps in place of 14", said)
        self.assertIn("# there is nothing that a reload lost", said)
        kept = [it.partition(" => ")[2] for it in said[said.index("lotos-trace 2 Alternating_Bit"):] if " => " in it]
        self.assertEqual(kept, [it.label for it in read_trace_text(read("alternating_bit.trace")).steps])

    def test_where_the_edited_text_parts(self):
        text = read("dispenser.lotos")
        self.write("edited.lotos", text)
        said = self.reloaded(["1 fifty", "1 coffee", "1"], text.replace("cup !d", "cup !tea"), ["reload", "rebase", "rebase"])
        self.assertIn("# 2 of 3 steps taken again", said)
        self.assertEqual(said.count("# parts at step 3 of 3"), 2)
        self.assertIn("#   nearest:  cup !{tea}", said)
        self.assertEqual(said[-1], "# 0 of 1")

    def test_processes_that_were_renamed_are_no_hindrance(self):
        text = read("alternating_bit.lotos")
        self.write("edited.lotos", text)
        renamed = text.replace("Waiting", "Resting").replace("There", "Over")
        said = self.reloaded(["replay alternating_bit.trace"], renamed, ["reload", "rebase"])
        self.assertTrue("# 14 of 14 steps taken again" in said or "# 14 steps in place of 14" in said)
