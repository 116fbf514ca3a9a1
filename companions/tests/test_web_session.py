"""What stands behind the page: places and branches, components of a state, specifications side by side, recorded scenarios."""
import json
import re
import sys
import unittest.mock

from .helpers import PROGRAM, FolderTest
from lotos_companion.components import read_state
from lotos_companion.program import Words
from lotos_companion.web.export import export_page, one_script
from lotos_companion.web.page_session import PageSession
from lotos_companion.web.places import Places
from lotos_companion.web.recording import record
from lotos_companion.web.server import static_files
from lotos_companion.web.state_text import called, parts_of
from lotos_companion.web.views import moving_view
from lotos_companion.traces import Step

PAIR = """specification Pair [in_, out] : noexit
behaviour
  hide mid in Left[in_, mid] |[mid]| Right[mid, out]
where
  process Left[in_, mid] : noexit := in_; mid; Left[in_, mid] endproc
  process Right[mid, out] : noexit := mid; out; Right[mid, out] [] mid; i; Right[mid, out] endproc
endspec
""".replace("in_", "give")
SURE = PAIR.replace(" [] mid; i; Right[mid, out]", "")


class Tree(FolderTest):
    """Places and the branches between them."""

    with_examples = False

    def test_places(self):
        tree = Places()
        one, two, other = (Step(str(it), "", "g") for it in (1, 2, 3))
        self.assertEqual([tree.take(one), tree.take(two)], [1, 2])
        tree.go(1)
        self.assertEqual((tree.ahead(), tree.tip), ([2], 2))
        self.assertEqual(tree.take(two), 2)
        tree.go(1)
        self.assertEqual(tree.take(other), 3)
        self.assertEqual((tree.path(3), tree.path(2), tree.ahead()), ([1, 3], [1, 2], []))
        tree.go(0)
        self.assertEqual((tree.ahead(), tree.steps(2)), ([1, 3], [one, two]))
        tree.go(2)
        self.assertEqual(tree.tip, 2)


class StateTexts(FolderTest):
    """States taken apart at their parallel operators."""

    with_examples = False

    def components(self, text):
        """The places and texts of the components."""
        return [("".join(map(str, it.path)), it.text) for it in parts_of(text).singles()]

    def test_components(self):
        self.assertEqual(self.components("stop"), [("", "stop")])
        self.assertEqual(self.components("A[g] ||| B[g]"), [("0", "A[g]"), ("1", "B[g]")])
        self.assertEqual(self.components("(A ||| g !(x >> y); B) |[a, b]| C"), [("00", "A"), ("01", "g !(x >> y); B"), ("1", "C")])
        self.assertEqual(self.components("hide h in ((relabel g for h in A[g]) || B)"), [("0", "A[g]"), ("1", "B")])
        self.assertEqual(self.components("(A ||| B) >> C"), [("0", "A"), ("1", "B")])
        self.assertEqual(self.components("A[g] [> (B ||| C)"), [("", "A[g]")])
        self.assertEqual(self.components("a; stop [] (b; A ||| C)"), [("", "a; stop [] (b; A ||| C)")])
        self.assertEqual(self.components("g !(a >>> b); A ||| g !(a >= b); B"), [("0", "g !(a >>> b); A"), ("1", "g !(a >= b); B")])
        self.assertEqual(len(self.components("(" * 150 + "A ||| B" + ")" * 150)), 2)
        self.assertEqual([called(it) for it in ("A[g](x)", "Bee", "g; A", "stop", "i; A", "exit(x)", "choice x:S [] A")],
                         ["A", "Bee", "", "", "", "", ""])

    def test_they_are_those_that_the_grammar_finds(self):
        for text in ("hide send in (Sender[put, send](false) ||| (relabel a for b in a !x; B[a](x))) |[send]| (There[send] ||| Back[a])",
                     "hide a in hide b in (A[a] >> (B[b] ||| C))", "(A[a] ||| exit) >> accept x:Nat in B[a](x)", "(A [> B) || C"):
            mine, theirs = ([(it.path, it.text) for it in state.walk()] for state in (parts_of(text), read_state(text)))
            self.assertEqual([path for path, _ in mine], [path for path, _ in theirs])
            self.assertEqual([it.process for it in parts_of(text).singles()], [it.process for it in read_state(text).singles()])


class Sessions(FolderTest):
    """Sessions, alone and side by side."""

    with_examples = False

    def session(self, *texts, **more):
        """A session that has begun, of these texts."""
        words = [Words((self.write(f"s{count}.lotos", text),)) for count, text in enumerate(texts)]
        session = PageSession(PROGRAM, words, **more)
        self.addCleanup(session.close)
        session.open()
        return session

    def view(self, session):
        """All that the page is told."""
        return moving_view(session, -1, 0)

    def test_components_that_take_part(self):
        session = self.session(PAIR)
        session.step("1", "")
        session.step("1", "")
        view = self.view(session)
        self.assertEqual(view["lanes"], ["Left", "Right"])
        self.assertEqual([it["lanes"] for it in view["places"]], [[], [0], [0, 1]])
        self.assertEqual([it["label"] for it in view["places"]], ["", "give", "i"])
        self.assertEqual([it["there"] for it in view["places"]], [[0, 1]] * 3)
        self.assertEqual([it["arrows"] for it in view["places"]], [[], [], []])
        moved = [it["lane"] for it in view["sides"][0]["rows"] if it["moved"]]
        self.assertEqual(moved, [0, 1])

    def test_arrows_and_marks(self):
        source = """specification Line [put] : noexit library Boolean endlib
behaviour hide m, n in (A[put, m] |[m]| B[m, n]) |[n]| C[n] where
process A[put, m] : noexit := put ?x:Bool; m !x ?y:Bool; stop endproc
process B[m, n] : noexit := m ?x, y:Bool; n !x (* ! *) ?z:Bool !y; stop endproc
process C[n] : noexit := n ?x:Bool !true ?y:Bool; stop endproc
endspec"""
        session = self.session(source)
        for number, values in (("1", "true"), ("1", "false"), ("1", "")):
            session.step(number, values)
        view = self.view(session)
        self.assertEqual(view["lanes"], ["A", "B", "C"])
        self.assertEqual([it["arrows"] for it in view["places"]], [[], [], [[0, 1]], [[1, 2], [2, 1]]])
        self.assertEqual([source[begin:end] for begin, end in view["sides"][0]["taken"]],
                         ["n !x (* ! *) ?z:Bool !y", "n ?x:Bool !true ?y:Bool"])
        session.go(2)
        self.assertEqual([source[begin:end] for begin, end in self.view(session)["sides"][0]["taken"]], ["m !x ?y:Bool", "m ?x, y:Bool"])
        self.assertEqual([source[begin:end] for begin, end in self.view(session)["sides"][0]["marks"][0]],
                         ["n !x (* ! *) ?z:Bool !y", "n ?x:Bool !true ?y:Bool"])

    def test_without_a_grammar_less_is_shown(self):
        with unittest.mock.patch.dict(sys.modules, {"lark": None}):
            session = self.session(PAIR)
            for _ in range(2):
                session.step("1", "")
        view = self.view(session)
        self.assertEqual(view["lanes"], ["Left", "Right"])

    def test_only_new_places_are_told(self):
        session = self.session(PAIR)
        session.step("1", "")
        self.assertEqual(len(moving_view(session, session.epoch, 1)["places"]), 1)
        self.assertEqual(len(moving_view(session, session.epoch, 2)["places"]), 0)
        self.assertEqual(len(moving_view(session, session.epoch - 1, 2)["places"]), 2)

    def test_side_by_side(self):
        session = self.session(PAIR, SURE)
        side = session.sides[1]
        self.assertIsNone(self.view(session)["sides"][1]["differs"])
        session.step("1", "")
        self.assertEqual((self.view(session)["sides"][1]["differs"], side.parted, side.followed), (-1, None, [1]))
        session.step("1", "")
        self.assertEqual((self.view(session)["sides"][1]["differs"], side.parted, side.followed), (2, None, [1, 2]))
        session.undo()
        self.assertEqual(self.view(session)["sides"][1]["differs"], -1)
        session.step("2", "")
        self.assertEqual(self.view(session)["sides"][1]["differs"], 3)
        self.assertEqual((side.parted, side.followed), (None, [1, 3]))
        session.step("2", "")
        parted = self.view(session)["sides"][1]["parted"]
        self.assertEqual(parted["place"], 4)
        self.assertRegex(parted["why"], "^no entry is i")
        session.step("1", "")
        self.assertEqual((side.parted[0], len(side.followed)), (4, 2))
        session.go(2)
        self.assertEqual((side.parted, side.followed), (None, [1, 2]))
        self.assertEqual(len(side.play.done), 2)

    def test_a_scenario_and_a_trace_are_taken(self):
        session = self.session(PAIR)
        for _ in range(3):
            session.step("1", "")
        kept, steps = session.scenario(), session.places.steps(session.places.at)
        session.go(0)
        said = session.load(kept)
        self.assertTrue(said.startswith("scenario passed"), said)
        self.assertEqual(session.places.steps(session.places.at), steps)
        trace = "\n".join(session.play.ask("trace").lines)
        session.go(0)
        self.assertEqual(session.load(trace), "replayed 3")
        self.assertEqual(session.load("lotos-trace 1\n1 => give\n7 => i\n"),
                         "parts at step 2 of 2: step 7 => i: refused 802 NoEntry 7 of 2")
        self.assertEqual(len(session.play.done), 1)

    def test_until_and_chance(self):
        session = self.session(PAIR)
        self.assertEqual(session.until("out"), "3 steps to out")
        self.assertRegex(session.until("nowhere"), "^no way to nowhere was found among [0-9]+ states$")
        session.go(0)
        self.assertEqual(session.walk(5, "7"), "5 steps with the seed 7")
        first = session.places.steps(session.places.at)
        session.go(0)
        session.walk(5, "7")
        self.assertEqual(session.places.steps(session.places.at), first)

    def test_files_that_have_changed(self):
        session = self.session(PAIR)
        for number in ("1", "2", "1"):
            session.step(number, "")
        self.write("s0.lotos", SURE)
        self.assertEqual(session.reload(), "read anew; 1 of 3 steps taken again")

    def test_a_recorded_scenario(self):
        session = self.session(PAIR)
        for _ in range(3):
            session.step("1", "")
        session.go(2)
        recorded = record(session)
        self.assertEqual((session.places.at, session.places.tip), (2, 3))
        self.assertEqual([it["label"] for it in recorded["places"]], ["", "give", "i"])
        self.assertEqual(len(recorded["moments"]), 3)
        heads = [recorded["menus"][it["menu"]]["head"] for it in recorded["moments"]]
        self.assertEqual(heads, ["events 1", "events 2", "events 2"])


class Exported(FolderTest):
    """The exported file as a text."""

    with_examples = False

    def test_the_modules_are_one_script(self):
        files = {name: data.decode() for name, (_, data) in static_files().items()}
        script = one_script(files)
        self.assertNotRegex(script, r"(?m)^\s*(import|export) ")
        for name, text in files.items():
            if name.endswith(".js"):
                self.assertIn(f"const module_{name[:-3]} = ", script, name)
                self.assertNotIn("innerHTML", text)
                self.assertNotRegex(text, r"\beval\b|new Function|insertAdjacentHTML|document\.write")

    def test_no_text_ends_the_data(self):
        scenario = {"places": [{"label": "", "name": ""}, {"label": "g !</script ><!--", "name": "&<script>"}], "text": "]]></SCRIPT>"}
        page = export_page(scenario, "</title><script>", ["lotos run '<x>'"])
        data = re.search(r'id="scenario">(.*?)</script>', page)[1]
        self.assertNotIn("<", data)
        self.assertEqual(json.loads(data)["text"], "]]></SCRIPT>")
        self.assertEqual(page.lower().count("<script"), 2)
        self.assertEqual(page.count("<title>"), 1)
        self.assertIn("&lt;/title&gt;&lt;script&gt;", page)


