"""Changes that are suggested for what is refused: each was tried by the program, and misspelled words are found."""
import json
import os
import random
import shutil
import subprocess
import time
import unittest

import pytest

from .helpers import EXAMPLES, PROGRAM, FolderTest, read
from .misspelled import with_misspelling
from .test_check import LONG, refused_examples
from lotos_companion.checking.check import check
from lotos_companion.checking.desk import Desk
from lotos_companion.checking.report_text import help_lines
from lotos_companion.checking.near import distance, nearest
from lotos_companion.checking.sources import Edit, Sources
from lotos_companion.checking.trying import Candidate, Trials
from lotos_companion.language import Kind, has_grammar, tokens
from lotos_companion.program import Words

WORDS = {"car_park.lotos": ["with", "Succ(0)", "true"], "sliding_window.lotos": ["with", "Succ(Succ(0))"],
         "countdown.lotos": ["countdown.order"]}
HEAD = "specification S [g, h] : noexit\n  library NaturalNumber endlib\n"
MAXIMUM = HEAD + """  type Maximum is NaturalNumber
    opns
      max : Nat, Nat -> Nat
    eqns forall x, y, z : Nat ofsort Nat
      {}
  endtype
behaviour g !max(0, Succ(0)); stop endspec
"""

# A program in between, which keeps the files and words of each call, and then lets the program answer.
RECORDER = """#!/bin/bash
call=$(mktemp -d "{kept}/XXXXXX")
cp -L specification order ./*.lib "$call" 2>/dev/null
printf '%s\\n' "$@" > "$call/words"
exec {program} "$@"
"""

# What is refused, and what a reader has to find in the report: behind its place, and as the first change.
SHOWN = (
    ("g !1; stop", ["Succ(0) for 1"]),
    ("g ?x:Nat; h !(x lt x + Succ(0)); stop", ["x lt x is of sort Bool", "Succ(0) is of sort Nat", "declared: _+_ : Nat, Nat -> Nat",
                                               "try: x lt (x + Succ(0)) for x lt x + Succ(0) (accepted with it)"]),
    ("g ?x:Nat; h !(x + (Succ(true) + Succ(x))); stop", ["the least part without a reading is Succ(true)", "true is of sort Bool",
                                                       "declared: Succ : Nat -> Nat"]),
    ("g ?x:Nat ?b:Bool [x = b]; stop", ["x is of sort Nat", "b is of sort Bool: two sides need one sort"]),
    ("let x:Nat = true in g !x; stop", ["true is of sort Bool", "its place wants the sort Nat"]),
    ("P[g] where process P[g] : noexit := g; h; stop endproc", ["gates of the definition around: g",
                                                               "the gate h handed on to P, in its heading and its calls"]),
    ("P[g] where process P[a, b](n : Nat) : noexit := a; b; stop endproc", ["declared: P[a, b](n : Nat) at s.lotos:4:20"]),
    ("P[g] where process P[g] : noexit := P[g] [] g; stop endproc", ["i; before P (accepted with it)"]),
    ("(g !Succ(0; stop)", ["by the grammar there may stand here: )", ") put in before ; (accepted with it)"]),
    ("P[g] >> stop where process P[g] : noexit := g; exit endproc", ["exit for noexit behind P (accepted with it)"]),
    ("g; stpo", ["near: stop", "stop for stpo at 4:4 (accepted with it)"]),
)


# Of examples of docs/REFUSALS.md, by their numbers: a change that is shown, and accepted.
MENDED = {101: "the rest of the line in a comment", 102: "*) at the end of the line",
          104: "[0 lt Succ(0)] -> g for g [0 lt Succ(0)]", 202: "NaturalNumber for NaturalNumbers at 3:14", 203: "the mention of B left out",
          106: "the mention of T65 left out", 201: "Boolean2 for Boolean at s.lotos:3:6, where it is declared",
          204: "S at s.lotos:4:17 left out, and A mentioned by the type B", 205: "NaturalNumber mentioned by the type Pairs",
          206: "size at s.lotos:4:14 left out", 207: "c for d at 5:18", 208: "formalsorts E in the type A", 209: "the pair 0 for none",
          210: "max(x, y) = if(x le y, y, x), with if : Bool, Nat, Nat -> Nat", 211: "Succ(0) for 1",
          212: "x lt (x + Succ(0)) for x lt x + Succ(0)", 213: "(none of Coin) for none",
          301: "the gate h handed on to P, in its heading and its calls", 302: "P for Q at 6:11, where it is declared",
          303: "y for x at 4:11", 304: "the gate h added to the call of P",
          305: "0 added to the values of P", 306: "c = ten for c", 402: "i; before P", 501: "_gt_ for gt",
          502: "_gt_ : Nat, Nat -> Bool; left out", 503: "right for rigth at s.order:1:6",
          601: "the order file s.order, as lotos-order writes it", 602: "the order file s.order, as lotos-order writes it",
          701: "0 left out"}
# What is told of the example of a limit.
TOLD = {103: ["it has 1,150,058 bytes, 101,482 more than the limit", "25,000 types of it have 700,000 bytes, the longest:",
              "  T at s.lotos:2:8 has 28 bytes"],
        105: ["it stands in the specification S at s.lotos:1:15", "what it stands in opens, by the signs before it: 500 times ;"],
        106: ["s.lotos mentions 65 libraries; those that they mention count too",
              "of these no other text uses a name: T65, T64, T63, T62, T61, T60, T59, T58, T57, T56, T55, T54 and 53 more"],
        201: ["Boolean is declared at library Boolean:1:6 too"], 204: ["S is declared at s.lotos:3:17 and at s.lotos:4:17"],
        206: ["size is declared at s.lotos:4:8 and at s.lotos:4:14"]}
# What comes together twice, and numbers of values: the type or the behaviour, and a change that is accepted.
TWICE = (
    ("type Nats is NaturalNumber opns _+_ : Nat, Nat -> Nat endtype", "+ at s.lotos:4:34 left out"),
    ("type A is sorts S, T opns c : -> S endtype type B is sorts U, S opns d : -> S endtype",
     "S at s.lotos:4:63 left out, and A mentioned by the type B"),
    ("type A is sorts S opns c : -> S endtype type A is sorts T opns d : -> T endtype type B is A opns e : -> T endtype",
     "A2 for A at s.lotos:4:46, where it is declared and used (1)"),
    ("type A is sorts S endtype type A is sorts S endtype", "this type A left out"),
    ("type NaturalNumber is sorts Nat opns 0 : -> Nat endtype", "the mention of the library NaturalNumber left out"),
    ("type A is sorts S opns c, d : -> S endtype type B is A opns d : -> S e : -> S endtype", "d at s.lotos:4:61 left out"),
    ("type A is sorts E, F opns c : -> F endtype type B is A actualizedby NaturalNumber using sortnames Nat for E endtype",
     "formalsorts E sorts F in the type A"),
    ("type A is sorts E opns c : -> E endtype type B is A actualizedby Boolean using sortnames G for E endtype",
     "renamedby for actualizedby Boolean using"),
)
COUNTED = (
    ("P[g](0, true) where process P[g](n : Nat) : noexit := g !n; stop endproc", ["true left out"]),
    ("P[g](true, 0) where process P[g](n : Nat) : noexit := g !n; stop endproc", ["true left out"]),
    ("P[g](0) where process P[g] : noexit := g; stop endproc", ["0 left out"]),
    ("P(0) where process P : noexit := stop endproc", ["0 left out"]),
    ("g ?x : Nat; P[g](true) where process P[g](n : Nat, b : Bool) : noexit := g !n; stop endproc", ["x added as value 1 of P"]),
    ("g ?x : Nat; P[g] where process P[g](n : Nat, b : Bool) : noexit := g !n; stop endproc", ["x, false added to the values of P"]),
)


@unittest.skipUnless(has_grammar(), "suggestions, since there is no python3-lark")
class Suggestions(FolderTest):
    def test_how_near_names_are(self):
        for one, other, wanted in (("stop", "stpo", 1), ("a", "b", 1), ("ab", "ba", 1), ("put", "putt", 1), ("", "ab", 2),
                                   ("Sender", "sender", 0), ("kitten", "sitting", 3)):
            self.assertEqual(wanted, distance(one, other))
        self.assertEqual(["Sender"], nearest(["Receiver", "Sender", "sender", "Sent"], "Sendr")[:1])

    def help(self, text, *words):
        """The lines that help with a text, or with an example and further words."""
        names = words or ("s.lotos",)
        report = check(PROGRAM, Words.read(names), {} if words else {"s.lotos": text.encode()})
        self.assertFalse(report.outcome.is_accepted)
        return "".join(f"{it}\n" for it in help_lines(report))

    def test_what_stands_at_the_place_of_a_refusal(self):
        for behaviour, wanted in SHOWN:
            found = self.help(f"{HEAD}behaviour\n{behaviour}\nendspec\n")
            for it in wanted:
                self.assertIn(it, found)

    def test_the_whole_report_on_each_example_of_the_page(self):
        seen = {}
        for number, words, files in refused_examples():
            if number not in LONG:
                report = check(PROGRAM, Words.read(words), files)
                self.assertTrue(report.is_whole)
                seen.setdefault(number, [it.says for it in report.suggestions if it.outcome.is_accepted])
                self.assertEqual([], [it for it in TOLD.get(number, ()) if it not in report.evidence])
        for number, wanted in MENDED.items():
            self.assertTrue(any(it.startswith(wanted) for it in seen[number]), (number, seen[number]))

    @pytest.mark.slow
    def test_too_many_constants(self):
        number, words, files = next(it for it in refused_examples() if it[0] in LONG)
        report = check(PROGRAM, Words.read(words), files)
        self.assertIn("the type T at s.lotos:3:6 declares 1 sort, 65,536 operations and 0 equations itself", report.evidence)
        self.assertEqual(["c : Nat -> A for the list of 65,536 constants"],
                         [it.says for it in report.suggestions if it.outcome.is_accepted])

    def test_what_is_declared_twice_and_what_is_filled(self):
        for types, wanted in TWICE:
            report = check(PROGRAM, Words(("s.lotos",)), {"s.lotos": f"{HEAD}  \n{types}\nbehaviour stop endspec\n".encode()})
            self.assertIn(wanted, [it.says for it in report.suggestions if it.outcome.is_accepted], types)

    def test_values_that_are_too_few_or_too_many(self):
        for behaviour, wanted in COUNTED:
            report = check(PROGRAM, Words(("s.lotos",)), {"s.lotos": f"{HEAD}behaviour\n{behaviour}\nendspec\n".encode()})
            self.assertEqual(305, report.outcome.refusal.number)
            self.assertEqual(wanted, [it.says for it in report.suggestions if it.outcome.is_accepted][:len(wanted)], behaviour)
        for words, wanted in ((["with"], "0 true added behind with"), ([], "0 true added behind with"),
                              (["with", "Succ(0)"], "true added behind with"), (["with", "0", "true", "0"], "0 left out"),
                              (["with", "Succ(", "0)", "true"], "'Succ( 0)' true behind with"),
                              (["with", "0", "+", "Succ(0)", "true"], "'0 + Succ(0)' true behind with")):
            report = check(PROGRAM, Words.read(["car_park.lotos", *words]))
            self.assertEqual(104 if "0)" in words else 701, report.outcome.refusal.number)
            self.assertIn(wanted, [it.says for it in report.suggestions if it.outcome.is_accepted], words)
        self.write("bools.lotos", "specification S [g] : noexit type B is sorts Bool, C opns true, no : -> Bool a : -> C f : C -> Bool "
                                  "endtype behaviour g ?x : C [x]; stop endspec")
        self.assertIn("x = a for x (accepted with it)", self.help("", "bools.lotos"))

    def test_where_a_deep_behaviour_stands(self):
        head = "specification S [g] : noexit behaviour P[g] where process P[g] : noexit :=\n"
        report = self.help(f"{head}g; ({'g; ' * 200}stop [] {'g; ' * 501}stop) endproc endspec")
        self.assertIn("it stands in the process P at s.lotos:1:59\n", report)
        self.assertIn("by the signs before it: 499 times ;, 1 times []\n", report)
        report = self.help(f"{HEAD}behaviour g !({'Succ(' * 501}0{')' * 501} + 0); stop endspec")
        self.assertIn("it stands in the specification S at s.lotos:1:15\n", report)
        self.assertIn("by the signs before it: 499 times (\n", report)

    def test_terms_of_types_and_words_behind_with(self):
        text = MAXIMUM.format("max(0, y) = y; max(Succ(x), y) = max(y lt x, z);")
        output = self.help(text)
        for it in ("y lt x is of sort Bool", "z is of sort Nat", "declared: max : Nat, Nat -> Nat at s.lotos:5:7"):
            self.assertIn(it, output)
        formal = ("type Thing is Boolean formalsorts Thing formalopns _eq_ : Thing, Thing -> Bool formaleqns forall x, y : Thing "
                  "ofsort Bool x eq y = y eq x; not(x eq (x eq y)) = true; opns f : Bool -> Bool eqns forall x : Bool ofsort Bool "
                  "f(x) = x; endtype")
        output = self.help(f"{HEAD}{formal}\nbehaviour stop endspec\n")
        for it in ("the least part without a reading is x eq (x eq y)", "x is of sort Thing", "(x eq y) is of sort Bool"):
            self.assertIn(it, output)
        output = self.help("", "car_park.lotos", "with", "Succ(0) + Succ(true)", "true")
        for it in ("the least part without a reading is Succ(true)", "true is of sort Bool", "declared: Succ : Nat -> Nat"):
            self.assertIn(it, output)
        output = self.help("", "car_park.lotos", "with", "Succ(0)", "Succ(0)")
        for it in ("Succ(0) is of sort Nat", "its place wants the sort Bool"):
            self.assertIn(it, output)
        output = self.help("", "car_park.lotos", "with", "Suc(0)", "true")
        self.assertIn("try: Succ for Suc at with:1:1 (accepted with it)", output)

    def test_what_is_near_in_libraries_and_in_the_order_file(self):
        self.write("bad.lotos", "specification S : noexit library NaturalNumbr endlib behaviour stop endspec")
        status, output, _ = self.run_companion("lotos-check", "bad.lotos")
        self.assertEqual((3, "cannot read NaturalNumbr.lib\n# try: NaturalNumber for NaturalNumbr at 1:34 (accepted with it)\n"),
                         (status, output))
        for text, wanted in (("prde;", "pred for prde at bad.order:1:1"), ("_-_ lfet;", "left for lfet at bad.order:1:5"),
                             ("-;", "_-_ for -"), ("_-_; pred; _-_;", "_-_; left out")):
            self.write("bad.order", text)
            self.assertIn(wanted, self.help("", "countdown.lotos", "bad.order"))

    def test_an_order_file_for_equations_that_are_refused(self):
        text = read("countdown.lotos")
        status, output, _ = self.run_companion("lotos-check", "countdown.lotos")
        self.assertEqual(1, status)
        self.assertIn("# try: the order file countdown.order, as lotos-order writes it (accepted with it)\n"
                      "# at countdown.order:1:1:\n#   + _-_;\n", output)
        self.assertEqual(text, read("countdown.lotos"))

    def test_premisses_that_are_tests_become_an_if(self):
        both = MAXIMUM.format("x le y => max(x, y) = y;\n z lt x => max(x, z) = x;")
        for text, wanted in (
                (both, "max(x, y) = if(x le y, y, x), with if : Bool, Nat, Nat -> Nat (accepted with it)"),
                (MAXIMUM.format("x le y = true, not(y eq 0) => max(x, y) = y;"),
                 "max(x, y) = if((x le y) and (not(y eq 0)), y, else_max(x, y)), with else_max : Nat, Nat -> Nat; if : Bool, Nat, "
                 "Nat -> Nat (accepted with it)"),
                (both.replace("opns", "opns if : Bool, Nat, Nat -> Nat").replace(
                    "      x le", "if(true, x, y) = x; if(false, x, y) = y; x le"), "max(x, y) = if(x le y, y, x) (accepted with it)")):
            self.assertIn(f"try: {wanted}", self.help(text))

    def test_tests_that_leave_something_out_are_told(self):
        for equations, wanted in (
                ("x le y => max(x, y) = y;\n y lt x => max(x, y) = x;", ["just one of the tests holds for each of 9 choices"]),
                ("x lt y => max(x, y) = y;\n y lt x => max(x, y) = x;",
                 ["none of the tests holds for x = 0, y = 0", "if(x lt y, y, if(y lt x, x, else_max(x, y)))"]),
                ("x le y => max(x, y) = y;\n y le x => max(x, y) = x;", ["more than one holds for x = 0, y = 0", "if(x le y, y, x)"])):
            found = self.help(MAXIMUM.format(equations))
            for it in wanted:
                self.assertIn(it, found)

    def test_premisses_that_are_none_are_told(self):
        for equation, wanted in (("x = y => max(x, y) = y;", "the premiss x = y is no test of sort Bool"),
                                 ("z lt x => max(x, y) = z;", "z stands in the premiss or on the right side alone")):
            output = self.help(MAXIMUM.format(equation))
            self.assertIn(f"it is not written with an if: {wanted}", output)
            self.assertNotIn("try: max", output)

    def test_an_equation_with_an_if_means_what_it_meant(self):
        self.write("s.lotos", MAXIMUM.format("x le y => max(x, y) = y;\n y lt x => max(x, y) = x;"))
        report = check(PROGRAM, Words(("s.lotos",)))
        self.write("s.lotos", report.sources.edited(report.suggestions[0].edits).read("s.lotos").decode())
        numerals = ["0", "Succ(0)", "Succ(Succ(0))"]
        typed = "".join(f"equal max({x}, {y}), {max(x, y)}\n" for x in numerals for y in numerals)
        said = subprocess.run([PROGRAM, "run", "s.lotos"], input=typed.encode(), stdout=subprocess.PIPE, check=False).stdout
        self.assertEqual(9, said.decode().splitlines().count("equal"))

    def test_no_change_is_shown_that_was_not_tried(self):
        self.look_at_calls(4, 11)

    @pytest.mark.slow
    def test_no_change_is_shown_that_was_not_tried_of_many(self):
        self.look_at_calls(60, 12)

    def look_at_calls(self, count, seed):
        """Looks among the calls of the program for the texts with each change that is shown, and for the same answer."""
        chance, shown = random.Random(seed), 0
        kept = os.path.join(self.folder, "kept")
        program = self.stand_in(RECORDER.format(kept=kept, program=PROGRAM))
        for _ in range(count):
            name = chance.choice(["stop.lotos", "dispenser.lotos", "vending_machine.lotos", "two_cells.lotos", "countdown.lotos"])
            text = self.refused(name, chance)
            self.write("bad.lotos", text)
            os.mkdir(kept)
            report = json.loads(self.run_companion("lotos-check", "--json", "bad.lotos", program=program)[1])
            calls = {(read(f"{kept}/{it}/specification"), read(f"{kept}/{it}/order") if os.path.exists(f"{kept}/{it}/order") else "")
                     for it in os.listdir(kept)}
            shutil.rmtree(kept)
            for it in report["suggestions"]:
                files = {"bad.lotos": text, "bad.order": ""}
                for edit in sorted(it["edits"], key=lambda one: (one["line"], one["column"]), reverse=True):
                    files[edit["text"]] = changed(files[edit["text"]], edit)
                self.assertIn((files["bad.lotos"], files["bad.order"]), calls)
                for file, content in files.items():
                    self.write(file.replace("bad", "mended"), content)
                words = ["mended.lotos"] + (["mended.order"] if files["bad.order"] else [])
                said = subprocess.run([PROGRAM, "check", *words], stdout=subprocess.PIPE, check=False).stdout.decode()
                self.assertEqual(it["answer"], said.splitlines()[0].replace("mended", "bad"))
                self.assertEqual(it["accepted"], said.startswith("accepted"))
                shown += 1
        self.assertGreater(shown, count // 2)

    def refused(self, name, chance):
        """An example with a misspelled word that the program refuses, or one whose equations it refuses."""
        while True:
            text = read(name)
            if name != "countdown.lotos" or chance.random() < 0.7:
                text = with_misspelling(text, [it for it in tokens(text) if it.kind in (Kind.NAME, Kind.RESERVED)], chance)
            self.write("bad.lotos", text)
            done = subprocess.run([PROGRAM, "check", "bad.lotos"], stdout=subprocess.PIPE, check=False)
            if done.returncode == 1:
                return text

    def test_the_time_for_changes_begins_with_the_first_that_is_tried(self):
        """What stands at the place may take long: changes are tried all the same, and none when the time for them is over."""
        sources = Sources(Words(("s.lotos",)), {"s.lotos": b"specification S : noexit behaviour stpo endspec"})
        mended = [Candidate(f"{it} for stpo", (Edit("s.lotos", 35, 39, it),)) for it in (b"stop", b"exit", b"(stop)")]
        with Desk(PROGRAM) as desk:
            trials = Trials(desk, sources, desk.check(sources), 10, 0.05)
            time.sleep(0.1)
            self.assertFalse(trials.is_over)
            self.assertTrue(trials.found(mended)[0].outcome.is_accepted)
            time.sleep(0.1)
            self.assertTrue(trials.is_over)
            self.assertEqual([], trials.found(mended))

    def test_misspelled_words_are_found(self):
        self.assertGreaterEqual(self.found(10, 7, ["dispenser.lotos", "two_cells.lotos", "vending_machine.lotos"]), 9)

    @pytest.mark.slow
    def test_many_misspelled_words_are_found(self):
        names = sorted(it for it in os.listdir(EXAMPLES) if it.endswith(".lotos") and "refused" not in it)
        self.assertGreaterEqual(self.found(200, 8, names), 180)

    def found(self, count, seed, names):
        """Of so many texts with a misspelled word that are refused, for how many the original is among three suggestions."""
        chance, refused, found = random.Random(seed), 0, 0
        while refused < count:
            name = chance.choice(names)
            text = read(name)
            bad = with_misspelling(text, [it for it in tokens(text) if it.kind in (Kind.NAME, Kind.RESERVED)], chance)
            report = check(PROGRAM, Words.read([name, *WORDS.get(name, [])]), {name: bad.encode()})
            if not report.outcome.is_accepted:
                refused += 1
                mended = [report.sources.edited(it.edits).read(name).decode() for it in report.suggestions[:3]]
                found += text.lower() in [it.lower() for it in mended]
        return found


def changed(text, edit):
    """The text with an edit of a report, whose columns count bytes."""
    lines = text.encode().split(b"\n")
    begin = sum(len(it) + 1 for it in lines[:edit["line"] - 1]) + edit["column"] - 1
    end = sum(len(it) + 1 for it in lines[:edit["end_line"] - 1]) + edit["end_column"] - 1
    assert text.encode()[begin:end].decode() == edit["old"]
    return (text.encode()[:begin] + edit["new"].encode() + text.encode()[end:]).decode()
