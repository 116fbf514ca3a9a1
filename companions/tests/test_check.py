"""Refusals that are explained: the place with its mark, what the number means, and reports as JSON."""
import json
import os
import re
import subprocess
import tempfile
import time
import unittest
from importlib.machinery import SourceFileLoader
from importlib.util import module_from_spec, spec_from_loader

import pytest

from .helpers import COMPANIONS, PROGRAM, TOP, FolderTest, read
from lotos_companion.checking.carets import caret_lines
from lotos_companion.checking.check import reports
from lotos_companion.checking.desk import Desk, Stale
from lotos_companion.checking.meanings import MEANINGS
from lotos_companion.checking.report_text import place_lines
from lotos_companion.shipped import SHIPPED
from lotos_companion.checking.sources import Sources
from lotos_companion.program import Words

# What takes the program many seconds: more than 65,536 operations.
LONG = (214,)


def pages():
    """What reads the examples of docs/REFUSALS.md."""
    loader = SourceFileLoader("pages", os.path.join(TOP, ".ci", "pages"))
    module = module_from_spec(spec_from_loader("pages", loader))
    loader.exec_module(module)
    return module


def refused_examples():
    """The refused examples of docs/REFUSALS.md: the number, the words behind `check`, and the files."""
    for _, words, files, wanted in pages().refusal_cases():
        if wanted.startswith("refused "):
            yield int(wanted.split()[1]), words[1:], {name: text.encode() for name, text in files.items()}


class Tables(unittest.TestCase):
    """The table of what the numbers mean, and the libraries that come with the program."""

    def test_the_table_has_the_numbers_and_names_of_the_page(self):
        wanted = dict(re.findall(r"^### (\d+) (\w+)$", read(f"{TOP}/docs/REFUSALS.md"), re.M))
        self.assertEqual(wanted, {str(it.number): it.name for it in MEANINGS.values()})
        for it in MEANINGS.values():
            self.assertRegex(it.sentence, r"^[A-Z].*\.$")
            self.assertRegex(it.mend, r"^[A-Z].*\.$")

    def test_the_libraries_are_those_of_the_page(self):
        shown = re.search(r"^```library\n(.*?)^```", read(f"{TOP}/docs/LANGUAGE.md"), re.M | re.S)[1]
        self.assertEqual(shown, "".join(SHIPPED.values()))


    def test_the_pages_lead_to_what_helps(self):
        for page in ("REFUSALS", "LANGUAGE"):
            text = read(f"{TOP}/docs/{page}.md")
            self.assertIn("docs/CHECKING.md", text)
            self.assertIn("lotos-check", text)
        self.assertIn("lotos-order", read(f"{TOP}/docs/LANGUAGE.md"))


class Marks(unittest.TestCase):
    """Marks below lines: columns count bytes, and a terminal shows letters."""

    def test_tabs_wide_letters_and_bytes_that_are_no_letters(self):
        for line, begin, end, shown, mark in (
                ("g !x; stop".encode(), 3, 4, "g !x; stop", "   ^"),
                ("\tg".encode(), 1, 2, "        g", "        ^"),
                ("ab\tg h".encode(), 5, 6, "ab      g h", "          ^"),
                ("(* für *) gg".encode(), 11, 13, "(* für *) gg", "          ^^"),
                ("(* 数 *) g".encode(), 10, 11, "(* 数 *) g", "         ^"),
                ("(* e\u0301 *) g".encode(), 10, 11, "(* e\u0301 *) g", "        ^"),
                (b"\xff \x1b g", 4, 5, "\\xff \\x1b g", "          ^"),
                (b"g\r", 1, 2, "g", " ^"),
                (b"", 0, 1, "", "^"),
                ("§ g".encode(), 0, 2, "§ g", "^")):
            self.assertEqual((shown, mark), caret_lines(line, begin, end))

    def test_of_a_long_line_the_part_around(self):
        for line, begin in ((b"a; " * 1000 + b"bad; " + b"c; " * 1000, 3000), (b"bad; " + b"c; " * 500, 0), ("数".encode() * 400 + b"bad", 1200)):
            shown, mark = caret_lines(line, begin, begin + 3)
            columns = "".join(it if it.isascii() else it + "\0" for it in shown)
            self.assertEqual("bad", columns[mark.index("^"):mark.rindex("^") + 1])
            self.assertLess(len(columns), 106)


class Places(FolderTest):
    """Each refusal is shown with its line and a mark at its place."""

    with_examples = False

    def report(self, words, texts):
        """The first report on texts that need not stand on the disk."""
        return next(reports(PROGRAM, Words.read(words), texts))

    def test_one_of_each_number(self):
        seen = set()
        for number, words, files in refused_examples():
            if number not in seen and number not in LONG:
                seen.add(number)
                self.look(number, words, files)
        self.assertEqual({*MEANINGS} - {*LONG}, seen)

    @pytest.mark.slow
    def test_every_example(self):
        for number, words, files in refused_examples():
            self.look(number, words, files)

    def look(self, number, words, files):
        """Looks at the line and the mark of a refusal: they stand where the program says."""
        report = self.report(words, files)
        refusal = report.outcome.refusal
        self.assertEqual(number, refusal.number)
        lines = list(place_lines(report))
        self.assertRegex(lines[1], r"^ *\| *\^+$")
        marked = [lines[0][place:].strip() for place, it in enumerate(lines[1]) if it == "^"][0]
        if refusal.at and refusal.at.text != "with":
            text = files[refusal.at.text].split(b"\n")[refusal.at.line - 1][refusal.at.column - 1:]
            self.assertEqual(text.decode()[:10].strip(), marked[:10].strip())
        self.assertIn(MEANINGS[number].sentence, lines)

    def test_places_in_libraries_in_words_and_behind_umlauts(self):
        spec = b"specification S [g] (n : Nat) : noexit\n\tlibrary NaturalNumber, L endlib\nbehaviour g !n; stop endspec\n"
        library = "(* größer *)\ttype T is sorts A opns c : -> B endtype\n".encode()
        for words, texts, wanted in (
                (["s"], {"s": spec, "L.lib": library}, ["   1 | (* größer *)    type T is sorts A opns c : -> B endtype",
                                                        "     | " + " " * 46 + "^"]),
                (["s", "with", "0", "0"], {"s": spec, "L.lib": b""}, ["with 2 | 0", "       | ^"]),
                (["s", "with"], {"s": spec, "L.lib": b""}, ["with 1 | ", "       | ^"]),
                (["s", "with", "Succ( true)"], {"s": spec, "L.lib": b""}, ["with 1 | Succ( true)", "       | ^^^^"]),
                (["s", "with", "Succ(zero)"], {"s": spec, "L.lib": b""}, ["with 1 | Succ(zero)", "       |      ^^^^"]),
                (["s", "s.order", "with", "0"], {"s": spec, "L.lib": b"", "s.order": b"\n\t_+_; _+_;"},
                 ["   2 |         _+_; _+_;", "     |               ^"])):
            lines = list(place_lines(self.report(words, texts)))
            self.assertEqual(wanted, [lines[0], lines[1][:len(wanted[1])]])

    def test_a_place_in_a_library_of_the_program(self):
        spec = b"specification S : noexit library Boolean, L endlib behaviour stop endspec"
        other = b"specification S : noexit library L, Boolean endlib behaviour stop endspec"
        library = b"type Boolean is endtype"
        self.assertEqual("L.lib", self.report(["s"], {"s": spec, "L.lib": library}).span.begin.text)
        lines = list(place_lines(self.report(["s"], {"s": other, "L.lib": library})))
        self.assertEqual(["   1 | type Boolean is", "     |      ^^^^^^^"], lines[:2])

    def test_both_places_of_two_equations(self):
        number, words, files = next(it for it in refused_examples() if it[0] == 602)
        lines = list(place_lines(self.report(words, files)))
        self.assertEqual(["  11 |     x - Succ(y) = pred(x - y);", "  10 |     x - 0 = x;"], [it for it in lines if " = " in it][:2])


SLOW = """#!/bin/bash
sleep 0.4
if [ "$1" = run ]; then cat; else echo accepted S; fi
"""


class Questions(FolderTest):
    """Questions to a program that takes its time."""

    with_examples = False

    def test_a_long_answer_is_waited_for_and_given_up(self):
        sources = Sources(Words(("s",)), {"s": b"specification"})
        with Desk(self.stand_in(SLOW)) as desk:
            self.assertTrue(desk.check(sources).is_accepted)
            self.assertEqual(("menu", "quit"), desk.session(sources, ["menu", "quit"]))
            desk.seconds = 0.1
            self.assertEqual((-1, ()), (desk.check(sources).status, desk.check(sources).lines))
            desk.is_stale = lambda: True
            self.assertRaises(Stale, desk.check, sources)


class Calls(FolderTest):
    """The command, as a person or a script calls it."""

    def check(self, *words, **more):
        """The status, the output and what is said."""
        return self.run_companion("lotos-check", *words, **more)

    def test_what_is_accepted_and_what_is_refused(self):
        said = subprocess.run([PROGRAM, "check", "stop.lotos"], stdout=subprocess.PIPE, check=False).stdout.decode()
        self.assertEqual((0, said, ""), self.check("stop.lotos"))
        self.write("bad.lotos", "specification S [g] : noexit\nbehaviour h; stop endspec\n")
        status, output, _ = self.check("bad.lotos")
        self.assertEqual(1, status)
        self.assertEqual(["refused 301 UnknownGate at bad.lotos:2:11 h", "#    2 | behaviour h; stop endspec",
                          "#      |           ^", "# No gate of this name is visible here."], output.splitlines()[:4])
        self.assertEqual((1, "refused 301 UnknownGate at bad.lotos:2:11 h\n", ""), self.check("--bare", "bad.lotos"))
        self.assertEqual((3, "cannot read none.lotos\n", ""), self.check("none.lotos"))
        self.assertEqual(2, self.check()[0])

    def test_the_report_as_json(self):
        self.write("bad.lotos", "specification S [g] : noexit\nbehaviour h; stop endspec\n")
        status, output, _ = self.check("--json", "bad.lotos")
        report = json.loads(output)
        self.assertEqual((1, False, 301, "UnknownGate", "h", True), (status, *(
            report[it] for it in ("accepted", "number", "name", "detail", "whole"))))
        self.assertEqual({"text": "bad.lotos", "line": 2, "column": 11, "end_line": 2, "end_column": 12}, report["place"])
        status, output, _ = self.check("--json", "stop.lotos")
        self.assertEqual((0, True, None, []), (status, *(json.loads(output)[it] for it in ("accepted", "place", "suggestions"))))

    def test_without_a_grammar_there_is_the_place_and_what_is_misspelled(self):
        os.mkdir("none")
        self.write("none/lark.py", "raise ImportError\n")
        self.write("bad.lotos", "specification S [g] : noexit behaviour g; stpo endspec")
        output = self.check("bad.lotos", PYTHONPATH="none")[1]
        for it in ("#      |                                           ^^^^", "# with Debian's package python3-lark there is more help",
                   "# try: stop for stpo at 1:43 (accepted with it)"):
            self.assertIn(it, output.splitlines())
        status, _, said = self.run_companion("lotos-order", "countdown.lotos", PYTHONPATH="none")
        self.assertEqual((70, True), (status, "python3-lark is not there" in said))

    def test_a_pipe_in_the_place_of_a_file(self):
        script = f"{COMPANIONS}/lotos-check <(printf 'specification S : noexit behaviour h; stop endspec')"
        done = subprocess.run(["bash", "-c", script], stdout=subprocess.PIPE, env={**os.environ, "LOTOS": PROGRAM}, check=False)
        self.assertRegex(done.stdout.decode(), r"^refused 301 UnknownGate at /dev/fd/\d+:1:36 h\n# +1 \| spec")

    def test_watching(self):
        """After a save the answer is there within half a second; on a machine that others keep busy, the best of several."""
        good, bad = ("specification S [g] : noexit behaviour " + it + "; stop endspec" for it in "gh")
        self.write("w.lotos", good)
        seconds = []
        with tempfile.TemporaryFile() as said, subprocess.Popen(
                [f"{COMPANIONS}/lotos-check", "--watch", "w.lotos"], stdout=said, env={**os.environ, "LOTOS": PROGRAM}) as running:
            try:
                self.wait_for(said, "accepted S", 60)
                for text, wanted in ((bad, "refused 301"), (good, "accepted S")) * 3:
                    size = said.seek(0, os.SEEK_END)
                    begin = time.monotonic()
                    self.write("w.lotos", text)
                    self.wait_for(said, wanted, 60, size)
                    seconds.append(time.monotonic() - begin)
            finally:
                running.terminate()
        is_idle = os.getloadavg()[0] < (os.cpu_count() or 1) / 2
        self.assertLess(max(seconds) if is_idle else min(seconds), 0.5)

    def wait_for(self, said, wanted, seconds, begin=0):
        """Waits until a file has a text behind an offset."""
        end = time.monotonic() + seconds
        while time.monotonic() < end:
            said.seek(begin)
            if wanted in said.read().decode():
                return
            time.sleep(0.01)
        self.fail(f"there is no {wanted}")
