"""The files for editors: they say what the program says."""
import json
import os
import re
import subprocess
import unittest

from .helpers import COMPANIONS, TOP, FolderTest, find_tool, read
from lotos_companion import reserved_words
from lotos_companion.editor_files import editor_files

VIM_PATH = find_tool("vim")
GRAMMAR = f"{COMPANIONS}/editors/vscode/syntaxes/lotos.tmLanguage.json"
REFUSALS = ("refused 301 UnknownGate at bad file.lotos:1:36 g",
            "refused 602 Unjoined at c.lotos:14:7 with c.lotos:13:7: pred($1 - 0) gives $1 - Succ(0) and pred($1)",
            "refused 104 Syntax at a.lotos:3:4")
VIM = """let &rtp = '{editors}/vim,' . &rtp
filetype plugin on
syntax on
edit alternating_bit.lotos
redir! > names
for [line, column] in [[1, 1], [1, 15], [2, 4], [6, 3], [11, 13], [11, 41], [12, 9], [12, 12]]
  echo line . ':' . column . ' ' . synIDattr(synID(line, column, 1), 'name')
endfor
compiler! lotos
cexpr readfile('refusals')
for it in getqflist()
  echo it.nr . ' ' . bufname(it.bufnr) . ' ' . it.lnum . ' ' . it.col
endfor
redir END
qa!
"""
COLOURS = """1:1 lotosStructure
1:15 lotosDefinition
2:4 lotosComment
6:3 lotosBehaviour
11:13 lotosDefinition
11:41 lotosSort
12:9 lotosOffer
12:12 lotosSort
"""


def tokens(grammar, text):
    """The tokens of a text by a grammar of TextMate: of the patterns that fit first, the one that is listed first."""
    place, closes = 0, None
    while place < len(text):
        patterns = [{"match": closes[0], "name": closes[1]}] if closes else grammar["patterns"]
        found = [(it.start(), number, it) for number, rule in enumerate(patterns)
                 for it in [re.compile(rule.get("match") or rule["begin"]).search(text, place)] if it]
        if not found:
            break
        _, number, it = min(found, key=lambda one: one[:2])
        rule = patterns[number]
        if "begin" in rule:
            closes = (rule["end"], rule["name"])
        elif closes:
            closes = None
        for group, named in sorted(rule.get("captures", {}).items()):
            yield named["name"], it[int(group)]
        if "name" in rule and "begin" not in rule:
            yield rule["name"], it[0]
        place = it.end()


class Words(unittest.TestCase):
    """The table of the reserved words."""

    def test_the_words_are_those_of_the_program(self):
        spellings = read(f"{TOP}/crates/lotos_lexer/src/spellings.rt")
        listed = spellings.partition("RESERVED_WORDS")[2].partition("];")[0]
        wanted = re.findall(r'text: b"([a-z]+)"', listed)
        groups = reserved_words.STRUCTURE + reserved_words.TYPES + reserved_words.BEHAVIOURS
        self.assertEqual(sorted(groups), sorted(wanted))

    def test_the_files_are_as_they_would_be_made(self):
        made = editor_files()
        for name, text in made.items():
            self.assertEqual(read(f"{COMPANIONS}/editors/{name}"), text)
        kept = [os.path.join(folder, it) for folder, _, files in os.walk(f"{COMPANIONS}/editors") for it in files]
        self.assertEqual(len(kept), len(made))


class Editors(FolderTest):
    """Colours, and the places of refusals."""

    def test_the_grammar_of_textmate(self):
        grammar = json.loads(read(GRAMMAR))
        text = ("Process P[a](n : Nat) : exit := (* hide *) a ?x:Nat [x lt n]; exit\n"
                "[] i; P_in[a](in_x) |[a]| stop endproc (*)*) type T is")
        found = [(kind.split(".")[0] + "." + kind.split(".")[1], part) for kind, part in tokens(grammar, text)]
        key, name, sort, word = "keyword.control", "entity.name", "entity.name", "keyword.operator"
        self.assertEqual(found, [
            (key, "Process"), (name, "P"), (sort, "Nat"), (word, "exit"), (word, ":="), ("comment.block", "*)"),
            ("punctuation.definition", "?"), (sort, "Nat"), (word, "exit"), (word, "[]"), (word, "i"), (word, "|["),
            (word, "]|"), (word, "stop"), (key, "endproc"), ("comment.block", "*)"), (key, "type"), (name, "T"),
            (key, "is")])

    def test_the_places_of_refusals_in_vs_code(self):
        package = json.loads(read(f"{COMPANIONS}/editors/vscode/package.json"))
        pattern = package["contributes"]["problemMatchers"][0]["pattern"]
        places = [[re.match(pattern["regexp"], it)[pattern[part]] for part in ("file", "line", "column")] for it in REFUSALS]
        self.assertEqual(places, [["bad file.lotos", "1", "36"], ["c.lotos", "14", "7"], ["a.lotos", "3", "4"]])
        for other in ("refused 101 BadByte at with:1:1", "refused 701 StartValues wanted 2 given 1", "accepted S"):
            self.assertIsNone(re.match(pattern["regexp"], other))
        grammar, language = package["contributes"]["grammars"][0], package["contributes"]["languages"][0]
        for path in (grammar["path"], language["configuration"]):
            self.assertTrue(os.path.exists(f"{COMPANIONS}/editors/vscode/{path}"))

    @unittest.skipUnless(VIM_PATH, "colours in Vim, since there is no vim")
    def test_vim(self):
        self.write("try.vim", VIM.format(editors=f"{COMPANIONS}/editors"))
        self.write("refusals", "\n".join(["accepted S", *REFUSALS]))
        version = subprocess.run(["vim", "--version"], stdout=subprocess.PIPE, check=False).stdout.decode()
        if "+syntax" not in version or "+quickfix" not in version:
            self.skipTest("colours in Vim, since this vim has none")
        done = subprocess.run(["vim", "-es", "-N", "-u", "NONE", "-i", "NONE", "-S", "try.vim"], stdin=subprocess.DEVNULL,
                              stdout=subprocess.DEVNULL, stderr=subprocess.DEVNULL, timeout=60, check=False)
        names = read("names").strip("\n") + "\n"
        said = "".join(it + "\n" for it in names.split("\n") if re.match(r"\d+:\d+ \w+$", it))
        self.assertEqual((done.returncode, said), (0, COLOURS))
        places = [it for it in names.split("\n") if re.match(r"\d{3} ", it)]
        self.assertEqual(places, ["301 bad file.lotos 1 36", "602 c.lotos 14 7", "104 a.lotos 3 4"])
