"""The library files and `lotos-libs`: each is accepted, alone and beside each other one, and answers as it was worked out."""
import functools
import itertools
import json
import os
import re
import shutil
import subprocess

import pytest

from .helpers import COMPANIONS, HERE, PROGRAM, TOP, FolderTest, read
from lotos_companion.inducting.data import data_of
from lotos_companion.inducting.rewriting import Rules
from lotos_companion.inducting.terms import match
from lotos_companion.language import has_grammar, read_terms
from lotos_companion.libraries.shelf import Shelf
from lotos_companion.program import Words
from lotos_companion.session import Session

FILES = os.path.join(COMPANIONS, "libraries")
CASES = os.path.join(HERE, "libraries")
PROOFS = os.path.join(FILES, "proofs")
NAMES = sorted(it[:-len(".lib")] for it in os.listdir(FILES) if it.endswith(".lib"))
# How many equations the two libraries have that come with the program.
SHIPPED = 28
CASE = re.compile(r"(.+) => (.+)")
# What a reader would doubt, by library: lemmas that its certificate has.
LAWS = {
    "Bag": ("count(x, insert(y, b))", "count(x, b sum c)", "size(insert(x, b))", "size(b sum c)", "x isIn insert(y, b)",
            "x isIn (b sum c)", "b eq c"),
    "Bit": ("x and y", "(x and y) and z", "(x or y) or z", "(x xor y) xor z", "not(not(x))", "not(x and y)", "x lt y"),
    "Byte": ("x and y", "(x and y) and z", "x or y", "x xor y", "not(not(x))", "not(x and y)", "x eq x"),
    "Integers": ("a + b", "(a + b) + c", "a - a", "a * b", "(a * b) * c", "a * (b + c)", "negative(a + b)", "abs(a * b)",
                 "((a lt b) or (b lt a)) or (a eq b)", "((a lt b) and (b lt c)) implies (a lt c)"),
    "List": ("(k ++ l) ++ m", "length(k ++ l)", "reverse(k ++ l)", "reverse(reverse(k))", "take(n, l) ++ drop(n, l)",
             "x isIn (k ++ l)", "x isIn (l + y)", "count(x, k ++ l)", "x isIn remove(x, l)", "x isIn insert(y, l)",
             "x isIn sort(l)", "length(sort(l))", "count(x, sort(l))", "k eq l"),
    "Map": ("put(m, k, v) has k", "remove(m, k) has k", "get(put(m, k, v), k, w)", "get(remove(m, k), k, v)"),
    "Naturals": ("x min y", "(x max y) max z", "(x - y) + y", "even(x + y)", "((x div y) * y) + (x mod y)",
                 "(x mod Succ(y)) lt Succ(y)"),
    "Queue": ("(p ++ q) ++ r", "length(p ++ q)", "first(p ++ q, x)", "length(rest(put(q, x)))", "rest(put(p, x) ++ q)"),
    "Set": ("x isIn insert(x, s)", "x isIn insert(y, s)", "x isIn remove(x, s)", "x isIn (s union t)", "x isIn (s inter t)",
            "x isIn (s minus t)", "s eq t"),
}


# What there has to be, by the name of its library.
WANTED = ("Element", "BooleanOperations", "Naturals", "Digits", "Integers", "List", "Set", "Bag", "Queue", "Stack", "Map", "Option",
          "Pair", "Character", "String", "Bit", "Byte", "BitString", "OctetString")


def test_there_is_each_wanted_type_and_the_page_compares_it_with_the_annex():
    assert {*WANTED, "Counting"} == set(NAMES)
    table = re.search(r"\| In the annex \| Here \| What differs \|\n(.*?)\n\n", read(f"{TOP}/docs/LIBRARIES.md"), re.S)[1]
    here = {name for row in table.splitlines() for name in re.findall(r"`(\w+)`", row.split("|")[2])}
    assert set(WANTED) <= here


@pytest.fixture
def folder(tmp_path, monkeypatch):
    """A folder of its own with all libraries."""
    for name in NAMES:
        shutil.copy(f"{FILES}/{name}.lib", tmp_path)
    monkeypatch.chdir(tmp_path)
    return tmp_path


def cases(name):
    """The terms of a library's session, and the answers that are wanted: numbers stand there for numerals."""
    found = [CASE.fullmatch(it) for it in read(f"{CASES}/{name}.cases").splitlines()]
    return [(it[1] if name == "Digits" else numerals(it[1]), numerals(it[2])) for it in found]


def numerals(text):
    """The text with numerals for its numbers."""
    return re.sub(r"(?<!\w)([1-9]\d*)(?!\w)", lambda it: "Succ(" * int(it[1]) + "0" + ")" * int(it[1]), text)


def parts(name):
    """What the session of a library reads: the libraries that it mentions, and the types that it fills."""
    found = re.search(r"library (.+?) endlib\n(.*?)behaviour", read(f"{PROOFS}/{name}.lotos"), re.S)
    return [it.strip() for it in found[1].split(",")], found[2]


def specification(name, *names):
    """A specification with all that the sessions of some libraries read. Sorts of filled types get names of their own where
    two libraries have the same ones."""
    read_parts = [parts(it) for it in names]
    libraries = dict.fromkeys(it for mentioned, _ in read_parts for it in mentioned)
    types = "".join(it for _, it in read_parts)
    return f"specification {name} : noexit\n  library {', '.join(libraries)} endlib\n{types}behaviour\n  stop\nendspec\n"


def check(text):
    """The first line that the program says of a specification."""
    with open("checked.lotos", "w", encoding="utf-8") as file:
        file.write(text)
    done = subprocess.run([PROGRAM, "check", "checked.lotos"], stdout=subprocess.PIPE, stderr=subprocess.DEVNULL, check=False)
    return done.stdout.decode().split("\n")[0]


@pytest.mark.parametrize("name", NAMES)
def test_each_alone_answers_as_it_was_worked_out(folder, name):
    shutil.copy(f"{PROOFS}/{name}.lotos", folder)
    session = Session(PROGRAM, Words((f"{name}.lotos",)))
    try:
        assert session.opening().first == f"accepted {name}"
        for term, wanted in cases(name):
            assert (term, session.ask(f"normal {term}").first) == (term, wanted)
    finally:
        session.kill()


def test_all_together_are_accepted(folder):
    assert check(specification("All", *NAMES)) == "accepted All"


@pytest.mark.slow
def test_all_pairs_are_accepted(folder):
    for pair in itertools.combinations(NAMES, 2):
        assert (pair, check(specification("Two", *pair))) == (pair, "accepted Two")


@pytest.mark.slow
def test_each_is_accepted_where_it_is_mentioned_and_nothing_is_filled(folder):
    for name in NAMES:
        assert check(f"specification S : noexit library {name} endlib behaviour stop endspec") == "accepted S"


class Files(FolderTest):
    """What the command does in a folder."""

    with_examples = False

    def libs(self, *words):
        return self.run_companion("lotos-libs", *words)

    def test_list_has_each_with_what_it_is(self):
        status, output, said = self.libs("list")
        assert (status, said) == (0, "")
        assert [it.split(" ")[0] for it in output.splitlines()] == NAMES
        assert "Set                Finite sets of elements with an order\n" in output
        status, output, said = self.libs("--json", "list")
        found = {it["name"]: it for it in json.loads(output)}
        assert found["List"]["types"] == ["List", "ComparableList", "OrderedList"]
        assert found["List"]["mentions"] == ["Element", "Counting"]

    def test_show_is_the_text(self):
        assert self.libs("show", "list.lib") == (0, read(f"{FILES}/List.lib"), "")
        assert json.loads(self.libs("--json", "show", "Bit")[1])["text"] == read(f"{FILES}/Bit.lib")

    def test_add_copies_what_is_wanted_and_what_that_mentions(self):
        status, output, said = self.libs("add", "OctetString")
        assert (status, said) == (0, "")
        added = ["Bit.lib", "Byte.lib", "Element.lib", "Counting.lib", "List.lib", "OctetString.lib"]
        assert output == "".join(f"{it} is added\n" for it in added)
        assert sorted(os.listdir(".")) == sorted(added)
        for name in added:
            assert read(name) == read(f"{FILES}/{name}")
        shutil.copy(f"{PROOFS}/OctetString.lotos", ".")
        assert check(read("OctetString.lotos")) == "accepted OctetString"

    def test_the_specification_of_the_page_is_accepted(self):
        self.libs("add", "Set", "Digits")
        page = re.search(r"```lotos\n(.*?)```", read(f"{TOP}/docs/LIBRARIES.md"), re.S)
        assert check(page[1]) == "accepted Registry"

    def test_add_leaves_what_was_changed(self):
        self.libs("add", "Bit")
        self.write("Bit.lib", "(* mine *)\n")
        status, output, _ = self.libs("add", "Byte")
        assert status == 1
        assert output == ("Bit.lib is another text and stays: `lotos-libs diff` shows it, and `--force` writes over it\n"
                          "Byte.lib is added\n")
        assert read("Bit.lib") == "(* mine *)\n"
        assert self.libs("add", "--force", "Byte")[:2] == (0, "Bit.lib is added\nByte.lib is there\n")
        assert read("Bit.lib") == read(f"{FILES}/Bit.lib")

    def test_diff_says_what_was_changed(self):
        assert self.libs("diff") == (0, "", "no library of these is in this folder\n")
        self.libs("add", "Bit", "Pair")
        assert self.libs("diff") == (0, "", "Bit.lib is as it came\nElement.lib is as it came\nPair.lib is as it came\n")
        self.write("Bit.lib", read("Bit.lib").replace("b0 xor y = y;", "b0 xor y = b0;"))
        status, output, said = self.libs("diff")
        assert (status, said) == (1, "Element.lib is as it came\nPair.lib is as it came\n")
        assert "--- Bit.lib (as it came)\n+++ Bit.lib (here)\n" in output
        assert "-      b0 xor y = y;\n+      b0 xor y = b0;\n" in output
        assert self.libs("diff", "Pair")[0] == 0
        found = {it["file"]: it["changes"] for it in json.loads(self.libs("diff", "--json")[1])}
        assert found["Pair.lib"] == [] and "+      b0 xor y = b0;\n" in found["Bit.lib"]

    def test_names_that_are_none(self):
        assert self.libs("add", "Lists") == (2, "", "lotos-libs: there is no library Lists: is it List?\n")
        assert self.libs("add", "Set", "Boolean") == (
            2, "", "lotos-libs: Boolean comes with the program: mention it, and no file is wanted\n")
        assert os.listdir(".") == []
        for words in ((), ("list", "Set"), ("show",), ("add",), ("get", "Set")):
            status, output, said = self.libs(*words)
            assert (status, output, said[:7]) == (2, "", "usage: ")

    def test_a_file_that_cannot_be_read_or_written(self):
        os.mkdir("Bit.lib")
        assert self.libs("diff") == (3, "", "lotos-libs: Bit.lib: Is a directory\n")
        assert self.libs("diff", "Set") == (3, "", "lotos-libs: Set.lib: No such file or directory\n")

    def test_the_command_of_a_package_finds_them(self):
        """A package has the companions in usr/lib/lotos, and links to the commands in usr/bin."""
        shutil.copytree(COMPANIONS, "usr/lib/lotos/companions", ignore=shutil.ignore_patterns("tests", "__pycache__"))
        shutil.copy(f"{TOP}/VERSION", "usr/lib/lotos")
        os.makedirs("usr/bin")
        os.symlink("../lib/lotos/companions/lotos-libs", "usr/bin/lotos-libs")
        os.mkdir("work")
        done = subprocess.run(["../usr/bin/lotos-libs", "add", "Bit"], cwd="work", stdout=subprocess.PIPE, check=False)
        assert (done.returncode, done.stdout) == (0, b"Bit.lib is added\n")
        shutil.rmtree("usr/lib/lotos/companions/libraries")
        done = subprocess.run(["../usr/bin/lotos-libs", "list"], cwd="work", stdout=subprocess.PIPE, stderr=subprocess.PIPE, check=False)
        assert (done.returncode, done.stdout) == (3, b"")
        assert done.stderr.startswith(b"lotos-libs: there is no folder ")


def test_premisses_and_order_files_are_nowhere():
    for library in Shelf.found().libraries.values():
        assert "=>" not in library.text
    assert not [it for it in os.listdir(FILES) if it.endswith(".order")]


@pytest.mark.parametrize("name", sorted(LAWS))
def test_what_a_reader_would_doubt_has_a_proof(folder, name):
    certificate = read(f"{PROOFS}/{name}.proofs")
    lemmas = re.findall(r"(?m)^left (.*)$", certificate)
    assert [it for it in LAWS[name] if it not in lemmas] == []
    done = subprocess.run([PROGRAM, "induct", f"{PROOFS}/{name}.lotos", f"{PROOFS}/{name}.proofs"], stdout=subprocess.PIPE,
                          stderr=subprocess.DEVNULL, check=False)
    assert done.stdout.decode().split("\n")[0] == f"certified {len(lemmas)} lemmas"


def test_numbers_have_what_sets_ask_of_their_elements(folder):
    done = subprocess.run([PROGRAM, "induct", f"{PROOFS}/Set.lotos", f"{PROOFS}/Set.proofs"], stdout=subprocess.PIPE,
                          stderr=subprocess.DEVNULL, check=False)
    requirements = done.stdout.decode().splitlines()[2:]
    assert len(requirements) == 6
    assert all(re.fullmatch(r"Element\.lib:\d+:\d+ met by \d+", it) for it in requirements), requirements


@pytest.mark.slow
@pytest.mark.parametrize("name", sorted(LAWS))
def test_the_proofs_are_found_anew_from_their_lemmas(folder, name):
    done = subprocess.run([f"{COMPANIONS}/lotos-induct", f"{PROOFS}/{name}.lotos", f"{PROOFS}/{name}.proofs"],
                          stdout=subprocess.PIPE, stderr=subprocess.PIPE, check=False, env={**os.environ, "LOTOS": PROGRAM})
    assert (done.returncode, done.stderr.decode().startswith("certified ")) == (0, True), done.stderr.decode()


class Traced(Rules):
    """Rules that say which of them were used."""

    def __init__(self, data):
        super().__init__(data)
        self.used = set()

    def answer(self, term):
        """The normal form of a term, worked out without anything that is kept, and the rules that were used."""
        self._normal.clear()
        self.used = set()
        return self.normal(term), self.used

    def _at_root(self, term):
        for rule in self.of(term):
            if match(rule[0], term, {}):
                self.used.add(rule)
                break
        return super()._at_root(term)


@functools.lru_cache(None)
def flat_data(name):
    """The data of a library's session, and the texts of its equations."""
    done = subprocess.run([PROGRAM, "flatten", f"{PROOFS}/{name}.lotos"], stdout=subprocess.PIPE, stderr=subprocess.DEVNULL,
                          check=True)
    data = data_of(done.stdout.decode())
    return data, [data.pair_text(it) for it in data.equations]


@pytest.mark.skipif(not has_grammar(), reason="which equations are used, since there is no python3-lark")
@pytest.mark.parametrize("name", NAMES)
def test_each_equation_is_wanted_by_some_line(folder, name):
    """Without any one equation some answer of the session changes. What a library only takes over from another one it mentions
    is tried there; strings are lists under other names."""
    data, texts = flat_data(name)
    others = {it.replace("nil", "<>") for mentioned in ("List", *parts(name)[0], *Shelf.found().named(name).mentions)
              if mentioned in NAMES and mentioned != name for it in flat_data(mentioned)[1]} | set(flat_data("Element")[1][:SHIPPED])
    asked = [(next(iter(data.readings(read_terms(term)[0], {}))), wanted) for term, wanted in cases(name)]
    traced = Traced(data)
    answers = [(term, *traced.answer(term)) for term, _ in asked]
    for (_, wanted), (_, found, _) in zip(asked, answers):
        assert found in data.readings(read_terms(wanted)[0], {})
    for equation, text in zip(list(data.equations), texts):
        if text.replace("nil", "<>") in others:
            continue
        data.equations.remove(equation)
        rules = Rules(data)
        data.equations.append(equation)
        rule = equation if equation in set().union(*(used for _, _, used in answers)) else equation[::-1]
        assert any(rules.normal(term) != found for term, found, used in answers if rule in used), text
