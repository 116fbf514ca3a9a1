"""Texts of LOTOS: tokens, trees, and trees as texts again."""
import glob
import os
import shutil
import subprocess
import sys

import pytest
from .helpers import COMPANIONS, EXAMPLES, HERE, PROGRAM, read

from lotos_companion.language import (Kind, NoToken, NoTree, all_of, comments, read_behaviour, read_items, read_order,
                                      read_specification, read_terms, text_of, tokens, walk)
from lotos_companion.language import tree

TEXTS = sorted(glob.glob(f"{EXAMPLES}/*.lotos") + glob.glob(f"{HERE}/texts/*.lotos"))


def answered(verb, *words):
    """What the program prints."""
    return subprocess.run([PROGRAM, verb, *words], stdout=subprocess.PIPE, check=False).stdout.decode("utf-8", "surrogateescape")


@pytest.fixture
def folder(tmp_path, monkeypatch):
    """A folder with the libraries and order files of the examples."""
    for path in glob.glob(f"{EXAMPLES}/*.lib") + glob.glob(f"{EXAMPLES}/*.order"):
        shutil.copy(path, tmp_path)
    monkeypatch.chdir(tmp_path)
    return tmp_path


@pytest.mark.parametrize("path", TEXTS, ids=os.path.basename)
def test_a_text_is_read_and_printed_as_one_that_means_the_same(path, folder):
    shutil.copy(path, "old.lotos")
    made = read_specification(read(path))
    (folder / "new.lotos").write_text(text_of(made))
    assert read_specification(text_of(made)) == made
    orders = [os.path.basename(it) for it in glob.glob(path[:-len("lotos")] + "order")]
    flat = answered("flatten", "old.lotos", *orders)
    if not flat.startswith("refused "):
        # The flat text is made of what a text means alone, so that equal ones have the same menus, step for step.
        assert answered("flatten", "new.lotos", *orders) == flat
        assert read_specification(text_of(read_specification(flat))) == read_specification(flat)


def test_most_texts_are_accepted():
    os.chdir(EXAMPLES)
    reports = [answered("check", path) for path in glob.glob(f"{HERE}/texts/*.lotos")]
    assert len(reports) >= 10 and all(it.startswith("accepted ") for it in reports)


@pytest.mark.parametrize("text, shown", [
    ("a; B [] C ||| D [> E >> F", None), ("A >> accept x:S in B", None), ("A [] hide g in B ||| C", "A [] (hide g in B ||| C)"),
    ("i; hide g in B [] C", "i; (hide g in B [] C)"), ("[x = y] -> a !x ?y, z:Nat [y lt x]; (B [] C)", None),
    ("choice x, y:S, z:T [] P(x)", "choice x:S, y:S, z:T [] P(x)"), ("par g, h in [a], k in [b] |[]| P[g]", None),
    ("A [] B [] C", "A [] (B [] C)"), ("(A [] B) [] C", None), ("A |[a]||||B", None), ("P[a]|||Q", "P[a] ||| Q"),
    ("let x:S = 0, y:T = f(x) in exit(any S, x)", None), ("relabel a for x, b for y in relabel; P", None), ("relabel  in exit", None),
    ("relabel  in relabel; choice relabel in [a] [] stop", None),
    ("exit( **)", "exit( **)"), ("[ >= = 0] -> stop", "[ >= = 0] -> stop"), ("a!((x + y) of S + z)of T;stop", None)])
def test_behaviours(text, shown):
    if text == "A |[a]||||B":  # `]|` behind `|[`, and then `|||`, which no operand stands before.
        with pytest.raises(NoTree):
            read_behaviour(text)
        return
    made = read_behaviour(text)
    assert read_behaviour(text_of(made)) == made
    if shown:
        assert text_of(made) == shown


def test_strengths_and_groups():
    made = read_behaviour("a; B [] C ||| D [> E >> F")
    assert isinstance(made, tree.Enable) and isinstance(made.left, tree.Disable)
    assert isinstance(made.left.left, tree.Parallel) and isinstance(made.left.left.left, tree.Choice)
    term = read_terms("x lt y + (z of S), f")[0]
    assert term.name.text == "+" and term.arguments[0].name.text == "lt" and term.arguments[1].marks[0].text == "S"


def test_places():
    text = "specification S [g] : noexit (* ä *)\nbehaviour (* b *)\n  g ?x:Nat [x = 0]; P[g](x)\nendspec\n"
    made = read_specification(text)
    action = next(all_of(tree.Action, made))
    assert (action.head.line, action.head.column) == (3, 3)
    assert text[action.head.offset:action.head.end] == "g ?x:Nat [x = 0]"
    call = next(all_of(tree.Call, made))
    assert text[call.place.offset:call.place.end] == "P[g](x)" and str(call.place) == "3:21"
    assert [it.text for it in comments(text)] == ["(* ä *)", "(* b *)"]
    assert [str(it.place) for it in comments(text)] == ["1:30", "2:11"]


@pytest.mark.parametrize("name", ["inres", "alternating_bit", "vending_machine"])
def test_every_part_stands_where_its_place_says(name):
    text = read(f"{EXAMPLES}/{name}.lotos")
    made = read_specification(text)
    for count, part in enumerate(it for it in walk(made) if hasattr(it, "place")):
        again = text[part.place.offset:part.place.end]
        if isinstance(part, tree.Name):
            assert again == part.text
        elif isinstance(part, tree.Term) and count % 7 == 0:
            assert read_terms(again)[0] == part
        elif isinstance(part, (tree.Action, tree.Call, tree.Choice, tree.Hide)) and count % 7 == 0:
            assert read_behaviour(again) == part


@pytest.mark.parametrize("text, where", [
    ("specification S : noexit behaviour stop", "1:40"), ("specification S : noexit\nbehaviour stop [] [] endspec", "2:19"),
    ("specification S : noexit behaviour g [x]; stop endspec", "1:41"), ("specification S $", "1:17"),
    ("specification stop : noexit behaviour stop endspec", "1:15"), ("(* (* *) *)", "1:10"), ("specification (* S", "1:15")])
def test_what_is_no_text_is_told_with_its_place(text, where):
    with pytest.raises(NoTree) as fault:
        read_specification(text)
    assert str(fault.value.place) == where


def test_words_and_marks():
    kinds = [(it.kind, it.text) for it in tokens("STOP a_1_ 0x **-> -> |[a]|||b")]
    assert kinds == [(Kind.RESERVED, "STOP"), (Kind.NAME, "a_1"), (Kind.MARK, "_"), (Kind.DIGIT_NAME, "0x"),
                     (Kind.SIGN_NAME, "**->"), (Kind.MARK, "->"), (Kind.MARK, "|["), (Kind.NAME, "a"), (Kind.MARK, "]|"),
                     (Kind.MARK, "||"), (Kind.NAME, "b")]
    with pytest.raises(NoToken):
        list(tokens("a | b"))


def test_deep_texts_are_read_and_printed():
    text = "g; " * 499 + "stop"
    assert text_of(read_behaviour(text)) == text
    value = "f(" * 20000 + "x" + ")" * 20000
    assert text_of(read_terms(value)[0]) == value


def test_libraries_and_order_files():
    items = read_items(read(f"{EXAMPLES}/Waiting.lib"))
    assert "".join(map(text_of, read_items("".join(map(text_of, items))))) == "".join(map(text_of, items))
    order = read_order("_-_; turn : List, List -> List right; pred left;")
    assert "".join(map(text_of, order)) == "_-_;\nturn : List, List -> List right;\npred left;\n"


def test_without_lark_tokens_are_read_and_trees_are_not():
    code = ("import sys; sys.modules['lark'] = None\n"
            "from lotos_companion.language import NoGrammar, has_grammar, read_terms, tokens\n"
            "assert not has_grammar() and [it.text for it in tokens('a b')] == ['a', 'b']\n"
            "try:\n    read_terms('a')\nexcept NoGrammar as fault:\n    print(fault)\n")
    done = subprocess.run([sys.executable, "-c", code], cwd=COMPANIONS, stdout=subprocess.PIPE, check=True)
    assert done.stdout == b"Debian's package python3-lark is not there\n"
