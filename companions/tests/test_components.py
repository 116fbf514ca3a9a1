"""Components of states, what takes part in events, and the parts of the source that events stand for."""
import glob
import os
import random
import subprocess
import sys

import pytest

from lotos_companion.components import (Actions, Happening, actions_of, component_at, moved, participants, read_state, state_of)
from lotos_companion.language import all_of, read_specification, tree
from lotos_companion.play import Play
from lotos_companion.program import Words
from lotos_companion.session import Ended

from .helpers import COMPANIONS, EXAMPLES, HERE, PROGRAM, read, sessions
from .test_naming import draw, folder  # noqa: F401

TEXTS = sorted(glob.glob(f"{HERE}/texts/*.lotos"))


@pytest.fixture
def plays():
    """Makes sessions with their actions, which are ended behind the test."""
    made = []

    def make(*words):
        play = Play(PROGRAM, Words.read(words))
        play.open()
        made.append((play, Actions(play)))
        return made[-1]
    yield make
    for play, actions in made:
        actions.kill()
        play.kill()


def walk(play, actions, rng, steps):
    """Steps and undos by chance: each step moves those components alone that are told to take part in it. How many there were."""
    taken = 0
    for _ in range(steps):
        parts = actions.entries()
        assert actions.why_off is None and len(parts) == len(play.menu.lines)
        for entry, those in zip(play.menu.entries, parts):
            assert those or entry.label.gate == "exit" or entry.label.is_internal and entry.variables, entry
        if not play.menu.lines or rng.random() < 0.2:
            play.ask("undo")
            continue
        entry = rng.choice(play.menu.entries)
        given = entry.number
        if entry.variables:
            listed = play.ask(f"instances {entry.number} 3").lines[1:]
            if not listed:
                continue
            given = rng.choice(listed).partition(" => ")[0]
        before = read_state(play.ask("show").first)
        play.ask(f"step {given}")
        taken += 1
        after = read_state(play.ask("show").first)
        if entry.label.gate == "exit":
            continue
        paths = participants(actions.steps()[-1], before)
        assert actions.steps()[-1] == parts[int(entry.number) - 1] or entry.variables
        for path in moved(before, after):  # What was one component before may be several behind the step.
            place = component_at(before, path).path
            assert any(it[:len(place)] == place or place[:len(it)] == it for it in paths), (path, place, paths)
    return taken


def walk_drawn(seeds, steps):
    """Walks through drawn texts: how many texts and steps there were."""
    texts = taken = 0
    for seed in seeds:
        play = Play(PROGRAM, draw(seed))
        actions = Actions(play)
        try:
            play.open()
            taken += walk(play, actions, random.Random(seed), steps)
            texts += 1
        except Ended as end:  # Some of them are refused.
            assert end.lines[0].startswith("refused "), seed
        finally:
            actions.kill()
            play.kill()
    return texts, taken


def lines(state):
    """The lines of a state."""
    return ["  " * depth + it.text for depth, it in state.lines()]


def sources(parts):
    """The processes, lines and columns of parts."""
    return [(it.occurrence.process, it.occurrence.called, str(it.place), it.path) for it in parts]


def test_the_actions_of_a_protocol(plays):
    play, actions = plays("alternating_bit.lotos")
    play.ask("step 1 0")
    assert [sources(it) for it in actions.entries()] == [[("Sender", "send", "12:17", (0, 0)), ("There", "send", "27:5", (1, 0))]]
    play.ask("step 1")
    entries = actions.entries()
    assert [it.occurrence.happening for those in entries for it in those] == [
        Happening.INNER, Happening.INNER, Happening.EVENT, Happening.EVENT]
    state = read_state(play.ask("show").first)
    assert participants(entries[2], state) == ((0, 1), (1, 0))
    text = read("alternating_bit.lotos")
    assert [text[it.offset:it.end] for it in actions_of(entries[2])] == ["arrive ?m:Nat !bit", "arrive !m !bit"]
    assert [text[it.place.offset:it.place.end] for it in entries[0][0].calls] == ["Waiting[put, send, done](m, bit)"]
    assert [participants(it, state) for it in actions.steps()] == [((0, 0),), ((0, 0), (1, 0))]
    play.ask("undo")
    assert len(actions.steps()) == 1 and participants(actions.entries()[0], state) == ((0, 0), (1, 0))
    found = actions.occurrences()
    calls = [it.place for it in all_of(tree.Call, read_specification(text))]
    assert {it.place for it in found if it.happening is Happening.CALL} == set(calls)
    assert all(it.place for it in found)


def test_the_components_of_a_state(plays):
    play, actions = plays("alternating_bit.lotos")
    play.ask("step 1 0 + Succ(0)")
    state = state_of(play, actions)
    assert lines(state) == [
        "hide send, arrive, answer, done in", "  |[send, arrive, answer, done]|", "    |||",
        "      send !Succ(0) !false; Waiting[put, send, done](Succ(0), false)", "      Receiver[get, arrive, answer](false)",
        "    |||", "      There[send, arrive]", "      Back[answer, done]"]
    assert [(it.path, it.process) for it in state.singles()] == [
        ((0, 0), "Sender"), ((0, 1), "Receiver"), ((1, 0), "There"), ((1, 1), "Back")]
    receiver = component_at(state, (0, 1))
    assert (receiver.gates, receiver.values) == (("get", "arrive", "answer"), ("false",))
    assert component_at(state, (0, 1, 1, 0)) == receiver


def test_values_are_in_normal_form(plays, folder):  # noqa: F811
    (folder / "rests.lotos").write_text("""specification Rests [a] : noexit library NaturalNumber endlib
        type Lists is NaturalNumber sorts List opns nil : -> List cons : Nat, List -> List rest : List -> List
          eqns forall x : Nat, l : List ofsort List rest(cons(x, l)) = l; endtype
        behaviour P[a](cons(0, cons(0, nil))) where process P [a] (l : List) : noexit := a; P[a](rest(l)) endproc endspec""")
    play, _ = plays("rests.lotos")
    play.ask("step 1")
    assert play.ask("show").first == "P[a](rest(cons(0, cons(0, nil))))"
    assert lines(state_of(play)) == ["P[a](cons(0, nil))"]


def test_what_comes_back_to_what_it_was_has_taken_part_all_the_same(plays, folder):  # noqa: F811
    (folder / "same.lotos").write_text("""specification Same [a, b] : noexit
        behaviour P[a] ||| P[b] where process P [a] : noexit := a; P[a] endproc endspec""")
    play, actions = plays("same.lotos")
    play.ask("step 1")
    before = state_of(play)
    play.ask("step 1")
    assert moved(before, state_of(play)) == frozenset()
    assert [participants(it, before) for it in actions.steps()] == [((0,),), ((0,),)]


def test_ends_and_what_is_left_of_a_disabling(plays, folder):  # noqa: F811
    (folder / "ends.lotos").write_text("""specification Ends [a, b, c] : noexit
        behaviour (a; exit ||| b; exit) [> c; exit >> (a; stop ||| b; stop) endspec""")
    play, actions = plays("ends.lotos")
    assert lines(state_of(play)) == [">> (a; stop ||| b; stop)", "  [> c; exit", "    |||", "      a; exit", "      b; exit"]
    state = state_of(play)
    assert [participants(it, state) for it in actions.entries()] == [((0,),), ((1,),), ((),)]
    assert [it[0].path for it in actions.entries()] == [(0,), (1,), (2,)]
    assert component_at(state, (2,)).text == "[> c; exit"
    play.ask("step 1")
    play.ask("step 1")
    end = actions.entries()[0][0]
    assert (end.occurrence.happening, str(end.place), end.path) == (Happening.ENDED, "2:52", ())
    play.ask("step 1")
    assert lines(state_of(play)) == ["|||", "  a; stop", "  b; stop"]
    assert actions.steps()[-1] == (end,)
    assert [participants(it, state_of(play)) for it in actions.entries()] == [((0,),), ((1,),)]


def test_conditions_and_sides_of_a_par(plays, folder):  # noqa: F811
    (folder / "par.lotos").write_text("""specification Sides [a, b, c] : noexit library NaturalNumber endlib
        behaviour par g in [a, b, c] ||| (g ?x:Nat [x lt Succ(0)]; stop |[g]| (g !0; stop [] g !Succ(0); stop)) endspec""")
    play, actions = plays("par.lotos")
    assert play.menu.lines == ("1: a !0", "2: b !0", "3: c !0")
    assert [tuple(part.path for part in it) for it in actions.entries()] == [((0, 0), (0, 1)), ((1, 0, 0), (1, 0, 1)), ((1, 1, 0), (1, 1, 1))]
    assert [it.path for it in read_state(play.ask("show").first).singles()] == [()]
    assert [str(it) for it in actions_of(actions.entries()[0])] == ["2:43", "2:80"]


@pytest.mark.parametrize("path", TEXTS, ids=os.path.basename)
def test_what_takes_part_in_nasty_texts(path, plays):
    play, actions = plays(path)
    assert walk(play, actions, random.Random(5), 12) > 0


EXAMPLE_WORDS = {words[0]: words for _, words, _, report, _ in sessions() if report.startswith("accepted ")}


@pytest.mark.parametrize("words", EXAMPLE_WORDS.values(), ids=EXAMPLE_WORDS)
def test_what_takes_part_in_the_examples(words, plays):
    play, actions = plays(*words)
    walk(play, actions, random.Random(5), 5)
    assert actions.why_off is None


def test_what_takes_part_in_drawn_texts(monkeypatch, tmp_path):
    monkeypatch.chdir(tmp_path)
    assert walk_drawn(range(5000, 5025), 8)[0] > 15


@pytest.mark.slow
def test_what_takes_part_in_many_drawn_texts(monkeypatch, tmp_path):
    monkeypatch.chdir(tmp_path)
    texts, taken = walk_drawn(range(6000, 6400), 12)
    print(f"{texts} texts, {taken} steps")
    assert texts > 300 and taken > 1000


def test_deep_states():
    text = " ||| ".join(["P(" + "f(" * 3000 + "x" + ")" * 3000 + ")"] * 2) + " ||| " + "(stop ||| " * 1500 + "stop" + ")" * 1500
    assert len(read_state(text).singles()) == 1503


def test_without_lark_nothing_is_told():
    code = ("import sys; sys.modules['lark'] = None\n"
            "from lotos_companion.components import Actions\nfrom lotos_companion.program import Words\n"
            f"from lotos_companion.play import Play\nplay = Play({PROGRAM!r}, Words(('alternating_bit.lotos',)))\n"
            "play.open(); actions = Actions(play); print(actions.entries(), actions.why_off); play.kill()\n")
    done = subprocess.run([sys.executable, "-c", code], env={**os.environ, "PYTHONPATH": COMPANIONS}, stdout=subprocess.PIPE,
                          check=True)
    assert done.stdout.decode() == "[()] Debian's package python3-lark is not there\n"
