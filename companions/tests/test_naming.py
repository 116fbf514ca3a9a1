"""Names of hidden events: what they are, that no menu differs, and that nothing is answered otherwise."""
import glob
import os
import random
import resource
import shutil
import signal
import subprocess
import sys
import time

import pytest

from lotos_companion.language import read_specification
from lotos_companion.naming import Kind, NamedPlay, named_lines
from lotos_companion.naming.second_text import second_text
from lotos_companion.play import Play
from lotos_companion.program import Words
from lotos_companion.scenario import read_trace_file
from lotos_companion.session import Ended

from .helpers import COMPANIONS, EXAMPLES, HERE, PROGRAM, TOP, sessions

TEXTS = sorted(glob.glob(f"{HERE}/texts/*.lotos"))


@pytest.fixture(autouse=True)
def folder(tmp_path, monkeypatch):
    """A folder with what the examples are made of."""
    for path in glob.glob(f"{EXAMPLES}/*"):
        shutil.copy(path, tmp_path)
    monkeypatch.chdir(tmp_path)
    return tmp_path


@pytest.fixture
def plays():
    """Makes sessions with names, which are ended behind the test."""
    made = []

    def make(path, *more):
        made.append(NamedPlay(PROGRAM, Words.read([path, *more])))
        made[-1].open()
        return made[-1]
    yield make
    for it in made:
        it.kill()


def shown(play):
    """The entries of the menu with their names."""
    return named_lines(play.menu.lines, play.names)


def walk(play, rng, steps):
    """Steps and undos by chance, with values that the program lists; then a kept trace is replayed. How many steps there were,
    and the kinds of names that were seen."""
    taken, kinds = 0, set()
    for _ in range(steps):
        kinds |= {it.kind for it in play.names if it}
        entries = play.menu.entries
        if not entries or rng.random() < 0.2:
            play.ask("undo")
            continue
        entry = rng.choice(entries)
        given = entry.number
        if entry.variables:
            listed = play.ask(f"instances {entry.number} 3").lines[1:]
            if not listed:
                continue
            given = rng.choice(listed).partition(" => ")[0]
        play.ask(f"step {given}")
        taken += 1
        assert play.why_off is None
    names = play.step_names
    assert len(names) == len(play.done)
    assert all((step.label == "i") == (name is not None) for step, name in zip(play.done, names))
    play.ask("save walked.trace")
    play.ask("undo")
    play.ask("replay walked.trace")
    assert play.step_names == names
    return taken, kinds


def draw(seed):
    """A drawn specification, in the folder: its words."""
    sys.path.append(f"{TOP}/fuzz")
    try:
        import texts
    finally:
        sys.path.pop()
    drawn = texts.Drawn(random.Random(seed))
    for name, text in {"drawn.lotos": drawn.specification(), **drawn.libraries}.items():
        with open(name, "wb") as file:
            file.write(text)
    return Words(("drawn.lotos",), tuple(drawn.words) if drawn.words else None)


def walk_drawn(seeds, steps):
    """Walks through drawn texts: how many there were, and how many steps were compared."""
    texts = taken = 0
    kinds = set()
    for seed in seeds:
        play = NamedPlay(PROGRAM, draw(seed))
        try:
            play.open()
            assert play.why_off is None, seed
            count, seen = walk(play, random.Random(seed), steps)
            assert play.why_off is None, seed
            texts, taken, kinds = texts + 1, taken + count, kinds | seen
        except Ended as end:  # Some of them are refused.
            assert end.lines[0].startswith("refused "), seed
        finally:
            play.kill()
    assert kinds == set(Kind)
    return texts, taken


def test_names_of_a_protocol(plays):
    play = plays("alternating_bit.lotos")
    play.ask("step 1 Succ(0)")
    assert shown(play) == ["1: i (send !Succ(0) !false, hidden in Alternating_Bit)"]
    play.ask("step 1")
    assert shown(play) == ["1: i (i of Waiting at Sender)", "2: i (i of There)",
                           "3: i (arrive !Succ(0) !false, hidden in Alternating_Bit)"]
    assert [str(it) for it in play.step_names] == ["None", "send !Succ(0) !false, hidden in Alternating_Bit"]
    arrive = play.names[2]
    assert (arrive.gate, arrive.values, arrive.process, arrive.where) == ("arrive", ("Succ(0)", "false"), "Alternating_Bit", ())
    assert str(arrive.origin.place) == "6:14"
    play.ask("replay alternating_bit.trace")
    play.ask("undo")
    assert "1: i (done !false, hidden in Alternating_Bit)" in [it.replace("2:", "1:").replace("3:", "1:") for it in shown(play)]


def test_instances_are_told_apart(plays, folder):
    (folder / "three.lotos").write_text("""specification Three [a, b] : noexit
        behaviour There[a] ||| There[b] ||| (par g in [a, b] ||| Channel[g])
        where process There [a] : noexit := Channel[a] where process Unused : noexit := stop endproc endproc
          process Channel [a] : noexit := hide arrive in i; arrive; a; Channel[a] endproc
        endspec""")
    play = plays("three.lotos")
    play.ask("step 1")
    assert shown(play) == ["1: i (arrive, hidden in Channel at There[a])", "2: i (i of Channel at There[b])",
                           "3: i (i of Channel at g = a)", "4: i (i of Channel at g = b)"]
    assert play.names[0].where == ("There[a]",) and play.names[0].process == "Channel"


def test_ends_are_named_with_their_values(plays):
    play = plays(f"{HERE}/texts/enabling_values.lotos")
    for line in ("step 1 0", "step 1"):
        play.ask(line)
    assert shown(play)[0] == "1: i (exit(0, true) before >> in Enabling_Values, line 4)"
    play.ask("step 1")
    assert [str(it) for it in play.step_names][2] == "exit(0, true) before >> in Enabling_Values, line 4"
    assert shown(play)[0] == "1: i (h !0 !true, hidden in Enabling_Values)"
    play.ask("save there.trace")
    for line in ("undo", "undo", "replay there.trace"):
        play.ask(line)
    assert shown(play)[0] == "1: i (h !0 !true, hidden in Enabling_Values)" and play.why_off is None


def test_values_of_open_entries(plays):
    play = plays(f"{HERE}/texts/hidden_values.lotos")
    assert shown(play)[0] == ("1: i (h !$1 !$2, hidden in Hidden_Values) for $1:Nat, $2:Nat "
                              "if $1 + $2 = Succ(Succ(0)), ($1 lt $2) or ($1 eq $2) = true")
    play.ask("step 1 0, Succ(Succ(0))")
    assert play.step_names[0].label == "h !0 !Succ(Succ(0))"


@pytest.mark.parametrize("path", TEXTS, ids=os.path.basename)
def test_no_menu_differs_in_nasty_texts(path, plays):
    assert walk(plays(path), random.Random(7), 25)[0] > 0


EXAMPLE_WORDS = {words[0]: words for _, words, _, report, _ in sessions() if report.startswith("accepted ")}


@pytest.mark.parametrize("words", EXAMPLE_WORDS.values(), ids=EXAMPLE_WORDS)
def test_no_menu_differs_in_the_examples(words, plays):
    play = plays(*words)
    assert play.why_off is None
    walk(play, random.Random(3), 6)


def test_no_menu_differs_in_drawn_texts():
    assert walk_drawn(range(40), 10)[0] > 30


@pytest.mark.slow
def test_no_menu_differs_in_a_thousand_drawn_texts():
    texts, taken = walk_drawn(range(1000, 2300), 26)
    print(f"{texts} texts, {taken} steps")
    assert texts >= 1000 and taken >= 10000


SESSIONS = {name: more for name, *more in sessions()}


@pytest.mark.parametrize("name", SESSIONS)
def test_what_is_answered_is_the_programs(name):
    words, typed, report, _ = SESSIONS[name]
    play = NamedPlay(PROGRAM, Words.read(words))
    try:
        lines = list(play.open().lines)
        for line in typed.split("\n"):
            if line.strip() == "quit":
                break
            lines += play.ask(line).lines
            if line.startswith("step"):
                assert len(play.names) == len(play.menu.lines)
        assert "".join(f"{it}\n" for it in lines) == report
    except Ended as end:
        assert "".join(f"{it}\n" for it in end.lines) == report
    finally:
        play.kill()


def test_the_second_session_may_be_killed(plays):
    play, plain = plays("alternating_bit.lotos"), Play(PROGRAM, Words(("alternating_bit.lotos",)))
    plain.open()
    for line in ("step 1 0", "step 1"):
        assert play.ask(line) == plain.ask(line)
    os.kill(play._second._session._process.pid, signal.SIGKILL)
    for line in ("step 2", "menu", "undo", "step 3", "trace", "show"):
        assert play.ask(line) == plain.ask(line)
        assert play.names == [None] * len(play.menu.lines)
    assert play.why_off == "the second session ended by the signal 9"
    assert play.step_names == [None] * 3
    plain.kill()


def test_a_difference_puts_the_names_off(plays):
    play = plays("alternating_bit.lotos")
    play.ask("step 1 0")
    play._second._session.ask("step 1")  # Somebody else takes a step in the second session.
    answer = play.ask("step 1")
    assert answer.first == "did i" and play.names == [None] * 3
    assert play.why_off.startswith("the second text has events ") or play.why_off.startswith("the second session answers")


# Each end before `>>` is one level more, each call of `R` has a gate of its own, and each call hands on all gates.
LARGE = {"refused 105 TooDeep": f"{'exit >> ' * 300} stop",
         "more than 400 fresh gates": f"{'g; (i; stop) ||| ' * 410} stop",
         "refused 103 TooLong": f"hide {', '.join(f'g{it}' for it in range(350))} in Q0[g] where "
                                f"process R [g] : noexit := i; Q0[g] endproc "
                                + "".join(f"process Q{it} [g] : noexit := {'R[g] ||| ' * 420} R[g] endproc " for it in range(2))}


@pytest.mark.parametrize("why", LARGE)
def test_texts_that_are_too_large(why, plays, folder):
    text = f"specification S [g] : {'exit' if 'exit' in LARGE[why] else 'noexit'} behaviour {LARGE[why]} endspec"
    (folder / "large.lotos").write_text(text.replace(": exit", ": noexit"))
    play = plays("large.lotos")
    assert play.menu.lines and why in play.why_off
    assert play.names == [None] * len(play.menu.lines)


def test_a_folder_for_the_second_text_may_be_missing(monkeypatch, plays):
    monkeypatch.setattr("tempfile.tempdir", "/no/such/folder")
    play = plays("alternating_bit.lotos")
    assert play.ask("step 1 0").first == "did put !0" and "the second text cannot be run" in play.why_off


def test_without_lark_there_are_no_names():
    code = ("import sys; sys.modules['lark'] = None\n"
            "from lotos_companion.naming import NamedPlay\nfrom lotos_companion.program import Words\n"
            f"play = NamedPlay({PROGRAM!r}, Words(('alternating_bit.lotos',)))\n"
            "play.open(); print(play.ask('step 1 0').lines, play.names, play.why_off); play.kill()\n")
    done = subprocess.run([sys.executable, "-c", code], env={**os.environ, "PYTHONPATH": COMPANIONS}, stdout=subprocess.PIPE,
                          check=True)
    assert done.stdout.decode() == "('did put !0', 'events 1', '1: i') [None] Debian's package python3-lark is not there\n"


def test_fresh_gates_differ_from_every_word():
    flat = "specification H1 [h0] : noexit type T is sorts HH2 opns hhh3 : -> HH2 endtype behaviour i; h0; stop endspec"
    made = second_text(flat)
    assert list(made.origins) == ["hhhh0"]
    assert read_specification(made.text).heading.gates[1].text == "hhhh0"


def cost(kind, steps, rounds):
    """The processor time of a session that takes these steps so many times, in seconds: of this process and of those that it
    started."""
    begin, below = time.process_time(), resource.getrusage(resource.RUSAGE_CHILDREN)
    play = kind(PROGRAM, Words(("alternating_bit.lotos",)))
    play.open()
    for _ in range(rounds):
        for step in steps:
            assert play.ask(step.line).label == step.label
            if isinstance(play, NamedPlay):
                assert len(play.names) == len(play.menu.lines) and play.why_off is None
    play.quit()
    now = resource.getrusage(resource.RUSAGE_CHILDREN)
    return time.process_time() - begin + now.ru_utime + now.ru_stime - below.ru_utime - below.ru_stime


def test_a_step_costs_at_most_three_times_as_much():
    steps = [it for it in read_trace_file("alternating_bit.trace").steps]
    ratios = []
    for _ in range(4):  # The machine may be busy, which costs time too.
        plain, named = (cost(kind, steps, 65) - cost(kind, steps, 5) for kind in (Play, NamedPlay))
        print(f"{plain / 840 * 1e6:.0f} and {named / 840 * 1e6:.0f} microseconds for a step")
        ratios.append(named / plain)
    assert min(ratios) <= 3


def trace_tool(*words):
    """What `lotos-trace` writes, and what it says on the error stream."""
    done = subprocess.run([f"{COMPANIONS}/lotos-trace", *words], stdout=subprocess.PIPE, stderr=subprocess.PIPE, check=False,
                          env={**os.environ, "LOTOS": PROGRAM})
    return done.stdout.decode(), done.stderr.decode()


def test_scenarios_and_pictures_have_names():
    words = ("alternating_bit.trace", "alternating_bit.lotos")
    name = "i (send !Succ(0) !false, hidden in Alternating_Bit)"
    assert f"step 2: {name}\n  > 1: {name}\n" in trace_tool("show", *words)[0]
    plain, said = trace_tool("--no-names", "show", *words)
    assert "step 2: i\n  > 1: i\n" in plain and "(send" not in plain and not said
    assert trace_tool("--no-names", "--names", "show", *words) == trace_tool("show", *words)
    chart = trace_tool("chart", *words)[0]
    assert "<title>step 2: " + name + "</title>" in chart and ">i (send !Succ(0) !false)</text>" in chart
    assert ">i (i of There)</text>" in chart and "not taken:\n1: i (i of Waiting at Sender)\n3: i (arrive" in chart
    assert name[3:-1] in trace_tool("page", *words)[0]
    assert "(send !Succ(0)" not in trace_tool("--no-names", "page", *words)[0]
    assert "i (send !1 !false)" in trace_tool("--numbers", "chart", *words)[0]


def test_names_in_a_picture_are_escaped(folder):
    (folder / "signs.lotos").write_text("""specification Signs [g] : noexit
        type T is sorts T opns <//> : -> T endtype
        behaviour hide h in h !<//>; g; stop endspec""")
    (folder / "signs.trace").write_text("lotos-trace 1\n1 => i\n1 => g\n")
    for verb in ("chart", "page"):
        assert "<//>" not in trace_tool(verb, "signs.trace", "signs.lotos")[0]
    assert "i (h !&lt;//&gt;, hidden in Signs)" in trace_tool("chart", "signs.trace", "signs.lotos")[0]


def test_a_word_is_said_where_there_are_no_names(folder):
    (folder / "large.lotos").write_text(f"specification S [g] : noexit behaviour {LARGE['refused 105 TooDeep']} endspec")
    (folder / "large.trace").write_text("lotos-trace 1\n1 => i\n")
    shown_lines, said = trace_tool("show", "large.trace", "large.lotos")
    assert shown_lines.startswith("step 1: i\n  > 1: i\n")
    assert said.startswith("lotos-trace: hidden events have no names: the second text is answered by refused 105 TooDeep")
    assert "hidden events have no names" in trace_tool("chart", "large.trace", "large.lotos")[0]
