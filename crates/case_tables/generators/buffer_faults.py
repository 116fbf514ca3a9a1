#!/usr/bin/env python3
"""Prints the cases of `data/buffer_faults.cases`: the long session of a buffer, of which one call fails. With the
word `bytes` it prints those of `.ci/large`, where each call reads or writes one byte.

What is wanted follows from the answers of the session, which stand below line by line, and these rules:
a shelf that fails while a text is read ends the run with `cannot read`, and refuses `save` or `replay`
alone; an input that fails drops what is not complete, and prints `input failed`; an output that fails
ends the run, and what was written before it stays.
"""
import os
import sys

HERE = os.path.dirname(os.path.abspath(__file__))

# The menu at each number of steps, but for its first entry, which all menus have.
FIRST = "1: inp !$1 for $1:Nat if $1 lt Succ(Succ(0)) = true"
NUMBERS = ["0", "Succ(0)", "Succ(Succ(0))", "Succ(Succ(Succ(0)))"]
SECOND = [None, "i", "i", "outp !0", "i", "outp !" + NUMBERS[2], "outp !" + NUMBERS[2], "i",
          "outp !" + NUMBERS[3], None, "i", "outp !" + NUMBERS[3], None]
STEPS = [("1 0", "inp !0"), ("1 Succ(0)", "inp !Succ(0)"), ("2", "i"), ("2", "outp !0"), ("2", "i"),
         ("1 Succ(0)", "inp !Succ(0)"), ("2", "outp !" + NUMBERS[2]), ("2", "i"),
         ("2", "outp !" + NUMBERS[3]), ("1 0", "inp !0"), ("2", "i"), ("2", "outp !" + NUMBERS[3])]

# The two sides behind each step: what the queue of Front is, and what Back gives next, and with what number it goes on.
QUEUES = ["app(nil, 0)", "app(cons(0, nil), Succ(0))", "rest(cons(0, cons(Succ(0), nil)))", "rest(cons(0, cons(Succ(0), nil)))",
          "rest(cons(Succ(0), nil))", "app(nil, Succ(0))", "app(nil, Succ(0))", "rest(cons(Succ(0), nil))",
          "rest(cons(Succ(0), nil))", "app(nil, 0)", "rest(cons(0, nil))", "rest(cons(0, nil))"]
NUMBERS_BEHIND = NUMBERS + ["Succ(Succ(Succ(Succ(0))))"]
GIVES = [None, None, "0 + 0", None, "Succ(0) + Succ(0)", "Succ(0) + Succ(0)", None, "Succ(0) + " + NUMBERS[2], None, None,
         "0 + " + NUMBERS[3], None]
COUNTS = [0, 0, 1, 1, 2, 2, 2, 3, 3, 3, 4, 4]


def side(gives, number):
    """The process Back with this number; or the value that it gives before, under the names of its gates."""
    if gives is None:
        return f"Back[mid, outp]({number})"
    return f"(relabel mid for b, outp for c in c !{gives}; Back[b, c]({number}))"


STATES = [f"hide mid in Front[inp, mid]({queue}) |[mid]| {side(gives, NUMBERS_BEHIND[count])}"
          for queue, gives, count in zip(QUEUES, GIVES, COUNTS)]
TRACE = ["lotos-trace 2 Buffer"] + [line for (given, label), state in zip(STEPS, STATES)
                                    for line in (f"{given} => {label}", f"at {state}")]

# The behaviour behind eleven steps and behind twelve.
SHOWN = {11: STATES[10], 12: STATES[11]}


def menu(steps):
    """The menu behind so many steps."""
    entries = [FIRST] + ([f"2: {SECOND[steps]}"] if SECOND[steps] else [])
    return [f"events {len(entries)}"] + entries


HEAD = ["accepted Buffer", "data: 3 sorts, 27 operations, 35 equations"] + menu(0)


def session(lines, fails):
    """What each of the lines behind twelve steps answers where these calls of the shelf fail, of which
    the first got the specification; and what is left under the name t."""
    calls, steps, kept, answers = 1, 12, None, []
    for line in lines:
        if line in ("save t", "replay t"):
            calls += 1
        if line == "save t" and calls in fails:
            answers.append(["refused 808 Unwritten t"])
        elif line == "save t":
            kept = steps
            answers.append(["saved t"])
        elif line == "replay t" and (calls in fails or kept is None):
            answers.append(["refused 807 Unread t"])
        elif line == "replay t":
            steps = kept
            answers.append([f"replayed {steps}"] + menu(steps))
        elif line == "undo":
            steps -= 1
            answers.append(["undone"] + menu(steps))
        elif line == "show":
            answers.append([SHOWN[steps]])
        else:
            answers.append([])
    return answers, kept


STEP_LINES = [f"step {given}" for given, _ in STEPS]
STEP_ANSWERS = [[f"did {label}"] + menu(count + 1) for count, (_, label) in enumerate(STEPS)]


def text_lines(text):
    """The lines of a data file that say this text."""
    *whole, rest = text.split("\n")
    return ["|" + line for line in whole] + (["!" + rest] if rest else [])


def case(name, says, lines, report, status, kept):
    """`says` are the lines that tell what fails; `kept` is the number of steps of the trace that is left."""
    print("\n".join([f"\ncase {name}", "words run buffer.lotos", *says, "input", *("|" + line for line in lines), "prints",
                     *text_lines(report), f"status {status}"]))
    print("\n".join(["leaves t", *("|" + line for line in TRACE[:2 * kept + 1])]) if kept else "leaves t nothing")


def written(answers):
    return "".join(line + "\n" for answer in answers for line in answer)


def first_lines(told):
    print(f"# {told}\n\nfile buffer.lotos")
    with open(f"{HERE}/../data/prefixes.cases") as cases:
        print(cases.read().split("\nfile buffer.lotos\n")[1].split("\n\n")[0])


ONCE = ["save t", "undo", "replay t", "show", "quit"]
TWICE = ["save t", "save t", "undo", "replay t", "replay t", "show", "quit"]
# Behind this line of the session the trace is left under its name.
SAVE = len(STEP_LINES) + 1


def shelf_cases():
    for fail in range(1, 7):
        lines, says = STEP_LINES + TWICE, [f"fails shelf {fail}"]
        if fail == 1:
            case("call 1 of the shelf fails", says, lines, "cannot read buffer.lotos\n", 3, None)
            continue
        answers, kept = session(TWICE, [fail])
        name = f"call {fail} of the shelf fails" if fail < 6 else "the shelf has no sixth call"
        case(name, says, lines, written([HEAD] + STEP_ANSWERS + answers), 0, kept)
    for fail in [2, 3]:
        answers, kept = session(ONCE, [fail])
        case(f"call {fail} of the shelf fails, and the line is not repeated", [f"fails shelf {fail}"], STEP_LINES + ONCE,
             written([HEAD] + STEP_ANSWERS + answers), 0, kept)


def main():
    lines = STEP_LINES + ONCE
    whole = [HEAD] + STEP_ANSWERS + session(ONCE, [])[0]
    if sys.argv[1:] == ["bytes"]:
        return byte_cases(lines, whole)
    first_lines("The long session of a buffer, of which one call fails: each call of the shelf, of the input and of the\n"
                "# output in turn, up to the first that is not made. Made by generators/buffer_faults.py.")
    shelf_cases()
    cuts = "cuts " + " ".join(str(len(line) + 1) for line in lines)
    for fail in range(1, len(lines) + 2):
        # Before read N the lines 1 to N - 1 are answered.
        says, kept = [f"fails input {fail}", cuts], 12 if fail > SAVE else None
        if fail <= len(lines):
            case(f"read {fail} of the input fails", says, lines, written(whole[:fail]) + "input failed\n", 4, kept)
        else:
            case("the input is not read behind quit", says, lines, written(whole), 0, kept)
    writes = [answer for answer in whole if answer]
    for fail in range(1, len(writes) + 2):
        # The head and the answer of each line are written whole. A line is served before its answer is written.
        says, kept = [f"fails output {fail}"], 12 if fail > SAVE else None
        if fail <= len(writes):
            case(f"write {fail} of the output fails", says, lines, written(writes[:fail - 1]), 5, kept)
        else:
            case(f"the output has no write {fail}", says, lines, written(writes), 0, kept)
    return None


def byte_cases(lines, whole):
    """Each byte that is read or written fails in turn, or finds no room."""
    first_lines("The long session of a buffer, of which a byte cannot be read or written.")
    report, given = written(whole), "".join(line + "\n" for line in lines)
    before_saved = len(written(whole[:SAVE]))
    for count in range(len(report) + 1):
        # The line that saves is served before its answer is written, and so behind the answers before it.
        kept, status = 12 if count >= before_saved else None, 5 if count < len(report) else 0
        case(f"room for {count} bytes", [f"room {count}"], lines, report[:count], status, kept)
        case(f"byte {count + 1} of the output fails", [f"fails output {count + 1}", "takes 1"], lines, report[:count],
             status, kept)
    cuts = "cuts " + " ".join("1" for _ in given)
    for count in range(len(given) + 1):
        done = given[:count].count("\n")
        says, kept = [f"fails input {count + 1}", cuts], 12 if done >= SAVE else None
        end, status = ("input failed\n", 4) if count < len(given) else ("", 0)
        case(f"byte {count + 1} of the input fails", says, lines, written(whole[:done + 1]) + end, status, kept)


main()
