"""Serves a session to the program, line by line, and looks at each answer."""
import os
import re
import select
import subprocess
import time

MENU_LINE = re.compile(rb"(\d+): (.*?)( for ((?:\$\d+:[^,\n]*?(?:, )?)+))?( if .*)?")
COMMANDS = (b"menu", b"step", b"undo", b"trace", b"save", b"replay", b"equal", b"normal", b"show", b"values",
            b"instances", b"quit")


class Wrong(Exception):
    """What the program does is not what it must do."""


class Patience:
    """How long a process may take: so many seconds, or more where it had less of a processor and wants more."""

    def __init__(self, process, seconds):
        self.process, self.seconds = process, seconds
        self.had, self.limit, self.is_last = self.used()[0], time.monotonic() + seconds, False

    def used(self):
        """The seconds of a processor that the process had, and whether it wants more."""
        try:
            with open(f"/proc/{self.process.pid}/stat", encoding="latin-1") as file:
                parts = file.read().rpartition(")")[2].split()
        except FileNotFoundError:
            return 0, False
        return (int(parts[11]) + int(parts[12])) / os.sysconf("SC_CLK_TCK"), parts[0] in "RD"

    def left(self):
        """The seconds that are left; 0 once it is over."""
        left = self.limit - time.monotonic()
        if left > 0 or self.is_last:
            return max(0, left)
        used, wants = self.used()
        # What does not want a processor may have answered while this script had none: it is looked at once more.
        self.is_last = not wants or used - self.had >= self.seconds
        self.limit = time.monotonic() + (1 if self.is_last else self.seconds)
        return self.limit - time.monotonic()


class Program:
    """The program at work on a session."""

    def __init__(self, start, words, seconds):
        self.process, self.seconds, self.marks, self.input = start(words), seconds, 0, b""
        os.set_blocking(self.process.stdin.fileno(), False)
        self.said, self.had_output = b"", b""

    def send(self, data, until):
        """Writes the data, and reads until this text came or the output ended; what came before it."""
        self.input += data
        patience = Patience(self.process, self.seconds)
        into, out = self.process.stdin.fileno(), self.process.stdout.fileno()
        while True:
            found = self.said.find(until) if until else -1
            if found >= 0:
                answer, self.said = self.said[:found], self.said[found + len(until):]
                return answer
            left = patience.left()
            if left <= 0:
                self.process.kill()
                self.process.wait()
                raise Wrong(f"no answer after {self.seconds} seconds")
            readable, writable, _ = select.select([out], [into] if data else [], [], left)
            if writable:
                try:
                    data = data[os.write(into, data):]
                except BrokenPipeError:
                    data = b""
            if readable:
                piece = os.read(out, 1 << 16)
                self.had_output += piece
                if not piece:
                    return None
                self.said += piece

    def ask(self, *lines):
        """The answers of the lines, in order; None once the output has ended."""
        answers = []
        text, marks = b"", []
        for line in lines:
            self.marks += 1
            marks.append(b"no/%d" % self.marks)
            text += line + b"\nsave " + marks[-1] + b"\n"
        for mark in marks:
            answer = self.send(text, b"refused 808 Unwritten " + mark + b"\n")
            text = b""
            if answer is None:
                return None
            answers.append(answer)
        return answers

    def end(self):
        """Closes the input, and answers the status."""
        self.process.stdin.close()
        patience = Patience(self.process, self.seconds)
        while True:
            left = patience.left()
            readable, _, _ = select.select([self.process.stdout], [], [], left)
            if not readable and left > 0:
                continue
            if not readable:
                self.process.kill()
                self.process.wait()
                raise Wrong(f"no end after {self.seconds} seconds")
            piece = os.read(self.process.stdout.fileno(), 1 << 16)
            self.had_output += piece
            if not piece:
                break
        self.process.stdout.close()
        return self.process.wait()


class Session:
    """A session, and what it must answer: a state is what `menu`, `show` and `trace` say."""

    def __init__(self, program, folder, rng, drawn=None):
        self.program, self.folder, self.rng, self.drawn = program, folder, rng, drawn
        self.past, self.saved, self.lines, self.by_trace = [], {}, 0, {}
        if self.program.ask(b"") is None:
            raise EndedEarly
        self.state = self.look()

    def look(self):
        answers = self.program.ask(b"menu", b"show", b"trace")
        if answers is None:
            raise EndedEarly
        state = tuple(answers)
        if self.by_trace.setdefault(state[2], state) != state:
            raise Wrong("one trace leads to two states")
        return state

    def entries(self):
        """The entries of the menu: their numbers and the sorts of their variables."""
        made = []
        for line in self.state[0].split(b"\n")[1:-1]:
            number, _, rest = line.partition(b": ")
            rest = rest.split(b" if ")[0]
            sorts = re.findall(rb"\$\d+:([A-Za-z0-9_]+)", rest.split(b" for ")[1]) if b" for " in rest else []
            made.append((int(number), sorts))
        return made

    def term(self, sort):
        if self.drawn and sort.decode() in self.drawn.sorts:
            return self.drawn.term(sort.decode()).encode()
        return self.rng.choice([b"0", b"Succ(0)", b"true", b"nil", b"c", b"0 + 0", b"x"])

    def line(self):
        """Draws a line."""
        rng, entries = self.rng, self.entries()
        way = rng.randrange(20)
        if way < 9 and entries:
            number, sorts = rng.choice(entries[:2000])
            return b"step %d" % number + (b" " + b", ".join(self.term(it) for it in sorts) if sorts else b"")
        if way == 9:
            return b"undo"
        if way == 10:
            return b"save t%d" % rng.randrange(3)
        if way == 11:
            return b"replay t%d" % rng.randrange(3)
        if way == 12:
            sort = (self.drawn.sort() if self.drawn else "Nat").encode()
            return rng.choice([b"normal ", b"normal ", b"equal " + self.term(sort) + b", "]) + self.term(sort)
        if way == 13:
            self.edit()
            return b"replay e"
        if way == 14:
            number = rng.choice([b"0", b"00", b"01", b"1", b"9999999999", b"10000000000", b"4294967297", b"-1", b"+1", b"1,",
                                 b"18446744073709551617", b"1 ", b"x", b""])
            return b"step " + number + rng.choice([b"", b" ", b" 0", b" 0, 0", b" true", b" (", b" $", b" ,"])
        if way == 15:
            return rng.choice([b"undo", b"undo ", b"\tundo\r", b"undo 1", b"Undo", b"", b"   ", b"\r", b"trace x", b"menu ",
                               b" menu", b"show", b"normal", b"equal", b"equal 0", b"normal 0, 0", b"save", b"replay", b"quit 1",
                               b"save \xff", b"replay a\xc3", b"replay .", b"save .", b"replay no", b"normal \xff",
                               b"equal 0, \xff", b"normal (* ", b"normal 0 (* *)", b"normal {", b"\0", b"save a\0b", b"replay a\0b"])
        if way == 16:
            # A step may square its value, and normal forms of more than some 20,000 operations want more stack.
            word, counts = rng.choice([(b"normal ", [10, 499, 500, 501, 5000]), (b"equal 0, ", [499, 500, 501]),
                                       (b"step 1 ", [10, 100, 500, 5000])])
            count = rng.choice(counts)
            return word + b"Succ(" * count + b"0" + b")" * count
        if way == 18:
            sort = (self.drawn.sort() if self.drawn else "Nat").encode()
            size = rng.choice([b"1", b"2", b"3", b"5", b"9", b"11", b"64", b"0", b"65", b"03", b"", b"x", b"3 3"])
            number = rng.choice([b"1", b"1", b"2", b"3", b"0", b"01", b"99999999999", b"x"])
            return rng.choice([b"values " + sort, b"values " + sort, b"values Q", b"instances " + number]) + b" " + size
        if way == 17:
            return rng.choice([b"normal 0" + b" + 0" * 600, b"x" * rng.choice([4095, 4096, 4097, 100000]), b"normal " + b" " * 9000 + b"0",
                               b"step 1" + b" " * 5000, b"normal " + b"(" * 3000, b"normal " + b"0," * 3000])
        words = [b"step", b"1", b"2", b"0", b",", b"undo", b"Succ(0)", b"save", b"t1", b"normal", b"of", b"Nat", b"(", b")", b"equal",
                 b"=>", b"i", b"$1", b"\t", b"\xe9", b"+", b"*", b"lt"]
        return b" ".join(rng.choice(words) for _ in range(rng.randrange(1, 7)))

    def edit(self):
        """Puts a trace under the name e: one that was seen, or one that is changed."""
        rng = self.rng
        lines = rng.choice(sorted(self.by_trace)).split(b"\n")
        for _ in range(rng.randrange(3)):
            at = rng.randrange(len(lines))
            way = rng.randrange(8)
            if way == 0:
                del lines[at]
            elif way == 1:
                lines.insert(at, lines[at])
            elif way == 2:
                lines[at] = lines[at] + rng.choice([b"\r", b" ", b"0", b" => i", b"\0", b"\xff"])
            elif way == 3:
                lines[at] = rng.choice([b"", b"0 => i", b"01 => i", b"9999999999 => i", b"10000000000 => i", b"1 =>", b"1 => ", b"1  => i",
                                        b"1 0 => i", b"1 " + b"(" * 700 + b" => i", b"1 Succ(0), 0 => i", b"lotos-trace 1", b"lotos-trace 2",
                                        b"lotos-trace 2 Other", b"at stop", b"at ", b"i", b"1 => i => i"])
            elif way == 4:
                lines[at] = lines[at].replace(b"0", b"Succ(0)", 1)
            elif way == 5:
                lines = lines[:at + 1]
            elif way == 6:
                lines.append(rng.choice(lines))
            else:
                lines[at] = lines[at].replace(b"1", b"2", 1)
            if not lines:
                lines = [b""]
        with open(f"{self.folder}/e", "wb") as file:
            file.write(b"\n".join(lines))

    def text_under(self, name):
        try:
            with open(os.path.join(os.fsencode(self.folder), name), "rb") as file:
                return file.read()
        except OSError:
            return None

    def serve(self, line):
        """Serves a line, and raises Wrong where the answer cannot be right; whether the session goes on."""
        self.lines += 1
        stripped = line.removesuffix(b"\r").strip(b" \t\r\n")
        word, _, rest = stripped.partition(b" ")
        rest = rest.strip(b" ")
        kept = self.text_under(rest) if word == b"replay" and b"\0" not in rest else None
        answers = self.program.ask(line)
        if answers is None:
            if stripped == b"quit":
                return False
            raise EndedEarly
        answer, old = answers[0], self.state
        if stripped == b"quit":
            raise Wrong("quit does not end the session")
        self.state = new = self.look()
        if word == b"undo" and stripped == b"undo":
            if not self.past:
                self.expect(answer == b"nothing to undo\n" and new == old, "an undo without a step changes something")
            else:
                self.expect(answer == b"undone\n" + new[0] and new == self.past.pop(), "an undo does not restore")
        elif answer.startswith(b"did "):
            label = answer[4:].split(b"\n")[0]
            self.expect(word == b"step", "an event without a step")
            self.expect(answer == b"did " + label + b"\n" + new[0], "the menu behind a step is not the menu")
            self.expect(new[2].startswith(old[2]) and new[2].count(b"\n") == old[2].count(b"\n") + 2
                        and new[2].endswith(b" => " + label + b"\nat " + new[1]),
                        "a step does not lengthen the trace by its label and its state")
            self.past.append(old)
        elif answer.startswith(b"replayed "):
            self.expect(word == b"replay", "a replay without its line")
            count = int(answer.split()[1])
            self.expect(answer == b"replayed %d\n" % count + new[0] and new[2].count(b"\n") == 2 * count + 1,
                        "a replay of so many steps has another trace")
            self.expect(new == self.by_trace[new[2]], "a replay does not restore")
            self.past = self.states_before(new[2])
        else:
            self.expect(new == old, f"a line that takes no step changes the state: {answer[:80]!r}")
            self.unchanged(word, stripped, rest, answer, kept)
        if word == b"replay" and kept in self.by_trace and len(rest) > 0 and kept is not None:
            self.expect(answer.startswith(b"replayed ") and new == self.by_trace[kept], "a trace of this session is not replayed")
        return True

    def unchanged(self, word, stripped, rest, answer, kept):
        """Looks at the answer of a line that takes no step."""
        if stripped == b"":
            self.expect(answer == b"", "an empty line is answered")
        elif word not in COMMANDS:
            self.expect(answer == b"refused 801 BadCommand\n", "a line of no command is not refused as such")
        elif answer.startswith(b"saved "):
            self.expect(word == b"save" and answer == b"saved " + rest + b"\n", "another name is saved")
            self.expect(self.text_under(rest) == self.state[2], "what is saved is not the trace")
        elif word in (b"menu", b"show", b"trace") and stripped == word:
            self.expect(answer == self.state[(b"menu", b"show", b"trace").index(word)], f"{word} answers another text")
        elif word in (b"values", b"instances") and not answer.startswith(b"refused "):
            self.listed(word, rest, answer)
        elif not answer.startswith(b"refused "):
            self.expect(word in (b"equal", b"normal") and answer.count(b"\n") == 1, "an answer of no form")
            if word == b"normal":
                form = answer[:-1]
                again = self.program.ask(b"normal " + form, b"equal " + form + b", " + stripped[7:])
                is_deep = again and again[0] == b"refused 804 BadTerm 105\n"  # no term of a line is so deep
                self.expect(is_deep or again in ([answer, b"equal\n"], None), "a normal form is not its own, or not equal")
        else:
            self.expect(re.fullmatch(rb"refused (801 BadCommand|802 NoEntry \d+ of \d+|803 ValueCount wanted \d+ given \d+|"
                                     rb"804 BadTerm (101|102|104|105|205|211|212|213)|806 Unmet .* is not .*|807 Unread .*|"
                                     rb"808 Unwritten .*|810 BadLine line \d+|811 LabelDiffers line \d+ kept .* found .*|"
                                     rb"813 OtherSpecification kept .* found .*|814 StateDiffers line \d+ kept .* found .*|"
                                     rb"815 TooManyValues|816 TooManyInstances|817 NoSort .*|"
                                     rb"812 Step line \d+ (802|803|806))\n", answer, re.S) is not None, "a refusal of no form")

    def listed(self, word, rest, answer):
        """Looks at a list of values or of instances: some of its values are irreducible, and some of its instances are steps."""
        lines = answer.split(b"\n")
        self.expect(lines[0] == word + b" %d" % (len(lines) - 2) and lines[-1] == b"", "a list with another count")
        listed = lines[1:-1]
        self.expect(len(set(listed)) == len(listed), "a list has a line twice")
        for line in self.rng.sample(listed, min(3, len(listed))):
            if word == b"values":
                sort = b" of " + rest.split(b" ")[0]
                again = self.program.ask(b"normal " + line, b"normal (" + line + b")" + sort)
                self.expect(again is None or line + b"\n" in again or again[1].startswith(b"refused 804 "),
                            "a value that is listed is reducible")
                continue
            step, _, label = line.partition(b" => ")
            self.expect(step.split(b" ")[0] == rest.split(b" ")[0], "an instance of another entry")
            did = self.program.ask(b"step " + step, b"undo")
            self.expect(did is None or did[0].split(b"\n")[0] == b"did " + label and did[1] == b"undone\n" + self.state[0],
                        "an instance that is listed is no step")

    def states_before(self, trace):
        """The states before each step of a trace. Those that were not seen are found by undo, and the trace is replayed."""
        states, steps = [], trace.count(b"\n") // 2
        for _ in range(steps):
            answers = self.program.ask(b"undo")
            if answers is None:
                raise EndedEarly
            states.insert(0, self.look())
            self.expect(answers[0] == b"undone\n" + states[0][0], "an undo behind a replay does not restore")
        with open(f"{self.folder}/again", "wb") as file:
            file.write(trace)
        if steps and self.program.ask(b"replay again") is not None:
            self.expect(self.look() == self.by_trace[trace], "a trace that is replayed again leads elsewhere")
        return states

    def expect(self, holds, what):
        if not holds:
            raise Wrong(what)


class EndedEarly(Exception):
    """The output ended without `quit`: the status tells."""
