"""Reads data files of `case_tables` (docs/CASES.md) for scripts that run their texts and sessions elsewhere."""
import re

ESCAPE = re.compile(rb"\\x([0-9a-fA-F]{2})|\\([tnr\\{}#+])|\{(\d+)\*((?:[^\\}]|\\.)*)\}", re.S)
LETTERS = {b"t": b"\t", b"n": b"\n", b"r": b"\r", b"#": b"#", b"+": b"+"}


def expand(text, copy=None):
    """What a text with escapes says; `copy` is the number of the copy that it is part of."""
    def said(found):
        byte, letter, count, body = found.groups()
        if byte:
            return bytes([int(byte, 16)])
        if letter in (b"#", b"+") and copy is not None:
            return b"%d" % (copy + (letter == b"+"))
        if letter:
            return LETTERS.get(letter, letter)
        if b"\\#" not in body and b"\\+" not in body:
            return int(count) * expand(body)
        return b"".join(expand(body, number) for number in range(int(count)))
    return ESCAPE.sub(said, text)


def words_of(rest):
    """The words of a line, of which some stand in double quotes."""
    found = re.findall(rb'"([^"]*)"|([^ ]+)', rest)
    return [expand(quoted) if quoted or not plain else plain for quoted, plain in found]


class Case:
    def __init__(self, name, files):
        self.name, self.files = name, dict(files)
        self.words, self.input, self.prints, self.status, self.leaves = [], b"", b"", 0, {}
        self.is_of_memory = False  # whether something is said that objects in memory alone can do


def read(path):
    """The cases of a data file."""
    shared, cases, case, into = {}, [], None, None

    def add(text):
        place, key = into
        if isinstance(place, dict):
            place[key] += text
        else:
            setattr(place, key, getattr(place, key) + text)

    with open(path, "rb") as file:
        lines = file.read().split(b"\n")
    for line in lines:
        first, rest = line[:1], line[1:]
        if first in (b"|", b"!"):
            add(rest + b"\n" * (first == b"|"))
        elif first in (b":", b"?"):
            add(expand(rest) + b"\n" * (first == b":"))
        elif line and first != b"#":
            word, _, rest = line.partition(b" ")
            if word == b"case":
                case = Case(rest.decode(), shared)
                cases.append(case)
            elif word == b"file":
                files = case.files if case else shared
                into = files, words_of(rest)[0]
                files[into[1]] = b""
            elif word == b"only":
                name, count = rest.rsplit(b" ", 1)
                case.files[name] = case.files[name][:int(count)]
            elif word == b"words":
                case.words = words_of(rest)
            elif word in (b"input", b"prints"):
                into = case, word.decode()
            elif word == b"leaves":
                is_nothing = rest.endswith(b" nothing")
                name = words_of(rest.removesuffix(b" nothing"))[0]
                case.leaves[name] = None if is_nothing else b""
                into = case.leaves, name
            elif word == b"status":
                case.status = int(rest)
            else:
                case.is_of_memory = True
    return cases
