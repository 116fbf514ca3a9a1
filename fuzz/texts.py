"""Draws texts: specifications that mostly are accepted, and the same texts damaged."""
import re

RESERVED = """accept actualizedby any behavior behaviour choice endlib endproc endspec endtype eqns exit for forall
formaleqns formalopns formalsorts hide i in is let library noexit of ofsort opnnames opns par process renamedby
sortnames sorts specification stop type using where""".split()
SIGNS = ["|||", "||", "|[", "[]", "[>", ":=", "]|", "=", "=>", "->", ">>", "(", ")", "[", "]", ",", ";", ":", "!", "?",
         "_", "+", "-", "*", "**", "<=", "(*", "*)", "|", "$", "\"", "'"]
ODD = ["0", "00", "1", "4294967296", "18446744073709551616", "a_b", "a__b", "a_", "_a", "x" * 300, "(" * 600, ")" * 600,
       "Succ(" * 501 + "0" + ")" * 501, "i; " * 501, "[] stop " * 300, "é", "\t", "\r", "\f", "", "(* c *)", "(* (* *)"]

TOKEN = re.compile(rb"\(\*.*?\*\)|[A-Za-z0-9](?:[A-Za-z0-9]|_+(?=[A-Za-z0-9]))*|\|\|\||\|\||\|\[|\[\]|\[>|:=|\]\||"
                   rb"[#%&*+\-./<=>@\\^~{}]+|[()\[\],;:!?_]|\s+|.", re.S)


def tokens_of(text):
    """The tokens of a text, with the blanks as tokens of their own. `]|` is taken for one wherever it stands."""
    return TOKEN.findall(text)


def damaged(rng, text):
    """The text with one or more of its tokens or bytes changed."""
    text = bytes(text)
    for _ in range(rng.choice([1, 1, 1, 2, 3, 8])):
        way = rng.randrange(12)
        parts = tokens_of(text)
        solid = [at for at, part in enumerate(parts) if part.strip()]
        names = [at for at in solid if parts[at][:1].isalnum() and parts[at].lower().decode("latin-1") not in RESERVED]
        if names and rng.random() < 0.4:
            at = rng.choice(names)
            parts[at] = parts[rng.choice(names)] if rng.random() < 0.8 else b"0"
            text = b"".join(parts)
            continue
        if way < 8 and solid:
            at = rng.choice(solid)
            if way == 0:
                del parts[at]
            elif way == 1:
                parts[at] = parts[at] + b" " + parts[at]
            elif way == 2:
                other = rng.choice(solid)
                parts[at], parts[other] = parts[other], parts[at]
            elif way == 3:
                parts[at] = rng.choice(RESERVED + SIGNS + ODD).encode()
            elif way == 4:
                parts[at] = parts[rng.choice(solid)]
            elif way == 5:
                parts.insert(at, b" " + rng.choice(RESERVED + SIGNS + ODD).encode() + b" ")
            elif way == 6:
                past = rng.choice(solid)
                begin, past = min(at, past), max(at, past)
                if past - begin < 60:
                    parts[at:at] = parts[begin:past] * rng.choice([1, 1, 2, 50])
            else:
                past = min(len(parts), at + rng.randrange(1, 30))
                del parts[at:past]
            text = b"".join(parts)
        elif way == 8 and text:
            at = rng.randrange(len(text))
            text = text[:at] + bytes([rng.choice([0, 9, 10, 13, 32, 127, 128, 195, 255, rng.randrange(256)])]) + text[at + 1:]
        elif way == 9 and text:
            text = text[:rng.randrange(len(text))]
        elif way == 10 and text:
            at = rng.randrange(len(text))
            text = text[:at] + rng.choice([b"(*", b"*)", b"\0", b"\xff", b"\r", b"\n" * 300, b" " * 5000]) + text[at:]
        else:
            at = rng.randrange(len(text) + 1)
            text = text[at:] + text[:at] if rng.random() < 0.2 else text + b" " + rng.choice(RESERVED).encode()
    return text


def spread(rng, text):
    """The same tokens with other blanks and comments between them, and reserved words in other cases."""
    made = []
    for part in tokens_of(text):
        if part.lower().decode("latin-1") in RESERVED and rng.random() < 0.3:
            part = bytes(rng.choice([byte, byte ^ 32]) if 65 <= byte | 32 <= 122 else byte for byte in part)
        if not part.strip() or part.startswith(b"(*"):
            part = rng.choice([b" ", b"\n", b"\t\r\n", b" (* a comment, with ] and stop *) ", b"(**)", b" \n  "])
        made.append(part)
    return b"".join(made)


class Drawn:
    """Draws a specification. Its names are few, so that they meet."""

    def __init__(self, rng):
        self.rng = rng
        self.sorts = {}      # by sort: operations as (name, arguments, is infix)
        self.libraries = {}  # texts of libraries by name
        self.words = []      # words for the parameters
        self.processes = []  # (name, number of gates, sorts of parameters, functionality or None)
        self.fresh = 0

    def add(self, sort, name, arguments=(), infix=False):
        self.sorts.setdefault(sort, []).append((name, tuple(arguments), infix))

    def add_numbers(self):
        for name in ("false", "true"):
            self.add("Bool", name)
        self.add("Bool", "not", ["Bool"])
        for name in ("and", "or", "xor", "implies", "iff", "eq", "ne"):
            self.add("Bool", name, ["Bool", "Bool"], True)
        self.add("Nat", "0")
        self.add("Nat", "Succ", ["Nat"])
        for name in ("+", "*"):
            self.add("Nat", name, ["Nat", "Nat"], True)
        for name in ("eq", "ne", "lt", "le", "ge", "gt"):
            self.add("Bool", name, ["Nat", "Nat"], True)

    def term(self, sort, variables=(), depth=3):
        """A term of the sort, over variables as (name, sort)."""
        own = [name for name, of in variables if of == sort]
        if own and self.rng.random() < 0.5:
            return self.rng.choice(own)
        able = [it for it in self.sorts.get(sort, []) if depth > 0 or not it[1]]
        if not able:
            return self.rng.choice(own) if own else "0"
        name, arguments, infix = self.rng.choice(able)
        given = [self.term(it, variables, depth - 1) for it in arguments]
        if infix:
            text = f"({given[0]}) {name} ({given[1]})" if self.rng.random() < 0.6 else f"{given[0]} {name} ({given[1]})"
            return f"({text})" if self.rng.random() < 0.2 else text
        text = f"{name}({', '.join(given)})" if given else name
        return f"{text} of {sort}" if self.rng.random() < 0.05 else text

    def items(self):
        """Declarations of types and libraries."""
        rng, made = self.rng, []
        if rng.random() < 0.7:
            made.append(rng.choice(["library NaturalNumber endlib", "library Boolean, NaturalNumber endlib"]))
            self.add_numbers()
        if rng.random() < 0.5 or not made:
            names = rng.sample(["red", "green", "blue", "0", "1"], rng.randrange(1, 4))
            text = f"type Colour is sorts Col opns {', '.join(names)} : -> Col"
            for name in names:
                self.add("Col", name)
            if rng.random() < 0.5:
                text += " next : Col -> Col eqns ofsort Col "
                text += " ".join(f"next({it}) = {rng.choice(names)};" for it in names)
                self.add("Col", "next", ["Col"])
            made.append(text + " endtype")
        elements = [it for it in self.sorts if self.sorts[it]]
        if rng.random() < 0.5:
            element = rng.choice(elements)
            of = {"Bool": "Boolean", "Nat": "NaturalNumber", "Col": "Colour"}[element]
            pair = rng.random() < 0.5
            name = "Seq" if pair else "List"
            made.append("type Lists is formalsorts E sorts List opns nil : -> List _._ : E, List -> List "
                        "tail : List -> List _++_ : List, List -> List eqns forall x : E, l, m : List ofsort List "
                        "tail(nil) = nil; tail(x . l) = l; nil ++ m = m; (x . l) ++ m = x . (l ++ m); endtype")
            made.append(f"type Of{element} is Lists actualizedby {of} using sortnames {element} for E"
                        f"{' Seq for List' if pair else ''} endtype")
            self.add(name, "nil")
            self.add(name, ".", [element, name], True)
            self.add(name, "tail", [name])
            self.add(name, "++", [name, name], True)
        if rng.random() < 0.2:
            self.libraries["Own.lib"] = b"type Own is sorts Own opns own : -> Own more : Own -> Own endtype"
            made.append("library Own endlib")
            self.add("Own", "own")
            self.add("Own", "more", ["Own"])
        if rng.random() < 0.1:
            made.append("type Empty is sorts Void opns void : Void -> Void endtype")
            self.sorts["Void"] = [("void", ("Void",), False)]
        return " ".join(made)

    def sort(self):
        return self.rng.choice(sorted(self.sorts))

    def name(self, stem):
        self.fresh += 1
        return f"{stem}{self.fresh}" if self.rng.random() < 0.8 else f"{stem}1"

    def test(self, variables):
        if "Bool" in self.sorts and self.rng.random() < 0.6:
            return self.term("Bool", variables, 2)
        sort = self.sort()
        return f"{self.term(sort, variables, 2)} = {self.term(sort, variables, 2)}"

    def action(self, gates, variables):
        rng, bound, text = self.rng, [], self.rng.choice(gates)
        for _ in range(rng.choice([0, 0, 1, 1, 2])):
            sort = self.sort()
            if rng.random() < 0.6:
                name = self.name("x")
                if name in [it[0] for it in bound]:
                    continue
                bound.append((name, sort))
                text += f" ?{name}:{sort}"
            else:
                text += f" !{self.term(sort, variables, 2)}"
        inner = list(variables) + bound
        if bound and rng.random() < 0.4:
            text += f" [{self.test(inner)}]"
        return text, inner

    def behaviour(self, gates, variables, result, depth, guarded):
        """A behaviour of this functionality or of none; calls stand only behind an event."""
        rng = self.rng
        more = lambda given=gates, over=variables, is_guarded=guarded, of=result: self.behaviour(
            given, over, of, depth - 1, is_guarded)
        way = rng.randrange(14) if depth > 0 else rng.randrange(100, 103)
        if way in (0, 1, 2):
            text, inner = self.action(gates, variables)
            return f"{text}; {more(over=inner, is_guarded=True)}"
        if way == 3:
            return f"i; {more(is_guarded=True)}"
        if way == 4:
            return f"[{self.test(variables)}] -> {more()}"
        if way == 5:
            return f"({more()} [] {more()})"
        if way == 6:
            sign = rng.choice(["|||", "||", "|[%s]|" % ", ".join(rng.sample(gates, rng.randrange(len(gates) + 1)))])
            return f"({more()} {sign} {more()})"
        if way == 7:
            return f"({more()} [> {more()})"
        if way == 8:
            sorts = [self.sort() for _ in range(rng.choice([0, 0, 1, 2]))]
            bound = [(f"y{number}", sort) for number, sort in enumerate(sorts)]
            accept = f" accept {', '.join(f'{name}:{sort}' for name, sort in bound)} in" if bound else ""
            return f"({more(of=sorts)} >>{accept} {more(over=list(variables) + bound)})"
        if way == 9:
            return f"(hide {', '.join(rng.sample(gates, 1))} in {more()})"
        if way == 10:
            sort, name = self.sort(), self.name("z")
            return f"(let {name}:{sort} = {self.term(sort, variables, 2)} in {more(over=list(variables) + [(name, sort)])})"
        if way == 11:
            sort, name = self.sort(), self.name("v")
            return f"(choice {name}:{sort} [] {more(over=list(variables) + [(name, sort)])})"
        if way in (12, 13):
            name = self.name("k")
            among = ", ".join(rng.choice(gates) for _ in range(rng.randrange(1, 4)))
            inner = more(given=list(gates) + [name])
            head = f"choice {name} in [{among}] []" if way == 12 else f"par {name} in [{among}] {rng.choice(['|||', '||'])}"
            return f"({head} {inner})"
        calls = [it for it in self.processes if it[3] == result or it[3] is None] if guarded else []
        if calls and rng.random() < 0.7:
            name, count, sorts, _ = rng.choice(calls)
            text = name + (f"[{', '.join(rng.choice(gates) for _ in range(count))}]" if count else "")
            return text + (f"({', '.join(self.term(it, variables, 2) for it in sorts)})" if sorts else "")
        if result is not None and rng.random() < 0.8:
            values = [f"any {it}" if rng.random() < 0.3 else self.term(it, variables, 2) for it in result]
            return f"exit({', '.join(values)})" if values else "exit"
        return "stop"

    def functionality(self, result):
        return "noexit" if result is None else f"exit({', '.join(result)})" if result else "exit"

    def specification(self):
        """The text of a specification."""
        rng = self.rng
        items = self.items()
        gates = ["a", "b", "c"][:rng.randrange(1, 4)]
        for number in range(rng.randrange(4)):
            result = rng.choice([None, None, [], [self.sort()]])
            self.processes.append((f"P{number}", rng.randrange(3), [self.sort() for _ in range(rng.randrange(3))], result))
        parameters = []
        if rng.random() < 0.15:
            sorts = [self.sort() for _ in range(rng.randrange(1, 3))]
            parameters = [(f"q{number}", sort) for number, sort in enumerate(sorts)]
            self.words = [self.term(sort) for sort in sorts]
        params = f" ({', '.join(f'{name}:{sort}' for name, sort in parameters)})" if parameters else ""
        result = rng.choice([None, None, None, []])
        body = self.behaviour(gates, parameters, result, rng.randrange(1, 6), False)
        text = f"specification Drawn [{', '.join(gates)}]{params} : {self.functionality(result)} {items} behaviour {body}"
        if self.processes:
            text += " where"
        for name, count, sorts, own in self.processes:
            formal = [f"g{number}" for number in range(count)]
            values = [(f"p{number}", sort) for number, sort in enumerate(sorts)]
            head = name + (f"[{', '.join(formal)}]" if formal else "")
            head += f"({', '.join(f'{it}:{sort}' for it, sort in values)})" if values else ""
            if formal:
                inner = self.behaviour(formal, values, own, rng.randrange(1, 4), False)
            else:
                inner = f"i; {'exit' if own == [] else 'stop'}"
            text += f" process {head} : {self.functionality(own)} := {inner} endproc"
        return (text + " endspec").encode()

    def order(self):
        """The text of an order file over operations of the specification."""
        every = [it for its in self.sorts.values() for it in its]
        chosen = self.rng.sample(every, min(len(every), self.rng.randrange(4)))
        status = lambda: self.rng.choice(("", "", " left", " right"))
        return " ".join((f"_{name}_" if infix else name) + status() + ";" for name, _, infix in chosen).encode()
