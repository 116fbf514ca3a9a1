"""Draws sentences of the grammar, whatever their names mean: most are refused for what they say."""


class Sentences:
    """Each method draws a sentence of one part of the grammar."""

    def __init__(self, rng):
        self.rng = rng
        self.sorts = rng.sample(["A", "B", "Nat", "Bool", "E", "a"], 3)
        self.operations = rng.sample(["c", "d", "f", "0", "Succ", "true", "+", "eq", "x", "a", "*", "not"], 6)
        self.gates = ["a", "b", "g"]
        self.variables = ["x", "y", "n", "a"]
        self.types = ["T", "U", "V", "Boolean", "NaturalNumber"]
        self.processes = ["P", "Q", "R"]

    def some(self, draw, least=1, most=3, by=", "):
        return by.join(draw() for _ in range(self.rng.randrange(least, most + 1)))

    def maybe(self, text, chance=0.5):
        return text if self.rng.random() < chance else ""

    def sort(self):
        return self.rng.choice(self.sorts)

    def gate(self):
        return self.rng.choice(self.gates)

    def gate_list(self, chance=0.8):
        return self.maybe(f"[{self.some(self.gate)}]", chance)

    def variable(self):
        return self.rng.choice(self.variables)

    def vars(self):
        return self.some(lambda: f"{self.some(self.variable, 1, 2)} : {self.sort()}", 1, 2)

    def params(self):
        return self.maybe(f"({self.vars()})", 0.3)

    def func(self):
        return self.rng.choice(["noexit", "noexit", "exit", f"exit({self.some(self.sort, 1, 2)})"])

    def prefix_name(self):
        return self.rng.choice([it for it in self.operations if it not in "+*"] or ["c"])

    def op(self):
        name = self.rng.choice(self.operations)
        return f"_{name}_" if self.rng.random() < 0.3 else name

    def term(self, depth=3):
        rng = self.rng
        way = rng.randrange(8) if depth else 0
        if way < 4:
            return rng.choice([self.prefix_name(), self.variable(), "0", "true"])
        if way == 4:
            return f"({self.term(depth - 1)})" + self.maybe(f" of {self.sort()}", 0.3)
        if way == 5:
            return f"{self.term(depth - 1)} {rng.choice(self.operations + ['+', 'eq'])} {self.term(depth - 1)}"
        return f"{self.prefix_name()}({self.some(lambda: self.term(depth - 1), 1, 2)})" + self.maybe(f" of {self.sort()}", 0.1)

    def premiss(self):
        return self.term(2) + self.maybe(f" = {self.term(2)}")

    def equation(self):
        return self.maybe(f"{self.some(self.premiss, 1, 2)} => ", 0.05) + f"{self.term()} = {self.term()}"

    def eqns(self):
        group = lambda: (f"ofsort {self.sort()} " + self.maybe(f"forall {self.vars()} ", 0.3)
                         + self.some(self.equation, 0, 3, "; ") + self.maybe(";"))
        return self.maybe(f"forall {self.vars()} ") + self.some(group, 0, 2, "\n")

    def opns(self):
        one = lambda: f"{self.some(self.op, 1, 3)} : {self.some(self.sort, 0, 2)} -> {self.sort()}"
        return self.some(one, 0, 4, " ")

    def sections(self):
        text = self.maybe(f" formalsorts {self.some(self.sort, 1, 2)}", 0.2) + self.maybe(f" formalopns {self.opns()}", 0.1)
        text += self.maybe(f" formaleqns {self.eqns()}", 0.1) + self.maybe(f" sorts {self.some(self.sort, 1, 2)}", 0.7)
        return text + self.maybe(f" opns {self.opns()}", 0.7) + self.maybe(f" eqns {self.eqns()}", 0.4)

    def renames(self):
        sorts = self.some(lambda: f"{self.sort()} for {self.sort()}", 1, 2, " ")
        ops = self.some(lambda: f"{self.op()} for {self.op()}", 1, 2, " ")
        return self.maybe(f" sortnames {sorts}") + self.maybe(f" opnnames {ops}")

    def type_(self):
        rng = self.rng
        name = lambda: rng.choice(self.types)
        body = rng.choice([
            lambda: f"{name()} renamedby{self.renames()}",
            lambda: f"{name()} actualizedby {self.some(name, 1, 2)} using{self.renames()}",
            lambda: f"{self.some(name, 1, 2)}{self.sections()}", self.sections, self.sections])()
        return f"type {name()} is {body} endtype"

    def item(self):
        return self.rng.choice([self.type_, self.type_, self.type_, lambda: "library NaturalNumber endlib",
                                lambda: "library L, Boolean endlib"])()

    def sign(self):
        return self.rng.choice(["[]", "|||", "||", f"|[{self.some(self.gate, 0, 2)}]|", "[>", ">>",
                                f">> accept {self.vars()} in"])

    def gate_declarations(self):
        return self.some(lambda: f"{self.some(self.gate, 1, 2)} in [{self.some(self.gate)}]", 1, 2)

    def offer(self):
        return self.rng.choice([lambda: f" !{self.term(2)}", lambda: f" ?{self.some(self.variable, 1, 2)}:{self.sort()}"])()

    def behaviour(self, depth=4):
        rng, again = self.rng, lambda: self.behaviour(depth - 1)
        way = rng.randrange(15) if depth else rng.randrange(9, 13)
        if way < 2:
            return f"{self.gate()}{self.some(self.offer, 0, 2, '')}; {again()}"
        if way == 2:
            return f"{self.gate()}{self.offer()} [{self.premiss()}]; {again()}"
        if way == 3:
            return rng.choice(["i; ", f"[{self.premiss()}] -> "]) + again()
        if way == 4:
            return f"hide {self.some(self.gate, 1, 2)} in {again()}"
        if way == 5:
            return f"let {self.some(lambda: f'{self.variable()} : {self.sort()} = {self.term(2)}', 1, 2)} in {again()}"
        if way == 6:
            return f"choice {self.vars()} [] {again()}"
        if way == 7:
            return f"choice {self.gate_declarations()} [] {again()}"
        if way == 8:
            return f"par {self.gate_declarations()} {rng.choice(['|||', '||', f'|[{self.gate()}]|'])} {again()}"
        if way == 9:
            return "stop"
        if way == 10:
            value = lambda: rng.choice([f"any {self.sort()}", self.term(2)])
            return "exit" + self.maybe(f"({self.some(value, 1, 2)})")
        if way in (11, 12):
            return f"{rng.choice(self.processes)}{self.gate_list()}" + self.maybe(f"({self.some(lambda: self.term(2), 1, 2)})", 0.3)
        text = f"{again()} {self.sign()} {again()}"
        return f"({text})" if way == 13 else text

    def where(self, depth):
        if depth == 0 or self.rng.random() < 0.5:
            return ""
        return " where " + self.some(lambda: self.process(depth - 1) if self.rng.random() < 0.8 else self.type_(), 1, 2, "\n")

    def process(self, depth):
        return (f"process {self.rng.choice(self.processes)}{self.gate_list()}{self.params()} : {self.func()} := "
                f"{self.behaviour(3)}{self.where(depth)} endproc")

    def specification(self):
        return (f"specification S{self.gate_list()}{self.params()} : {self.func()}\n{self.some(self.item, 0, 4, chr(10))}\n"
                f"behaviour {self.behaviour(self.rng.randrange(1, 6))}\n{self.where(2)} endspec").encode()

    def library(self):
        return self.some(self.item, 0, 2, "\n").encode()

    def order(self):
        profile = lambda: self.maybe(f" : {self.some(self.sort, 0, 2)} -> {self.sort()}", 0.3)
        one = lambda: self.op() + profile() + self.maybe(f" {self.rng.choice(('left', 'RIGHT', 'up'))}", 0.3) + ";"
        return self.some(one, 0, 3, " ").encode()
