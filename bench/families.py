"""Families of rewriting that the rewriting engine Maude is measured with too, each over one list of equations.

A family is an algebra (sorts, operations, equations) and for each size the terms whose normal forms are asked for.
Both programs read the same text of terms: only the declarations around them differ. An operation is declared behind
those that its equations put in its place, so that the equations are turned into rules without an order file.
"""
from dataclasses import dataclass
from typing import Callable


@dataclass(frozen=True)
class Algebra:
    """Sorts, operations (a line `NAMES : ARGUMENTS -> SORT` each), variables by sort, and equations."""

    sorts: str
    operations: list[str]
    variables: dict[str, str]
    equations: list[str]


@dataclass(frozen=True)
class Family:
    """A line of the bench: its name, its algebra, its sizes, and the terms for each size."""

    name: str
    algebra: Algebra
    sizes: list[int]
    terms: Callable[[int], list[str]]


def declared(line: str) -> tuple[list[str], list[str], str]:
    """The names, the sorts of the arguments and the sort of the result of a line of operations."""
    names, _, profile = line.partition(" : ")
    arguments, _, result = profile.rpartition("->")
    return names.split(), arguments.split(), result.strip()


def result_of(algebra: Algebra, equation: str) -> str:
    """The sort of an equation: that of the operation at the head of its left side."""
    head = equation.replace("(", " ").split()[0]
    for line in algebra.operations:
        names, _, result = declared(line)
        if head in names:
            return result
    raise ValueError(equation)


def as_lotos(algebra: Algebra) -> str:
    """A specification whose one type has the algebra."""
    lines = []
    for line in algebra.operations:
        names, arguments, result = declared(line)
        lines.append(f"{', '.join(names)} : {', '.join(arguments)} -> {result}")
    variables = ", ".join(f"{', '.join(names.split())} : {sort}" for sort, names in algebra.variables.items())
    groups: list[str] = []
    for equation in algebra.equations:
        groups.append(f"ofsort {result_of(algebra, equation)} {equation};")
    return (
        f"specification S [g] : noexit type T is sorts {', '.join(algebra.sorts.split())} opns {' '.join(lines)} "
        f"eqns forall {variables} {' '.join(groups)} endtype behaviour stop endspec"
    )


def as_maude(algebra: Algebra) -> str:
    """A functional module with the algebra. The truth values of Maude's own module are left out."""
    lines = ["set include BOOL off .", "fmod T is", f"sorts {algebra.sorts} ."]
    for line in algebra.operations:
        names, arguments, result = declared(line)
        lines.append(f"ops {' '.join(names)} : {' '.join(arguments)} -> {result} .")
    lines += [f"vars {names} : {sort} ." for sort, names in algebra.variables.items()]
    lines += [f"eq {equation} ." for equation in algebra.equations]
    return "\n".join(lines + ["endfm", ""])


def questions(family: Family, size: int) -> tuple[str, str]:
    """What the program is asked, and what Maude is."""
    terms = family.terms(size)
    return "".join(f"normal {term}\n" for term in terms), "".join(f"red {term} .\n" for term in terms)


def number(count: int) -> str:
    return "s(" * count + "z" + ")" * count


def digits(value: int) -> str:
    """A word of binary digits, the least one first, of which `e` is the end."""
    text = f"{value:b}"[::-1]
    return "".join(f"{'d1' if digit == '1' else 'd0'}(" for digit in text) + "e" + ")" * len(text)


NUMBERS = Algebra(
    "N",
    ["z : -> N", "s : N -> N", "plus : N N -> N", "times : N N -> N", "power : N N -> N", "fib : N -> N"],
    {"N": "x y"},
    [
        "plus(x, z) = x",
        "plus(x, s(y)) = s(plus(x, y))",
        "times(x, z) = z",
        "times(x, s(y)) = plus(x, times(x, y))",
        "power(x, z) = s(z)",
        "power(x, s(y)) = times(x, power(x, y))",
        "fib(z) = z",
        "fib(s(z)) = s(z)",
        "fib(s(s(x))) = plus(fib(s(x)), fib(x))",
    ],
)

TRUTH = ["tt ff : -> B"]
LISTS = ["nil : -> L", "cons : N L -> L"]
LIST_NUMBERS = ["z : -> N", "s : N -> N"]

SORTING = Algebra(
    "B N L F",
    TRUTH
    + LIST_NUMBERS
    + LISTS
    + [
        "leaf : -> F",
        "fork : F N F -> F",
        "le : N N -> B",
        "down : N -> L",
        "if : B L L -> L",
        "less : L L -> B",
        "insert : N L -> L",
        "isort : L -> L",
        "merge : L L B -> L",
        "put : N F -> F",
        "grown : L -> F",
        "merged : F -> L",
        "msort : L -> L",
        "append : L L -> L",
        "reversed : L -> L",
    ],
    {"N": "x y", "L": "k l", "F": "t u", "B": "b"},
    [
        "le(z, y) = tt",
        "le(s(x), z) = ff",
        "le(s(x), s(y)) = le(x, y)",
        "down(z) = nil",
        "down(s(x)) = cons(s(x), down(x))",
        "if(tt, k, l) = k",
        "if(ff, k, l) = l",
        "less(nil, k) = ff",
        "less(cons(x, k), nil) = tt",
        "less(cons(x, k), cons(y, l)) = le(x, y)",
        "insert(x, nil) = cons(x, nil)",
        "insert(x, cons(y, l)) = if(le(x, y), cons(x, cons(y, l)), cons(y, insert(x, l)))",
        "isort(nil) = nil",
        "isort(cons(x, l)) = insert(x, isort(l))",
        "merge(nil, k, b) = k",
        "merge(k, nil, b) = k",
        "merge(cons(x, k), l, tt) = cons(x, merge(k, l, less(k, l)))",
        "merge(k, cons(y, l), ff) = cons(y, merge(k, l, less(k, l)))",
        "put(x, leaf) = fork(leaf, x, leaf)",
        "put(x, fork(t, y, u)) = fork(u, y, put(x, t))",
        "grown(nil) = leaf",
        "grown(cons(x, l)) = put(x, grown(l))",
        "merged(leaf) = nil",
        "merged(fork(t, x, u)) = insert(x, merge(merged(t), merged(u), less(merged(t), merged(u))))",
        "msort(l) = merged(grown(l))",
        "append(nil, l) = l",
        "append(cons(x, k), l) = cons(x, append(k, l))",
        "reversed(nil) = nil",
        "reversed(cons(x, l)) = append(reversed(l), cons(x, nil))",
    ],
)

SIEVE = Algebra(
    "B N L",
    TRUTH
    + LIST_NUMBERS
    + LISTS
    + [
        "either : B B -> B",
        "divided : N N N -> B",
        "struck : L N -> B",
        "keep : B N L -> L",
        "sifted : L N -> L",
        "sieve : N -> L",
    ],
    {"N": "x y p", "L": "l", "B": "b"},
    [
        "either(tt, b) = tt",
        "either(ff, b) = b",
        "divided(z, z, p) = tt",
        "divided(z, s(y), p) = ff",
        "divided(s(x), s(y), p) = divided(x, y, p)",
        "divided(s(x), z, s(p)) = divided(x, p, s(p))",
        "struck(nil, x) = ff",
        "struck(cons(p, l), x) = either(divided(x, p, p), struck(l, x))",
        "keep(tt, x, l) = l",
        "keep(ff, x, l) = cons(x, l)",
        "sifted(l, x) = keep(struck(l, x), x, l)",
        "sieve(z) = nil",
        "sieve(s(x)) = sifted(sieve(x), s(s(x)))",
    ],
)

WORDS = Algebra(
    "N W",
    LIST_NUMBERS
    + [
        "e : -> W",
        "d0 d1 : W -> W",
        "inc : W -> W",
        "add : W W -> W",
        "mul : W W -> W",
        "sums : N W W -> W",
        "products : N W W -> W",
    ],
    {"N": "n", "W": "x y"},
    [
        "inc(e) = d1(e)",
        "inc(d0(x)) = d1(x)",
        "inc(d1(x)) = d0(inc(x))",
        "add(e, y) = y",
        "add(x, e) = x",
        "add(d0(x), d0(y)) = d0(add(x, y))",
        "add(d0(x), d1(y)) = d1(add(x, y))",
        "add(d1(x), d0(y)) = d1(add(x, y))",
        "add(d1(x), d1(y)) = d0(inc(add(x, y)))",
        "mul(e, y) = e",
        "mul(d0(x), y) = d0(mul(x, y))",
        "mul(d1(x), y) = add(y, d0(mul(x, y)))",
        "sums(z, x, y) = x",
        "sums(s(n), x, y) = add(y, sums(n, x, y))",
        "products(z, x, y) = e",
        "products(s(n), x, y) = add(mul(add(y, products(n, x, y)), x), y)",
    ],
)

QUEENS = Algebra(
    "B N L R",
    TRUTH
    + LIST_NUMBERS
    + LISTS
    + [
        "none : -> R",
        "more : L R -> R",
        "both : B B -> B",
        "differ : N N -> B",
        "plus : N N -> N",
        "apart : N N N -> B",
        "safe : L N N -> B",
        "keep : B L R -> R",
        "tried : N L R -> R",
        "extended : R N -> R",
        "boards : N N -> R",
        "queens : N -> R",
    ],
    {"N": "x y d n", "L": "l", "R": "r", "B": "b"},
    [
        "both(tt, b) = b",
        "both(ff, b) = ff",
        "differ(z, z) = ff",
        "differ(z, s(y)) = tt",
        "differ(s(x), z) = tt",
        "differ(s(x), s(y)) = differ(x, y)",
        "plus(x, z) = x",
        "plus(x, s(y)) = s(plus(x, y))",
        "apart(x, y, d) = both(differ(x, y), both(differ(x, plus(y, d)), differ(y, plus(x, d))))",
        "safe(nil, x, d) = tt",
        "safe(cons(y, l), x, d) = both(apart(x, y, d), safe(l, x, s(d)))",
        "keep(tt, l, r) = more(l, r)",
        "keep(ff, l, r) = r",
        "tried(z, l, r) = r",
        "tried(s(x), l, r) = keep(safe(l, s(x), s(z)), cons(s(x), l), tried(x, l, r))",
        "extended(none, n) = none",
        "extended(more(l, r), n) = tried(n, l, extended(r, n))",
        "boards(z, n) = more(nil, none)",
        "boards(s(x), n) = extended(boards(x, n), n)",
        "queens(n) = boards(n, n)",
    ],
)

TOWERS = Algebra(
    "N",
    ["z : -> N", "s : N -> N", "ack : N N -> N", "join : N N -> N", "twice : N -> N"],
    {"N": "x y"},
    [
        "ack(z, y) = s(y)",
        "ack(s(x), z) = ack(x, s(z))",
        "ack(s(x), s(y)) = ack(x, ack(s(x), y))",
        "twice(z) = z",
        "twice(s(x)) = join(twice(x), twice(x))",
    ],
)

WORD = digits(0x9E3779B97F4A7C15)
OTHER_WORD = digits(0xD1B54A32D192ED03)

FAMILIES = [
    Family("fibonacci numbers", NUMBERS, [24, 28], lambda n: [f"fib({number(n)})"]),
    Family("insertion sort", SORTING, [160, 250], lambda n: [f"isort(down({number(n)}))"]),
    Family("merge sort", SORTING, [400], lambda n: [f"msort(down({number(n)}))"]),
    Family("naive reverse", SORTING, [400, 490], lambda n: [f"reversed(down({number(n)}))"]),
    Family("a sieve", SIEVE, [200], lambda n: [f"sieve({number(n - 1)})"]),
    Family("powers of two by both", NUMBERS, [12, 13], lambda n: [f"power({number(2)}, {number(n)})"]),
    Family("words added", WORDS, [400], lambda n: [f"sums({number(n)}, {WORD}, {OTHER_WORD})"]),
    Family("words multiplied", WORDS, [8], lambda n: [f"products({number(n)}, {WORD}, {OTHER_WORD})"]),
    Family("queens", QUEENS, [6], lambda n: [f"queens({number(n)})"]),
    Family("Ackermann's function", TOWERS, [9], lambda n: [f"ack({number(3)}, {number(n)})"]),
]
