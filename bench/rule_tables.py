"""Texts with many rules of one operation, and with one wide equation: what is looked up and compared in them."""

HEAD = "specification S [g] : noexit "
TAIL = "endtype behaviour stop endspec"


def constants(letter: str, count: int) -> list[str]:
    """So many names of constants that begin with the letter."""
    return [f"{letter}{number}" for number in range(count)]


def transitions(count: int) -> str:
    """A table of so many equations of one operation, as a state machine with twenty events has it."""
    states, events = constants("s", count // 20), constants("e", 20)
    rows = " ".join(
        f"next({state}, {event}) = {states[(7 * row + 3 * column + 1) % len(states)]};"
        for row, state in enumerate(states)
        for column, event in enumerate(events)
    )
    return (
        f"{HEAD}type T is sorts S, E opns {', '.join(states)} : -> S {', '.join(events)} : -> E "
        f"next : S, E -> S eqns ofsort S {rows} {TAIL}"
    )


def transitions_looked_up(count: int) -> tuple[str, str]:
    """Two thousand questions to that table."""
    states = count // 20
    questions = (f"normal next(s{7 * number % states}, e{number % 20})\n" for number in range(2_000))
    return transitions(count), "".join(questions)


def variables_first(count: int) -> str:
    """So many rules of one operation whose first argument is a variable, and whose second ones differ."""
    names = constants("c", count)
    rows = " ".join(f"pick(x, {name}) = {names[number // 2]};" for number, name in enumerate(names))
    types = f"opns {', '.join(names)} : -> S pick : S, S -> S eqns forall x : S ofsort S {rows}"
    return f"{HEAD}type T is sorts S {types} {TAIL}"


def variables_first_looked_up(count: int) -> tuple[str, str]:
    """Two thousand questions to these rules."""
    questions = (f"normal pick(c{number % count}, c{7 * number % count})\n" for number in range(2_000))
    return variables_first(count), "".join(questions)


def few_different_parts(count: int) -> str:
    """One equation whose sides have so many leaves, in a balanced tree of few different parts, and whose heads do not
    decide which way it is used."""
    left, right = "s(c)", "c"
    while count > 1:
        left, right, count = f"({left} + {left})", f"({right} + {right})", count // 2
    return f"{HEAD}type T is sorts A opns c : -> A s : A -> A _+_ : A, A -> A eqns ofsort A {left} = {right}; {TAIL}"


# Lines of the bench: the name, what makes the text (and the input), and the sizes.
LINES = [
    ("check: a table of one head", transitions, [1_600, 5_000, 10_000, 20_000]),
    ("run: a table of one head", transitions_looked_up, [1_600, 5_000, 10_000, 20_000]),
    ("check: variables first", variables_first, [250, 500, 1_000, 2_000]),
    ("run: variables first", variables_first_looked_up, [250, 500, 1_000, 2_000]),
    ("check: few different parts", few_different_parts, [512, 1_024, 2_048, 8_192]),
]
