"""Draws data with an order file, and says by the definitions alone what the program must answer.

A term is the name of a variable, or a pair of the number of an operation and its arguments. What is said here is slow,
and recurses as deep as its terms.
"""
SIGNATURE = [("a", "N"), ("b", "N"), ("c", "M"), ("s", "N N"), ("f", "N N N"), ("_+_", "N N N"), ("k", "N N N N"),
             ("s", "M M"), ("f", "M M M"), ("f", "N M M"), ("_+_", "N N M"), ("t", "N M")]
VARIABLES = {"x": "N", "y": "N", "z": "N", "p": "M", "q": "M"}


class TooMuch(Exception):
    """More work than a small reference does."""


class Operation:
    def __init__(self, name, profile):
        *self.arguments, self.result = profile.split()
        self.is_infix, self.name, self.written = name.startswith("_"), name.strip("_"), name
        self.profile = " ".join([", ".join(self.arguments)] * bool(self.arguments) + ["->", self.result])


def drawn_term(rng, operations, sort, depth, variables):
    """A term of the sort over some of the variables."""
    own = [it for it in variables if VARIABLES[it] == sort]
    able = [number for number, it in enumerate(operations) if it.result == sort and (depth or not it.arguments)]
    if own and (not able or rng.random() < (0.35 if depth else 0.8)):
        return rng.choice(own)
    number = rng.choice(able)
    return number, tuple(drawn_term(rng, operations, it, depth - 1, variables) for it in operations[number].arguments)


def variables_of(term):
    return {term} if isinstance(term, str) else set().union(*map(variables_of, term[1]))


def size(term):
    return 1 if isinstance(term, str) else 1 + sum(map(size, term[1]))


def put_in(term, values):
    return values.get(term, term) if isinstance(term, str) else (term[0], tuple(put_in(it, values) for it in term[1]))


def places(term, path=()):
    """The paths of the parts that are no variables, in preorder, and these parts."""
    if not isinstance(term, str):
        yield path, term
        for at, argument in enumerate(term[1]):
            yield from places(argument, (*path, at))


def replaced(term, path, part):
    if not path:
        return part
    arguments = list(term[1])
    arguments[path[0]] = replaced(arguments[path[0]], path[1:], part)
    return term[0], tuple(arguments)


def is_matched(pattern, term, values):
    if isinstance(pattern, str):
        return values.setdefault(pattern, term) == term
    return (not isinstance(term, str) and pattern[0] == term[0]
            and all(is_matched(one, other, values) for one, other in zip(pattern[1], term[1])))


def is_unified(one, other, values):
    """Whether two terms have a unifier; `values` becomes the most general one, of which values may have values."""
    one, other = (put_in(it, values) for it in (one, other))
    if isinstance(one, str) or isinstance(other, str):
        name, term = (one, other) if isinstance(one, str) else (other, one)
        if name == term:
            return True
        if name in variables_of(term):
            return False
        for key in values:
            values[key] = put_in(values[key], {name: term})
        values[name] = term
        return True
    return one[0] == other[0] and all(is_unified(it, that, values) for it, that in zip(one[1], other[1]))


class Data:
    """Operations, equations and the items of an order file, as (operation as written, profile or None, status or None)."""

    def __init__(self, operations, equations, items):
        self.operations, self.equations, self.items = operations, equations, items
        self.ranks, self.are_right = list(range(len(operations))), [False] * len(operations)
        self.rules, self.work = [], 0

    def listed(self, written, profile):
        """The operations of an item, the greatest first."""
        found = [number for number, it in enumerate(self.operations) if it.written == written
                 and profile in (None, it.profile)]
        return found[::-1]

    def fault_of_items(self):
        """The code and the item of the first fault, or None, and then ranks and statuses are found."""
        ranked = []
        for at, (written, profile, status) in enumerate(self.items):
            listed = self.listed(written, profile)
            if not listed:
                return 501, at
            if set(listed) & set(ranked):
                return 502, at
            if (status or "left").lower() not in ("left", "right"):
                return 503, at
            ranked += listed
            for number in listed:
                self.are_right[number] = (status or "").lower() == "right"
        for at, number in enumerate(ranked):
            self.ranks[number] = 2 * len(self.operations) - at
        return None

    def is_greater(self, one, other):
        if isinstance(one, str):
            return False
        if isinstance(other, str):
            return other in variables_of(one)
        if any(it == other or self.is_greater(it, other) for it in one[1]):
            return True
        if self.ranks[one[0]] < self.ranks[other[0]] or not all(self.is_greater(one, it) for it in other[1]):
            return False
        if one[0] != other[0]:
            return True
        differing = [at for at, it in enumerate(one[1]) if it != other[1][at]]
        if not differing:
            return False
        at = differing[-1 if self.are_right[one[0]] else 0]
        return self.is_greater(one[1][at], other[1][at])

    def fault_of_equations(self):
        """The number of the first equation that is not turned into a rule, or None, and then the rules are found."""
        self.rules.clear()
        for number, (left, right) in enumerate(self.equations):
            if self.is_greater(left, right):
                self.rules.append((number, left, right))
            elif self.is_greater(right, left):
                self.rules.append((number, right, left))
            elif left != right:
                return number
        return None

    def form(self, term):
        """The chosen form: that of the arguments, and then by the first rule that matches."""
        while not isinstance(term, str):
            self.work += 1
            if self.work > 3000 or size(term) > 300:
                raise TooMuch
            term = term[0], tuple(map(self.form, term[1]))
            for _, left, right in self.rules:
                values = {}
                if is_matched(left, term, values):
                    term = put_in(right, values)
                    break
            else:
                return term
        return term

    def fault_of_pairs(self):
        """The first critical pair that does not join: two equations, the peak and the two forms; or None."""
        for first, one, answer in self.rules:
            for second, other, its in self.rules:
                apart = {name: name + "'" for name in variables_of(other)}
                other_one, its_one = put_in(other, apart), put_in(its, apart)
                for path, part in places(one):
                    values = {}
                    if (first == second and not path) or not is_unified(part, other_one, values):
                        continue
                    peak = put_in(one, values)
                    ends = put_in(answer, values), replaced(peak, path, put_in(its_one, values))
                    forms = [self.form(it) for it in ends]
                    if forms[0] != forms[1]:
                        return first, second, peak, *forms
        return None

    def is_alone(self, number):
        """Whether the name, the form and the arguments of an operation tell its result."""
        own = self.operations[number]
        return not any(it is not own and (it.written, it.arguments) == (own.written, own.arguments) for it in self.operations)

    def shown(self, term, names=None):
        """The text of a term, with these names of its variables."""
        if isinstance(term, str):
            return (names or {}).get(term, term)
        own, parts = self.operations[term[0]], [self.shown(it, names) for it in term[1]]
        if own.is_infix:
            parts = [f"({text})" if self.is_bare_sum(it) else text for text, it in zip(parts, term[1])]
            text = f"{parts[0]} {own.name} {parts[1]}"
            return text if self.is_alone(term[0]) else f"({text}) of {own.result}"
        text = own.name + (f"({', '.join(parts)})" if parts else "")
        return text if self.is_alone(term[0]) else f"{text} of {own.result}"

    def is_bare_sum(self, term):
        return not isinstance(term, str) and self.operations[term[0]].is_infix and self.is_alone(term[0])

    def shown_peak(self, peak, *forms):
        """The texts of a peak and of the forms, with variables numbered as they appear in the peak."""
        names = {}

        def walk(term):
            if isinstance(term, str):
                names.setdefault(term, f"${len(names) + 1}")
            else:
                for argument in term[1]:
                    walk(argument)
        walk(peak)
        return [self.shown(it, names) for it in (peak, *forms)]

    def texts(self):
        """The specification and the order file: each equation behind nine bytes of its line, each item on a line."""
        opns = " ".join(f"{it.written} : {it.profile}" for it in self.operations)
        over = ", ".join(f"{name} : {sort}" for name, sort in VARIABLES.items())
        lines = ["specification S : noexit", f"type T is sorts N, M opns {opns}", f"eqns forall {over}"]
        for left, right in self.equations:
            sort = VARIABLES[left] if isinstance(left, str) else self.operations[left[0]].result
            lines.append(f"ofsort {sort} {self.shown(left)} = {self.shown(right)};")
        lines.append("endtype behaviour stop endspec")
        return "\n".join(lines).encode(), "".join(text + "\n" for text, _ in map(self.item, self.items)).encode()

    def item(self, item):
        """The text of an item, and the columns of its name and of its status."""
        written, profile, status = item
        text = f"{written} : {profile}" if profile else written
        return (f"{text} {status};" if status else f"{text};"), (1 + written.startswith("_"), len(text) + 2)

    def head(self):
        """What `check` prints."""
        fault = self.fault_of_items()
        if fault:
            code, at = fault
            written, _, status = self.items[at]
            columns = self.item(self.items[at])[1]
            name = {501: "OrderOperation", 502: "TwiceListed", 503: "BadStatus"}[code]
            return f"refused {code} {name} at o:{at + 1}:{columns[code == 503]} {status if code == 503 else written.strip('_')}\n"
        fault = self.fault_of_equations()
        if fault is not None:
            return f"refused 601 Unorientable at s.lotos:{fault + 4}:10 {' = '.join(map(self.shown, self.equations[fault]))}\n"
        fault = self.fault_of_pairs()
        if fault:
            first, second, *terms = fault
            peak, left, right = self.shown_peak(*terms)
            return (f"refused 602 Unjoined at s.lotos:{first + 4}:10 with s.lotos:{second + 4}:10: "
                    f"{peak} gives {left} and {right}\n")
        return (f"accepted S\ndata: 2 sorts, {len(self.operations)} operations, {len(self.equations)} equations\n"
                "events 0\n")

    def drawn_ground(self, rng, sort):
        """A ground term, often an instance of the left side of a rule."""
        sides = [left for _, left, _ in self.rules if self.operations[left[0]].result == sort]
        if not sides or rng.random() < 0.3:
            return drawn_term(rng, self.operations, sort, rng.randrange(1, 4), [])
        left = rng.choice(sides)
        return put_in(left, {it: drawn_term(rng, self.operations, VARIABLES[it], 1, []) for it in sorted(variables_of(left))})

    def question(self, rng):
        """A line of a session about ground terms, and what it prints."""
        results = [self.operations[left[0]].result for _, left, _ in self.rules]
        sort = rng.choice(["N", "M", *2 * results])
        one = self.drawn_ground(rng, sort)
        form = self.form(one)
        if rng.random() < 0.6:
            return f"normal {self.shown(one)}\n", self.shown(form) + "\n"
        other = rng.choice([self.drawn_ground(rng, sort), form])
        answer = "equal" if form == self.form(other) else "different"
        return f"equal {self.shown(one)}, {self.shown(other)}\n", answer + "\n"


def drawn_right(rng, operations, left, sort):
    """The right side of an equation: over the variables of the left one, and often of its operation and parts."""
    def parts(of):
        return [it for it in (part for _, part in places(left)) if operations[it[0]].result == of] + [
            it for it in sorted(variables_of(left)) if VARIABLES[it] == of]
    if rng.random() < 0.7:
        given = [parts(it) for it in operations[left[0]].arguments]
        if all(given):
            return left[0], tuple(map(rng.choice, given))
    over = sorted(variables_of(left)) if rng.random() < 0.95 else list(VARIABLES)
    return drawn_term(rng, operations, sort, rng.randrange(3), over)


def drawn(rng):
    """Draws data."""
    chosen = SIGNATURE[:3] + rng.sample(SIGNATURE[3:], rng.randrange(1, 6))
    if rng.random() < 0.5:
        rng.shuffle(chosen)
    operations = [Operation(*it) for it in chosen]
    equations, items = [], []
    for _ in range(rng.choice([1, 1, 2, 2, 3])):
        able = [at for at, it in enumerate(operations) if it.arguments]
        number = rng.choice([at for at in able if len(operations[at].arguments) > 1 or rng.random() < 0.3] or able)
        left = number, tuple(drawn_term(rng, operations, it, rng.randrange(3), list(VARIABLES))
                             for it in operations[number].arguments)
        right = drawn_right(rng, operations, left, operations[number].result)
        equations.append((left, right) if rng.random() < 0.8 else (right, left))
    heads = [operations[left[0]] for left, _ in equations if not isinstance(left, str)]
    among = operations if rng.random() < 0.4 else sorted(set(heads), key=operations.index)
    for it in rng.sample(among, min(len(among), rng.choice([0, 1, 1, 2, 3]))):
        profile = it.profile if rng.random() < 0.6 else None
        status = rng.choice([None, "left", "right", "right", "RIGHT", "Left"])
        items.append((it.written if rng.random() < 0.97 else "h", profile, status if rng.random() < 0.97 else "up"))
    return Data(operations, equations, items)
