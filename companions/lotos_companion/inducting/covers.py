"""Covers, worked out: which operations begin the values of a sort, and why no other one does."""
from __future__ import annotations

from typing import Dict, Iterable, Iterator, List, Optional, Set, Tuple

from .certificate import Covering, Leaf, Shape, SplitAt
from .data import Data
from .rewriting import Rules, wanted
from .terms import Binding, Node, Operation, Path, Term, Variable, match, put_at, subterms


class Covers:
    """The cover of each sort, as small as it is found: an operation is left out where a tree for it is found."""

    # The splits below one another in a tree.
    MOST_SPLITS = 40

    def __init__(self, data: Data, rules: Rules):
        self._data = data
        self._rules = rules
        self._covers: Dict[str, List[Operation]] = {}
        self._trees: Dict[Operation, Shape] = {}
        for sort in data.sorts.values():
            self._covers[sort] = [it for it in data.of_sort(sort) if it.number not in rules.rules]
        self._settle()

    def of(self, sort: str) -> List[Operation]:
        """The cover of a sort, in the order of the declarations."""
        return self._covers[sort]

    def is_finite(self, sort: str) -> bool:
        """Whether the cover has constants alone."""
        return bool(self._covers[sort]) and not any(it.arguments for it in self._covers[sort])

    def wanted_by(self, sorts: Iterable[str]) -> Covering:
        """The covers of these sorts and of those that their trees split, with the trees."""
        waiting, found = list(sorts), set()  # type: List[str], Set[str]
        while waiting:
            sort = waiting.pop()
            if sort not in found:
                found.add(sort)
                for operation in self._data.of_sort(sort):
                    if operation in self._trees:
                        waiting += self._sorts_split(operation)
        covered = [it for it in self._data.sorts.values() if it in found]
        trees = [(it, self._trees[it]) for it in self._data.operations if it.result in found and it in self._trees]
        return Covering(tuple((it, tuple(self._covers[it])) for it in covered), tuple(trees))

    def _settle(self) -> None:
        """Adds operations without a tree to the covers until all others have one for these covers."""
        while True:
            added = False
            for operation in self._data.operations:
                cover = self._covers[operation.result]
                if operation in cover:
                    continue
                shape = self._tree(_pattern(operation, 0), len(operation.arguments), self.MOST_SPLITS)
                if shape is None:
                    self._trees.pop(operation, None)
                    cover.append(operation)
                    cover.sort(key=lambda it: it.number)
                    added = True
                else:
                    self._trees[operation] = shape
            if not added:
                return

    def _tree(self, pattern: Node, next_number: int, depth: int) -> Optional[Shape]:
        """A tree that shows that some rule rewrites each instance of the pattern, or nothing."""
        if any(match(left, pattern, {}) for left, _ in self._rules.of(pattern)):
            return Leaf()
        if depth == 0:
            return None
        for path, variable in self._places(pattern):
            shapes = []
            for operation in self._covers[variable.sort]:
                filled = put_at(pattern, path, _pattern(operation, next_number))
                assert isinstance(filled, Node)
                shape = self._tree(filled, next_number + len(operation.arguments), depth - 1)
                if shape is None:
                    break
                shapes.append(shape)
            else:
                return SplitAt(path, tuple(shapes))
        return None

    def _places(self, pattern: Node) -> Iterator[Tuple[Path, Variable]]:
        """The places of variables where a rule that could match wants an operation."""
        names: Set[Term] = set()
        for left, _ in self._rules.of(pattern):
            fits, variables = wanted(left, pattern)
            names.update(variables if fits else ())
        for path, part in subterms(pattern):
            if isinstance(part, Variable) and part in names:
                yield path, part

    def _sorts_split(self, operation: Operation) -> Iterator[str]:
        """The sorts of the variables that an operation's tree splits."""
        def walk(pattern: Term, shape: Shape, number: int) -> Iterator[str]:
            if isinstance(shape, SplitAt):
                variable = next(part for path, part in subterms(pattern) if path == shape.path)
                yield variable.sort
                for it, inner in zip(self._covers[variable.sort], shape.shapes):
                    yield from walk(put_at(pattern, shape.path, _pattern(it, number)), inner, number + len(it.arguments))

        yield from walk(_pattern(operation, 0), self._trees[operation], len(operation.arguments))


def _pattern(operation: Operation, number: int) -> Node:
    """The operation on new variables, numbered from here."""
    return Node(operation, tuple(Variable(f"${number + place}", sort) for place, sort in enumerate(operation.arguments)))


def instance(binding: Binding, operation: Operation, variable: Variable) -> Node:
    """The operation on the variables that a split of this variable makes: they are kept in the binding."""
    node = Node(operation, tuple(Variable(f"{variable.name}.{place + 1}", sort)
                                 for place, sort in enumerate(operation.arguments)))
    binding[variable] = node
    return node
