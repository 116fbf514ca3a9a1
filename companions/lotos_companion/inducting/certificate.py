"""A certificate of induction: covers, trees, lemmas and their proofs, and its text."""
from __future__ import annotations

from dataclasses import dataclass, replace
from itertools import groupby
from typing import Dict, Iterator, List, Sequence, Set, Tuple, Union

from .data import Data
from .terms import Operation, Path, Sides, Variable


@dataclass(frozen=True)
class Leaf:
    """Some rule rewrites the pattern."""


@dataclass(frozen=True)
class SplitAt:
    """The variable at a path is replaced by each operation of its sort's cover."""

    path: Path
    shapes: Tuple[Shape, ...]


Shape = Union[Leaf, SplitAt]


@dataclass(frozen=True)
class Use:
    """A lemma or a hypothesis, by its number from 1, is used at a path of a side."""

    source: str
    number: int
    side: str
    path: Path
    direction: str

    @property
    def line(self) -> str:
        """The line of the certificate."""
        return f"use {self.source} {self.number} {self.side} {path_text(self.path)} {self.direction}"


@dataclass(frozen=True)
class Same:
    """Both sides are one. `is_open` is whether they are not, so that the program will refuse it and tell the goal."""

    is_open: bool = False


@dataclass(frozen=True)
class Then:
    """A use, and the rest of the case."""

    use: Use
    rest: Proof


@dataclass(frozen=True)
class Split:
    """A variable is replaced by each operation of its sort's cover: a proof for each."""

    variable: Variable
    cases: Tuple[Proof, ...]


Proof = Union[Same, Then, Split]


@dataclass(frozen=True)
class Lemma:
    """An equation with its variables, and where it is from: the number that the user knows it by, or none for a helper."""

    variables: Tuple[Variable, ...]
    sides: Sides
    given: int = 0


@dataclass(frozen=True)
class Covering:
    """The covers that a certificate wants, and the trees of the operations that are not in them."""

    covers: Tuple[Tuple[str, Tuple[Operation, ...]], ...]
    trees: Tuple[Tuple[Operation, Shape], ...]


def path_text(path: Path) -> str:
    """A path as a certificate has it."""
    return ".".join(map(str, path)) or "-"


def with_uses(uses: Sequence[Use], rest: Proof) -> Proof:
    """A proof that begins with some uses."""
    for use in reversed(uses):
        rest = Then(use, rest)
    return rest


def open_cases(proof: Proof) -> int:
    """How many cases are left open."""
    if isinstance(proof, Same):
        return int(proof.is_open)
    return open_cases(proof.rest) if isinstance(proof, Then) else sum(map(open_cases, proof.cases))


def sorts_split(proof: Proof) -> Iterator[str]:
    """The sorts of the variables that are split."""
    if isinstance(proof, Then):
        yield from sorts_split(proof.rest)
    elif isinstance(proof, Split):
        yield proof.variable.sort
        for it in proof.cases:
            yield from sorts_split(it)


def lemmas_used(proof: Proof) -> Set[int]:
    """The numbers of the lemmas that are used."""
    if isinstance(proof, Then):
        return lemmas_used(proof.rest) | ({proof.use.number} if proof.use.source == "lemma" else set())
    return set().union(*map(lemmas_used, proof.cases)) if isinstance(proof, Split) else set()


def renumbered(proof: Proof, numbers: Dict[int, int]) -> Proof:
    """The proof with other numbers for some of the lemmas that it uses."""
    if isinstance(proof, Then):
        is_lemma = proof.use.source == "lemma"
        number = numbers.get(proof.use.number, proof.use.number) if is_lemma else proof.use.number
        return Then(replace(proof.use, number=number), renumbered(proof.rest, numbers))
    if isinstance(proof, Split):
        return Split(proof.variable, tuple(renumbered(it, numbers) for it in proof.cases))
    return proof


def pruned(proved: Sequence[Tuple[Lemma, Proof]]) -> List[Tuple[Lemma, Proof]]:
    """The lemmas with their proofs without helpers that nothing uses."""
    used: Set[int] = set()
    for number in range(len(proved), 0, -1):
        lemma, proof = proved[number - 1]
        if lemma.given or number in used:
            used |= {number} | lemmas_used(proof)
    numbers = {old: place for place, old in enumerate(sorted(used), 1)}
    return [(proved[old - 1][0], renumbered(proved[old - 1][1], numbers)) for old in sorted(used)]


def proof_lines(proof: Proof) -> Iterator[str]:
    """The lines of a proof."""
    while isinstance(proof, Then):
        yield proof.use.line
        proof = proof.rest
    if isinstance(proof, Same):
        yield "same"
    else:
        yield f"split {proof.variable.name}"
        for it in proof.cases:
            yield from proof_lines(it)


def lemma_lines(data: Data, lemma: Lemma) -> List[str]:
    """The lines of a lemma before its proof."""
    groups = [(sort, [it.name for it in group]) for sort, group in groupby(lemma.variables, lambda it: it.sort)]
    variables = ", ".join(f"{', '.join(names)} : {sort}" for sort, names in groups)
    return [f"lemma {variables}".rstrip(), f"left {data.text(lemma.sides[0])}", f"right {data.text(lemma.sides[1])}"]


def covering_lines(data: Data, covering: Covering) -> Iterator[str]:
    """The lines of the covers and the trees."""
    for sort, operations in covering.covers:
        yield f"cover {sort} " + " ".join(f"{_item(data, it)};" for it in operations)
    for operation, shape in covering.trees:
        yield f"tree {_item(data, operation)};"
        yield from _shape_lines(shape)


def _item(data: Data, operation: Operation) -> str:
    return operation.with_sorts if len(data.namesakes(operation)) > 1 else operation.item


def _shape_lines(shape: Shape) -> Iterator[str]:
    if isinstance(shape, Leaf):
        yield "leaf"
    else:
        yield f"split {path_text(shape.path)}"
        for it in shape.shapes:
            yield from _shape_lines(it)


def certificate_text(data: Data, covering: Covering, proved: Sequence[Tuple[Lemma, Proof]]) -> str:
    """The whole text."""
    lines = list(covering_lines(data, covering))
    for lemma, proof in proved:
        lines += [*lemma_lines(data, lemma), *proof_lines(proof)]
    return "".join(f"{it}\n" for it in lines)
