"""Texts whose declarations stand in another order."""
from lotos_companion.language import read_specification, text_of
from lotos_companion.language import tree
from dataclasses import replace


def shuffled(text, chance):
    """The text with its types, sorts, lines of operations, operations in lines, equations and processes in another order."""
    specification = read_specification(text)
    libraries = [it for it in specification.items if isinstance(it, tree.Library)]
    types = [of_type(it, chance) for it in specification.items if isinstance(it, tree.Type)]
    inner = [of_inner(it, chance) for it in specification.inner]
    chance.shuffle(types)
    chance.shuffle(inner)
    return text_of(replace(specification, items=(*libraries, *types), inner=tuple(inner)))


def of_inner(it, chance):
    """A process or a type."""
    if isinstance(it, tree.Process):
        inner = [of_inner(other, chance) for other in it.inner]
        chance.shuffle(inner)
        return replace(it, inner=tuple(inner))
    return of_type(it, chance) if isinstance(it, tree.Type) else it


def of_type(type_, chance):
    """A type."""
    if not isinstance(type_.body, tree.Extension):
        return type_
    sections = type_.body.sections
    lines = [replace(it, operations=mixed(it.operations, chance)) for it in sections.operations or ()]
    changed = replace(sections, sorts=sections.sorts and mixed(sections.sorts, chance),
                      operations=None if sections.operations is None else mixed(lines, chance),
                      equations=sections.equations and of_equations(sections.equations, chance))
    return replace(type_, body=replace(type_.body, sections=changed))


def of_equations(equations, chance):
    """The equations of a type."""
    groups = [replace(it, equations=mixed(it.equations, chance)) for it in equations.groups]
    return replace(equations, groups=mixed(groups, chance))


def mixed(parts, chance):
    """Parts in another order."""
    return tuple(chance.sample(list(parts), len(parts)))
