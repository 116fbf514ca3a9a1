"""The answers to what an editor asks of a text: hover, definitions, references, symbols, completion."""
from __future__ import annotations

from typing import Any, Dict, List, Optional, Tuple, Union

from ..language import tree
from ..language.tokens import RESERVED, Place
from ..language.tree import Name
from .documents import Document
from .reading import Reading, is_opened, scope_at
from .things import Kind, Thing, Use, functionality, gate_list, profile, variable_list

Json = Dict[str, Any]

# The numbers that the protocol has for kinds of symbols and of completions.
SYMBOLS = {Kind.SPECIFICATION: 2, Kind.LIBRARY: 4, Kind.TYPE: 5, Kind.SORT: 10, Kind.OPERATION: 12, Kind.PROCESS: 6, Kind.GATE: 24,
           Kind.VARIABLE: 13}
COMPLETIONS = {Kind.SPECIFICATION: 9, Kind.LIBRARY: 9, Kind.TYPE: 7, Kind.SORT: 13, Kind.OPERATION: 3, Kind.PROCESS: 2,
               Kind.GATE: 23, Kind.VARIABLE: 6}
KEYWORD = 14
MOST_NAMED = 12


def range_of(document: Document, place: Place) -> Json:
    """A place as a range of the editor."""
    return dict(document.range(place.offset, place.end))


def hover(document: Document, reading: Reading, offset: int) -> Optional[Json]:
    """What a name is declared as."""
    use = reading.use_at(offset)
    if use is None:
        return None
    lines = [it.line for it in use.things] or [f"{use.kind.value} {use.name.text}: nothing of this name is declared"]
    if use.kind is Kind.LIBRARY:
        lines = [f"library {use.name.text}"]
    shown = lines[:MOST_NAMED] + ([f"and {len(lines) - MOST_NAMED} more"] if len(lines) > MOST_NAMED else [])
    return {"contents": {"kind": "markdown", "value": "```lotos\n" + "\n".join(shown) + "\n```"},
            "range": range_of(document, use.place)}


def definitions(reading: Reading, offset: int) -> List[Thing]:
    """The declarations of the name at a place."""
    use = reading.use_at(offset)
    return [it for it in use.things if is_opened(it)] if use else []


def references(reading: Reading, offset: int, with_declaration: bool) -> List[Use]:
    """The uses of what the name at a place stands for."""
    use = reading.use_at(offset)
    if use is None:
        return []
    declared = {(it.name.place, it.file) for it in use.things}
    return [it for it in reading.uses_of(use) if with_declaration or (it.place, "") not in declared]


# ---- Symbols ----


def symbols(document: Document, reading: Reading) -> List[Json]:
    """The outline of a text."""
    if reading.specification:
        return [_definition(document, reading.specification, Kind.SPECIFICATION)]
    return [it for item in reading.items for it in _item(document, item)]


def _symbol(document: Document, name: Name, kind: Kind, whole: Place, detail: str, children: List[Json]) -> Json:
    whole = whole if whole.offset <= name.place.offset and name.place.end <= whole.end else name.place
    return {"name": name.text or "?", "kind": SYMBOLS[kind], "detail": detail.strip(), "range": range_of(document, whole),
            "selectionRange": range_of(document, name.place), "children": children}


def _definition(document: Document, of: Union[tree.Specification, tree.Process], kind: Kind) -> Json:
    heading = of.heading
    detail = gate_list(heading.gates) + variable_list(heading.parameters) + functionality(heading.exit_sorts)
    items: Tuple[Any, ...] = of.items if isinstance(of, tree.Specification) else ()
    children = [it for item in (*items, *of.inner) for it in _item(document, item)]
    return _symbol(document, heading.name, kind, of.place, detail, children)


def _item(document: Document, item: Union[tree.Library, tree.Type, tree.Process]) -> List[Json]:
    if isinstance(item, tree.Process):
        return [_definition(document, item, Kind.PROCESS)]
    if isinstance(item, tree.Library):
        return [_symbol(document, it, Kind.LIBRARY, item.place, "", []) for it in item.names]
    children: List[Json] = []
    if isinstance(item.body, tree.Extension):
        sections = item.body.sections
        for sorts in (sections.formal_sorts, sections.sorts):
            children += [_symbol(document, it, Kind.SORT, it.place, "", []) for it in sorts or ()]
        for lines in (sections.formal_operations, sections.operations):
            children += [_symbol(document, it.name, Kind.OPERATION, line.place, profile(line), [])
                         for line in lines or () for it in line.operations]
    return [_symbol(document, item.name, Kind.TYPE, item.place, "", children)]


# ---- Completion ----


def completion(document: Document, reading: Reading, offset: int) -> List[Json]:
    """How the word before a place can go on: names that can be named there, and reserved words."""
    begun = _begun(document.text, offset).lower()
    found: Dict[str, Json] = {}
    for thing in scope_at(reading, offset):
        if thing.name.text and thing.name.key.startswith(begun):
            item = found.setdefault(thing.name.text, {"label": thing.name.text, "kind": COMPLETIONS[thing.kind],
                                                      "detail": thing.line})
            if item["detail"] != thing.line and thing.kind is Kind.OPERATION:
                item["documentation"] = f"{item.get('documentation', item['detail'])}\n{thing.line}"
    for word in sorted(RESERVED):
        if word.startswith(begun) and word not in found:
            found[word] = {"label": word, "kind": KEYWORD}
    return list(found.values())


def _begun(text: str, offset: int) -> str:
    """The word that stands before a place."""
    begin = offset
    while begin > 0 and (text[begin - 1].isalnum() or text[begin - 1] == "_"):
        begin -= 1
    return text[begin:offset].lstrip("_")
