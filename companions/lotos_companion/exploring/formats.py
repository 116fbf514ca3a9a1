"""The states as other tools read them: `.aut` as CADP, mCRL2 and others have it, and DOT as graphviz has it."""
from __future__ import annotations

from typing import Dict, Iterator, List

from .graph import StateGraph


def aut_lines(graph: StateGraph) -> Iterator[str]:
    """The lines of an `.aut` file: the first state, the counts, and each transition."""
    yield f"des (0, {graph.transitions}, {graph.states})"
    for state, label, target in graph.all_transitions():
        yield f'({state}, "{_quoted(label)}", {target})'


def dot_lines(graph: StateGraph, name: str) -> Iterator[str]:
    """The lines of a DOT file: states without events are red, those that were not looked at dashed, hidden events grey. The
    labels between two states stand at one edge."""
    yield f'digraph "{_quoted(name)}" {{'
    yield '  node [shape=circle, fontname="monospace", fontsize=11];'
    yield '  edge [fontname="monospace", fontsize=10];'
    yield '  0 [penwidth=2];'
    dead = graph.deadlocks()
    for state in range(graph.states):
        if state in dead:
            yield f'  {state} [color="#b3261e", fontcolor="#b3261e"];'
        elif state >= graph.expanded and graph.menus[state].lines:
            yield f"  {state} [style=dashed];"
    for state in range(graph.expanded):
        for target, labels in grouped(graph, state).items():
            colour = ', color="#777777", fontcolor="#777777"' if labels == ["i"] else ""
            shown = "\\n".join(map(_quoted, labels))
            yield f'  {state} -> {target} [label="{shown}"{colour}];'
    yield "}"


def grouped(graph: StateGraph, state: int) -> Dict[int, List[str]]:
    """The labels of a state's transitions by their targets, each once."""
    found: Dict[int, List[str]] = {}
    for label, target in graph.transitions_of(state):
        labels = found.setdefault(target, [])
        if label not in labels:
            labels.append(label)
    return found


def _quoted(text: str) -> str:
    """A text between quotation marks."""
    return text.replace("\\", "\\\\").replace('"', '\\"')
