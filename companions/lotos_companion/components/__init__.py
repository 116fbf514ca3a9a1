"""The components of a state, what takes part in its events, and the parts of the source that events stand for.

    read_state(text) -> Component         the tree of the components, from the text that `show` prints
    state_of(play, actions) -> Component  the same of a session's state, values in normal form, with the processes
    moved(before, after) -> paths         where components of a state are not as they were, by their texts
    Actions(play)                         what takes part in events, told by a session of a marked text
      .entries() -> [parts of each entry of the menu]
      .steps() -> [parts of each step that was taken]
      .occurrences() -> all events, `i;`, `>>` and calls of the text with their places in the source
      .why_off, .kill()
    actions_of(parts) -> places in the source, for marking it
    participants(parts, state) -> paths of the components of a state that take part, the lifelines of a chart
    component_at(state, path) -> the component that stands there

A component is a place: its path is the sides of the parallels from the whole inwards. It keeps its path as long as the parallels
above it are there; what comes behind a `>>` has the path of what it comes behind. Events `exit` of the whole have no parts.
"""
from .actions import Actions
from .occurrences import Happening, Occurrence, Part, Parts, Path, actions_of
from .state import Component, component_at, moved, participants, read_state, state_of

__all__ = ["Actions", "Component", "Happening", "Occurrence", "Part", "Parts", "Path", "actions_of", "component_at", "moved",
           "participants", "read_state", "state_of"]
