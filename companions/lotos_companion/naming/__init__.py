"""Names of hidden events: what each `i` of a menu is, told by a second session of a text that hides nothing.

`NamedPlay` is a `Play` with `names` beside its menu, one for each entry: a `HiddenEvent`, or `None`.
"""
from .hidden_events import HiddenEvent, Kind, Origin
from .named_play import NamedPlay, named_line, named_lines

__all__ = ["HiddenEvent", "Kind", "NamedPlay", "Origin", "named_line", "named_lines"]
