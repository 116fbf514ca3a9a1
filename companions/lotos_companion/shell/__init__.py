"""The shell: the program's own lines, and commands for people around them."""
from __future__ import annotations

from .loop import Shell, Ways

__all__ = ["Shell", "Ways"]
