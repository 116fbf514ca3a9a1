"""The browser is opened by a file that leads to the page: other users would see the address among the words of a process."""
from __future__ import annotations

import os
import sys
import webbrowser
from html import escape


def leading_file(folder: str, address: str) -> str:
    """Writes a file into a folder that leads to an address, for this user alone: its path."""
    path = os.path.join(folder, "lotos-web.html")
    number = os.open(path, os.O_CREAT | os.O_EXCL | os.O_WRONLY, 0o600)
    with open(number, "w", encoding="utf-8") as file:
        file.write('<!DOCTYPE html><meta charset="utf-8"><title>lotos-web</title>'
                   f'<meta http-equiv="refresh" content="0;url={escape(address)}"><a href="{escape(address)}">the page</a>\n')
    return path


def open_browser(folder: str, address: str) -> bool:
    """Opens a page in the user's browser: whether there is one. (One within a terminal is none.)"""
    has_screen = bool(os.environ.get("DISPLAY") or os.environ.get("WAYLAND_DISPLAY")) or sys.platform == "darwin"
    return has_screen and webbrowser.open(f"file://{leading_file(folder, address)}")
