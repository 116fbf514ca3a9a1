"""One HTML file of a scenario: the page with its modules, its styles and the recorded scenario in it. It asks nothing of a
network, and a policy with the digests of its own texts lets nothing else run in it."""
from __future__ import annotations

import base64
import hashlib
import json
import re
from html import escape
from typing import Dict, List, Sequence

from .server import static_files
from .views import View

IMPORT = re.compile(r'^import \{ ([^}]*) \} from "\./([^"]+)";\n', re.M)
EXPORT = re.compile(r"^export ((?:async )?(?:function|class|const) (\w+))", re.M)
STYLES = ("page.css", "picture.css")
FIRST_MODULE = "main.js"


def export_page(scenario: View, title: str, replay: Sequence[str]) -> str:
    """The file. `replay` are the lines by which a reviewer comes to the end of the scenario."""
    files = {name: data.decode() for name, (_, data) in static_files().items()}
    style = "\n".join(files[it] for it in STYLES)
    script = one_script(files)
    data = json.dumps({**scenario, "style": files["picture.css"], "replay": list(replay)}, separators=(",", ":"))
    policy = (f"default-src 'none'; script-src '{_digest(script)}'; style-src '{_digest(style)}'; img-src data: blob:; "
              "base-uri 'none'; form-action 'none'")
    head = "\n".join([
        f'<meta http-equiv="Content-Security-Policy" content="{policy}">', f"<title>{escape(_printable(title))}</title>",
        '<link rel="icon" href="data:,">', f"<style>{style}</style>",
        f'<script type="application/json" id="scenario">{_inert(data)}</script>'])
    page = re.sub(r"<title>.*?</script>\n", lambda _: f"{head}\n", files["index.html"], flags=re.S)
    page = re.sub(r"<noscript>.*?</noscript>", lambda _: _plain(scenario), page, flags=re.S)
    return page.replace("</body>", f'<script type="module">{script}</script>\n</body>')


def one_script(files: Dict[str, str]) -> str:
    """All modules as one script: each is a function that hands out what the module exports."""
    done: List[str] = []
    parts: List[str] = []

    def add(name: str) -> None:
        if name in done:
            return
        done.append(name)
        text = files[name]
        for _, other in IMPORT.findall(text):
            add(other)
        text = IMPORT.sub(lambda it: f"const {{ {it[1]} }} = {_variable(it[2])};\n", text)
        names = ", ".join(it[1] for it in EXPORT.findall(text))
        parts.append(f"const {_variable(name)} = (() => {{\n{EXPORT.sub(lambda it: it[1], text)}return {{ {names} }};\n}})();")

    add(FIRST_MODULE)
    return "\n".join(parts) + "\n"


def _variable(name: str) -> str:
    return f"module_{name.partition('.')[0]}"


def _digest(text: str) -> str:
    return f"sha256-{base64.b64encode(hashlib.sha256(text.encode()).digest()).decode()}"


def _inert(data: str) -> str:
    """Data that no reader of HTML takes for the end or the beginning of anything."""
    return data.replace("<", "\\u003c").replace(">", "\\u003e").replace("&", "\\u0026")


def _printable(text: str) -> str:
    return "".join(it if it.isprintable() else "\ufffd" for it in text)


def _plain(scenario: View) -> str:
    """The steps for readers without scripts."""
    places = scenario["places"]
    assert isinstance(places, list)
    texts = [f"{it['label']} {it['name']}".strip() for it in places[1:]]
    steps = "\n".join(f"<li>{escape(_printable(it))}</li>" for it in texts)
    return f"<noscript><p>With JavaScript this page plays the scenario.</p>\n<ol>\n{steps}\n</ol></noscript>"
