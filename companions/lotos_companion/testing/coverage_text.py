"""What the tests took of the source, as lines, as data, and as a page."""
from __future__ import annotations

from html import escape
from typing import Any, Dict, Iterator, List, Sequence, Tuple

from ..output import visible
from .coverage import NOT_TOLD, Coverage, Site

LONGEST = 60
STYLE = """
body { margin: 0 auto; max-width: 1100px; padding: 24px; font: 15px/1.5 system-ui, sans-serif; color: #222; background: #fff; }
h1 { font-size: 22px; } h2 { font-size: 17px; margin: 28px 0 4px; }
pre { font: 13px/1.55 ui-monospace, "DejaVu Sans Mono", Menlo, Consolas, monospace; white-space: pre-wrap; }
.line { color: #6b6b6b; display: inline-block; width: 3.5em; text-align: right; margin-right: 1em; user-select: none; }
.taken { background: #dff3e0; } .never { background: #ffd9d4; }
.count { font-size: 11px; color: #2e6b33; vertical-align: super; } .never .count { color: #b3261e; }
"""


def coverage_lines(covered: Coverage) -> Iterator[str]:
    """Each site with how often it was taken, and the shares of all."""
    yield f"coverage of {covered.path}"
    width = max((len(str(count)) for _, count in covered.sites), default=1)
    for site, count in covered.sites:
        where = f"{site.place.line}:{site.place.column}" if site.place else "?"
        inside = f" in {site.process}" if site.process else ""
        yield f"  {count:>{width}}  {where:<7} {_shown(covered.text, site)}{inside}"
    yield f"  taken: {shares(covered)}"
    yield from (f"  {it}" for it in (*covered.said, f"not told: {'; '.join(NOT_TOLD)}"))


def shares(covered: Coverage) -> str:
    """How many sites of each kind were taken."""
    counted = ((kind, *covered.share(kind)) for kind in ("event", "end", "call", "process"))
    return ", ".join(f"{taken} of {count} {_plural(kind)}" for kind, taken, count in counted if count) or "nothing is known"


def _plural(kind: str) -> str:
    return "processes" if kind == "process" else f"{kind}s"


def _shown(text: str, site: Site) -> str:
    """A site as it is written, in one line."""
    if site.kind == "process":
        return f"process {site.name}"
    shown = " ".join(text[site.place.offset:site.place.end].split()) if site.place else site.name
    return shown if len(shown) <= LONGEST else f"{shown[:LONGEST - 2]}.."


def coverage_data(covered: Coverage) -> Dict[str, Any]:
    """The same as data."""
    sites = [{"kind": site.kind, "name": site.name, "process": site.process, "line": site.place and site.place.line,
              "column": site.place and site.place.column, "taken": count} for site, count in covered.sites]
    return {"specification": covered.path, "sites": sites, "said": list(covered.said), "not_told": list(NOT_TOLD)}


def coverage_page(all_covered: Sequence[Coverage]) -> str:
    """A page of HTML with the text of each specification, in which what was taken and what was not is marked."""
    parts = ["<!DOCTYPE html>", '<html lang="en">', "<head>", '<meta charset="utf-8">', "<title>What the tests took</title>",
             f"<style>{STYLE}</style>", "</head>", "<body>", "<h1>What the tests took</h1>",
             f"<p>Not told: {escape('; '.join(NOT_TOLD))}.</p>"]
    for covered in all_covered:
        parts += [f"<h2>{_html(covered.path)}</h2>", f"<p>Taken: {escape(shares(covered))}.</p>",
                  *(f"<p>{_html(it)}</p>" for it in covered.said), f"<pre>{_marked(covered)}</pre>"]
    return "\n".join([*parts, "</body>", "</html>"]) + "\n"


def _marked(covered: Coverage) -> str:
    """The text with marks, each line with its number."""
    pieces: List[Tuple[str, str, str]] = []
    end = 0
    for site, count in covered.sites:
        if site.place is None or site.place.offset < end:
            continue
        pieces.append(("", covered.text[end:site.place.offset], ""))
        end = site.place.end
        kind = "taken" if count else "never"
        pieces.append((f'<span class="{kind}" title="{site.kind}, taken {_times(count)}">', covered.text[site.place.offset:end],
                       f'<span class="count">{count}</span></span>'))
    pieces.append(("", covered.text[end:].rstrip("\n"), ""))
    lines = "".join(f"{before}{_html(text)}{behind}" for before, text, behind in pieces).split("\n")
    return "\n".join(f'<span class="line">{number}</span>{line}' for number, line in enumerate(lines, 1))


def _times(count: int) -> str:
    return "once" if count == 1 else f"{count} times" if count else "never"


def _html(text: str) -> str:
    """A text of somebody's as HTML: signs that it would read are escaped, and control characters shown."""
    return escape(visible(text))
