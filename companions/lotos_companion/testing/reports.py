"""What came of the tests, for people, for scripts, and for build farms."""
from __future__ import annotations

import datetime
import os
import platform
from typing import Any, Dict, Iterator, List, Sequence
from xml.etree import ElementTree

from ..output import visible
from .outcomes import RIGHT, Ending, Outcome, totals

# What build farms call the endings that are not passed.
FARM_NAMES = {Ending.FAILED: "failure", Ending.INCONCLUSIVE: "error", Ending.BROKEN: "error"}


def outcome_lines(outcome: Outcome, with_all: bool) -> Iterator[str]:
    """What came of a test, in lines."""
    yield f"{outcome.ending.value:<12} {outcome.case.path}"
    lines = (*outcome.said, *(outcome.more if with_all else ()))
    yield from (f"    {it}" for it in lines)
    yield from (f"    written: {it}" for it in outcome.written)


def json_report(outcomes: Sequence[Outcome], seconds: float) -> Dict[str, Any]:
    """What came of the tests, as data."""
    tests: List[Dict[str, Any]] = [
        {"test": it.case.path, "kind": it.case.kind.value[1:], "ending": it.ending.value, "seconds": round(it.seconds, 3),
         "said": list(it.said), "more": list(it.more), "written": list(it.written)} for it in outcomes]
    counts = {it.value.replace(" ", "_"): totals(outcomes).get(it, 0) for it in Ending}
    return {"tests": tests, "seconds": round(seconds, 3), **counts}


def junit(outcomes: Sequence[Outcome], seconds: float, begin: datetime.datetime) -> bytes:
    """What came of the tests, in the XML that build farms read."""
    suites = ElementTree.Element("testsuites")
    counted = totals(outcomes)
    suite = ElementTree.SubElement(suites, "testsuite", {
        "name": "lotos-test", "package": "lotos", "id": "0", "timestamp": begin.strftime("%Y-%m-%dT%H:%M:%S"),
        "hostname": platform.node() or "localhost", "tests": str(len(outcomes)),
        "failures": str(counted.get(Ending.FAILED, 0)), "skipped": "0",
        "errors": str(counted.get(Ending.INCONCLUSIVE, 0) + counted.get(Ending.BROKEN, 0)), "time": f"{seconds:.3f}"})
    ElementTree.SubElement(suite, "properties")
    for outcome in outcomes:
        _add_case(suite, outcome)
    ElementTree.SubElement(suite, "system-out")
    ElementTree.SubElement(suite, "system-err")
    ElementTree.indent(suites)
    text: bytes = ElementTree.tostring(suites, encoding="utf-8", xml_declaration=True)
    return text + b"\n"


def _add_case(suite: ElementTree.Element, outcome: Outcome) -> None:
    """Adds the element of one test."""
    folder, name = os.path.split(outcome.case.path)
    case = ElementTree.SubElement(suite, "testcase", {
        "name": _xml(name), "classname": _xml(folder.replace(os.sep, ".") or "."), "time": f"{outcome.seconds:.3f}"})
    if outcome.ending not in RIGHT:
        first = outcome.said[0] if outcome.said else outcome.ending.value
        element = ElementTree.SubElement(case, FARM_NAMES[outcome.ending],
                                         {"type": outcome.ending.value, "message": _xml(first)})
        element.text = _xml("\n".join(outcome.said))


def _xml(text: str) -> str:
    """A text that XML can have: control characters and bytes that are no UTF-8 are shown as escapes."""
    return visible(text).replace("\ufffe", "\\ufffe").replace("\uffff", "\\uffff")
