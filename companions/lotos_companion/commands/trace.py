"""The words of `lotos-trace`."""
from .description import (JSON, NAMES, NO_NAMES, NO_PROGRAM_STATUS, NUMBERS, OUTPUT_STATUS, PROGRAM, WRONG_WORDS_STATUS, Command,
                          Kind, Option, Verb, Word)

TRACE_AND_SPEC = (Word("TRACE", Kind.TRACE), Word("SPEC", Kind.SPECIFICATION, optional=True),
                  Word("ORDER", Kind.ORDER, optional=True))

ORDERS = (Option("--old-order", "diff, rebase: the order file of OLD", "FILE", Kind.ORDER),
          Option("--new-order", "diff, rebase: the order file of NEW", "FILE", Kind.ORDER))

COMMAND = Command(
    "lotos-trace",
    "shows kept scenarios of lotos: as lines, as a picture, as a page; and where a changed specification parts from one",
    verbs=(
        Verb("show", "each step with the menu that it was chosen from", TRACE_AND_SPEC,
             (Option("--states", "show: the states between the steps too"),), with_values=True),
        Verb("chart", "a picture of the scenario as SVG: a lane for each gate, or a line for each component", TRACE_AND_SPEC,
             (Option("--components", "chart: a line for each component of the states"),
              Option("--png", "chart: the same as PNG")), with_values=True, output="FILE.svg"),
        Verb("page", "a page of HTML that plays alone: chart, source, each menu and state", TRACE_AND_SPEC, with_values=True,
             output="FILE.html"),
        Verb("scenario", "what the events of a trace or of a session are called, as a scenario that outlives an edit",
             (Word("TRACE", Kind.TEST), Word("SPEC", Kind.SPECIFICATION), Word("ORDER", Kind.ORDER, optional=True)),
             (Option("--visible", "scenario: events that are not hidden alone"),), with_values=True,
             output="FILE.scenario"),
        Verb("rebase", "the trace of an edited specification, or where that parts; OLD is looked for beside TRACE",
             (Word("TRACE", Kind.TRACE), Word("OLD", Kind.SPECIFICATION, optional=True), Word("NEW", Kind.SPECIFICATION)),
             (*ORDERS, JSON), with_values=True, output="NEW.trace"),
        Verb("diff", "where the menus of two specifications differ, and where the new one parts from the trace",
             (Word("TRACE", Kind.TRACE), Word("OLD", Kind.SPECIFICATION), Word("NEW", Kind.SPECIFICATION)),
             ORDERS, with_values=True)),
    options=(PROGRAM, NUMBERS, NAMES, NO_NAMES),
    statuses=((0, "all steps fit"), (1, "one does not, the file is no trace, or the specification is refused"),
              WRONG_WORDS_STATUS, (3, "a file cannot be read; with `diff` and `rebase`, the trace does not fit OLD"), OUTPUT_STATUS,
              NO_PROGRAM_STATUS),
    examples=("lotos-trace show alternating_bit.trace alternating_bit.lotos",
              "lotos-trace page alternating_bit.trace alternating_bit.lotos > scenario.html"),
    see_also=("lotos", "lotos-shell"), pages=("docs/SCENARIOS.md",), module="trace_tool")
