"""The words of `lotos-test`."""
from .description import JSON, PROGRAM, Command, Item, Kind, Option, Section, Word

FOUND = Section("TESTS", (
    Item("*NAME*`.scenario`", "a scenario by what its events are called. It passes if it happens as it is written; if it has a "
         "line `possible:` with `may`, `must` or `never`, if that holds, with hidden steps between its events. Where the "
         "search ends before all was tried, the test is inconclusive."),
    Item("*NAME*`.session`", "the lines of a session. It passes if the program answers what stands in *NAME*`.report`, and "
         "saves the traces that stand beside it."),
    Item("*NAME*`.trace`", "a trace. It passes if the program takes its steps again. In folders, traces are no tests."),
    "The words behind `run` stand in *NAME*`.words`; else the specification is *N*`.lotos`, where *N* is what stands in *NAME* "
    "before the first dot. A scenario may have them in its line `run:`. The program is run in the folder of the specification."))

COMMAND = Command(
    "lotos-test",
    "runs the scenarios and sessions of a project as its tests",
    words=(Word("TEST", Kind.TEST, optional=True, repeated=True),),
    options=(PROGRAM,
             Option("--jobs", "run so many tests at once (as many as there are processors)", "N", Kind.NUMBER),
             Option("--shard", "run the share I of N, from 1: each test is in one of them", "I/N"),
             Option("--junit", "write the outcome into FILE, as build farms read it", "FILE", Kind.FILE),
             Option("--coverage", "tell how often the tests take each event, call and process of the source"),
             Option("--coverage-page", "write this as a page of HTML into FILE", "FILE", Kind.FILE),
             Option("--time", "end a test after N seconds (60)", "N", Kind.NUMBER, default=60),
             Option("--states", "let a search look at N states, whatever the scenario says", "N", Kind.NUMBER),
             Option("--rebase", "write tests anew that an edited specification still lets happen, by what events are called"),
             Option("--old", "rebase: the folder that has the project as it was before the edit", "FOLDER", Kind.FOLDER),
             Option("--list", "tell the tests, and run none"),
             Option("--verbose", "tell more of tests that passed"),
             JSON),
    description=("Each *TEST* is a file or a folder; if there is none, the present folder is searched, with those below it.",),
    sections=(FOUND,),
    statuses=((0, "all tests passed, or were carried over"), (1, "some failed, are inconclusive, or could not be run"), (2, "interrupted"),
              (3, "there is no program, or a file or the output could not be written"), (4, "the words are wrong"),
              (5, "no test was found")),
    examples=("lotos-test", "lotos-test --shard 2/8 --junit tests.xml examples", "lotos-test lost.scenario"),
    see_also=("lotos", "lotos-trace"), pages=("docs/SCENARIOS.md", "docs/TEN_MINUTES.md"), module="testing.tool")
