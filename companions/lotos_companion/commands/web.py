"""The words of `lotos-web`."""
from .description import NO_NAMES, NO_PROGRAM_STATUS, NUMBERS, OUTPUT_STATUS, PROGRAM, SPEC_WORDS, Command, Kind, Option

COMMAND = Command(
    "lotos-web",
    "a session of lotos in a browser: menu, source, components, a chart that grows, all branches; on this machine alone",
    words=SPEC_WORDS, with_values=True,
    options=(PROGRAM, NUMBERS, NO_NAMES,
             Option("--beside", "another specification, which takes the same steps where it can; behind a comma its order "
                    "file. May stand several times", "OTHER", Kind.SPECIFICATION, repeated=True),
             Option("--folder", "the folder that the page writes files into, and no other", "FOLDER", Kind.FOLDER, default="."),
             Option("--port", "the port of the server, any free one if 0", "N", Kind.NUMBER, default=0),
             Option("--wait", "the seconds that the session is kept behind its last page", "N", Kind.NUMBER, default=60),
             Option("--no-browser", "opens no browser: the address is written to the output in any case")),
    description=("The address has a token, without which nothing is answered. The session ends a minute after the page was "
                 "closed.",),
    statuses=((0, "the page was closed"), (1, "a specification was refused"), (2, "the words are wrong"),
              (3, "a file could not be read"), OUTPUT_STATUS, NO_PROGRAM_STATUS),
    examples=("lotos-web examples/alternating_bit.lotos", "lotos-web old.lotos --beside new.lotos",
              "lotos-web --numbers car_park.lotos with 'Succ(Succ(0))' true"),
    see_also=("lotos", "lotos-shell", "lotos-trace"), pages=("docs/WEB.md",), module="web.tool")
