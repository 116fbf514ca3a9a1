"""What a command is, as data: its words, options, statuses and texts. Parsers, manual pages and completions are made of it.

Texts may have `words in grave accents`, which a manual page sets bold, and *words in stars*, which it sets in italics.
"""
from __future__ import annotations

from dataclasses import dataclass
from enum import Enum
from typing import Iterator, Optional, Tuple, Union


class Kind(Enum):
    """What a word or the value of an option is: what it is called, and the names of files that it can be."""

    SPECIFICATION = ("specification", ("*.lotos",))
    ORDER = ("order file", ("*.order", "*.lotos"))
    LIBRARY = ("library", ("*.lib",))
    SOURCE = ("specification or library", ("*.lotos", "*.lib"))
    TRACE = ("trace", ("*.trace",))
    SCENARIO = ("scenario", ("*.scenario",))
    TEST = ("scenario, session, trace or folder", ("*.scenario", "*.session", "*.trace"))
    PAIRS = ("certificate of pairs", ("*.pairs",))
    PROOFS = ("certificate of induction", ("*.proofs",))
    GOALS = ("goals", ("*.goals", "*.proofs"))
    FILE = ("file", ("*",))
    FOLDER = ("folder", ())
    NUMBER = ("number", None)
    TEXT = ("text", None)

    @property
    def called(self) -> str:
        """What it is called."""
        return str(self.value[0])

    @property
    def patterns(self) -> Optional[Tuple[str, ...]]:
        """The patterns of the files that it can be: none for a folder, and nothing where it is no file."""
        patterns: Optional[Tuple[str, ...]] = self.value[1]
        return patterns


@dataclass(frozen=True)
class Word:
    """A word that stands behind a command: its name in the usage, and what it is."""

    name: str
    kind: Kind
    optional: bool = False
    repeated: bool = False

    @property
    def usage(self) -> str:
        """The word as the usage has it."""
        name = f"{self.name}.." if self.repeated else self.name
        return f"[{name}]" if self.optional else name


@dataclass(frozen=True)
class Option:
    """An option: its name with both strokes, what it does, and the value that stands behind it if there is one."""

    name: str
    help: str
    metavar: str = ""
    kind: Kind = Kind.TEXT
    choices: Tuple[str, ...] = ()
    default: Union[str, int, None] = None
    repeated: bool = False
    in_usage: bool = True

    @property
    def takes_value(self) -> bool:
        """Whether a value stands behind it."""
        return bool(self.metavar)

    @property
    def usage(self) -> str:
        """The option as the usage has it."""
        return f"[{self.name} {self.metavar}]" if self.takes_value else f"[{self.name}]"


@dataclass(frozen=True)
class Item:
    """A term with its explanation."""

    term: str
    text: str


@dataclass(frozen=True)
class Example:
    """Lines as they are typed or printed."""

    lines: str


Block = Union[str, Item, Example]


@dataclass(frozen=True)
class Section:
    """A part of a manual page under a title of its own."""

    title: str
    blocks: Tuple[Block, ...]


@dataclass(frozen=True)
class Verb:
    """The first word of a command that does several things: what stands behind it, and what it does. `with_values` is whether
    `with` and values of parameters may follow."""

    name: str
    summary: str
    words: Tuple[Word, ...] = ()
    options: Tuple[Option, ...] = ()
    with_values: bool = False
    description: str = ""
    output: str = ""

    @property
    def usage(self) -> str:
        """The verb as the usage has it, with its words."""
        return " ".join([self.name, *_usage(self.options, self.words, self.with_values, self.output)])


@dataclass(frozen=True)
class Command:
    """A command: all that its parser, its manual page and its completion say. One with verbs has no words of its own. `module`
    is the module of this package whose `main` it calls; the program itself has none."""

    name: str
    summary: str
    words: Tuple[Word, ...] = ()
    verbs: Tuple[Verb, ...] = ()
    options: Tuple[Option, ...] = ()
    with_values: bool = False
    output: str = ""
    description: Tuple[Block, ...] = ()
    sections: Tuple[Section, ...] = ()
    statuses: Tuple[Tuple[int, str], ...] = ()
    examples: Tuple[str, ...] = ()
    see_also: Tuple[str, ...] = ()
    pages: Tuple[str, ...] = ()
    module: str = ""

    @property
    def all_options(self) -> Tuple[Option, ...]:
        """The options of the command and of all its verbs, each once, then those that every companion has."""
        own = dict.fromkeys(self.options + tuple(option for verb in self.verbs for option in verb.options))
        return (*own, VERSION_OPTION, HELP_OPTION) if self.module else tuple(own)

    @property
    def usage(self) -> Tuple[str, ...]:
        """The lines of the usage."""
        if not self.verbs:
            return (" ".join([self.name, *_usage(self.options, self.words, self.with_values, self.output)]),)
        options = [it.usage for it in self.options if it.in_usage]
        return tuple(" ".join([self.name, *options, verb.usage]) for verb in self.verbs)


def _usage(options: Tuple[Option, ...], words: Tuple[Word, ...], with_values: bool, output: str) -> Iterator[str]:
    """The parts of a usage behind the name."""
    yield from (it.usage for it in options if it.in_usage)
    yield from (it.usage for it in words)
    if with_values:
        yield "[with TERM..]"
    if output:
        yield f"> {output}"


HELP_OPTION = Option("--help", "tells the words")
VERSION_OPTION = Option("--version", "tells the version")
PROGRAM = Option("--program", "the program (else the variable `LOTOS`, else the `lotos` of the repository that this companion "
                 "stands in, once it is built, else that of the PATH)", "FILE", Kind.FILE)
NUMBERS = Option("--numbers", "decimal numbers for numerals: 2 for Succ(Succ(0))")
NAMES = Option("--names", "names of hidden events, what each `i` is: so it is without a word for it", in_usage=False)
NO_NAMES = Option("--no-names", "no names of hidden events")
COLOR = Option("--color", "auto, always or never: colours, on a terminal if auto", "WHEN", Kind.TEXT,
               ("auto", "always", "never"), "auto")
JSON = Option("--json", "the answer as JSON, for scripts")

SPEC_WORDS = (Word("SPEC", Kind.SPECIFICATION), Word("ORDER", Kind.ORDER, optional=True))
WRONG_WORDS_STATUS = (2, "the words are wrong")
UNREAD_STATUS = (3, "a file cannot be read")
OUTPUT_STATUS = (5, "the output failed or was closed")
NO_PROGRAM_STATUS = (70, "there is no program, or it ended before its time")
