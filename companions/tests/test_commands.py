"""The table of the commands: parsers, manual pages and completions are made from it, and say what the program says."""
import os
import re
import subprocess
import unittest
from importlib import import_module

from .helpers import COMPANIONS, TOP, FolderTest, find_tool, read
from lotos_companion.commands import COMMANDS, make_parser
from lotos_companion.commands.files import command_files
from lotos_companion.commands.makers import MAKERS
from lotos_companion.version import VERSION

GROFF = find_tool("groff")
ZSH = find_tool("zsh")
COMPLETED = (
    (("lotos", ""), ["bisim", "build", "check", "demo", "flatten", "induct", "install", "run"]),
    (("lotos", "r"), ["run"]),
    (("lotos", "run", "co"), ["cofolder", "countdown.lotos"]),
    (("lotos", "run", "countdown.lotos", "co"), ["cofolder", "countdown.lotos", "countdown.order"]),
    (("lotos", "flatten", "co"), ["cofolder", "countdown.lotos"]),
    (("lotos", "flatten", "countdown.lotos", "co"), ["cofolder", "countdown.lotos", "countdown.order"]),
    (("lotos", "run", "car_park.lotos", "w"), ["with"]),
    (("lotos", "run", "car_park.lotos", "with", "S"), [""]),
    (("lotos", "install", "co"), ["cofolder"]),
    (("lotos-shell", "--n"), ["--names", "--numbers"]),
    (("lotos-shell", "--color", "a"), ["always", "auto"]),
    (("lotos-shell", "--color", "auto", "inr"), ["inres.lotos"]),
    (("lotos-shell", "car_park.lotos", "--v"), ["--version"]),
    (("lotos-trace", "--numbers", "s"), ["scenario", "show"]),
    (("lotos-test", "--sh"), ["--shard"]),
    (("lotos-test", "inres.session", "inr"), ["inres.trace"]),
    (("lotos-trace", "show", "inr"), ["inres.trace"]),
    (("lotos-trace", "show", "inres.trace", "inr"), ["inres.lotos"]),
    (("lotos-trace", "show", "inres.trace", "wi"), [""]),
    (("lotos-trace", "show", "inres.trace", "inres.lotos", "wi"), ["with"]),
    (("lotos-induct", "--j"), ["--json"]),
    (("lotos-libs", ""), ["add", "diff", "list", "show"]),
    (("lotos-libs", "add", "--f"), ["--force"]),
    (("lotos-pairs", "--st"), ["--states"]),
    (("lotos-pairs", "two_cells.lotos", "two_pl"), ["two_places.lotos"]),
)


class Table(unittest.TestCase):
    """The table, and what is made of it."""

    def test_the_files_are_as_they_would_be_made(self):
        made = command_files()
        for name, text in made.items():
            with self.subTest(name):
                self.assertEqual(read(f"{COMPANIONS}/{name}"), text)
        kept = [os.path.join(folder, it) for folder in ("man", "completions") for it in os.listdir(f"{COMPANIONS}/{folder}")]
        self.assertEqual(sorted(kept), sorted(made))

    def test_each_command_can_be_called_and_each_that_can_be_called_is_a_command(self):
        files = [it for it in os.listdir(COMPANIONS) if os.access(f"{COMPANIONS}/{it}", os.X_OK)
                 and os.path.isfile(f"{COMPANIONS}/{it}")]
        callable_ones = [it for it in (*COMMANDS, *MAKERS) if it.module]
        self.assertEqual(sorted(files), sorted(it.name for it in callable_ones))
        installed = re.findall(r'(?m)^(\S+) = "lotos_companion.start:run"$', read(f"{COMPANIONS}/pyproject.toml"))
        self.assertEqual(sorted(installed), sorted(it.name for it in COMMANDS if it.module))
        for command in callable_ones:
            self.assertTrue(callable(import_module(f"lotos_companion.{command.module}").main))

    def test_the_readme_of_the_companions_has_each_command(self):
        text = read(f"{COMPANIONS}/README.md")
        for command in (*COMMANDS[1:], *MAKERS):
            self.assertIn(f"`{command.name}`", text)


class Calls(FolderTest):
    """What each command says of itself."""

    def test_help_and_version(self):
        for command in (*COMMANDS, *MAKERS):
            if command.module:
                with self.subTest(command.name):
                    status, output, said = self.run_companion(command.name, "--version")
                    self.assertEqual((status, output, said), (0, f"{command.name} {VERSION}\n", ""))
                    status, output, said = self.run_companion(command.name, "--help")
                    self.assertEqual((status, said, output), (0, "", make_parser(command).format_help()))

    def test_the_help_has_all_that_the_table_has(self):
        for command in COMMANDS:
            if command.module:
                text = re.sub(r"\s+", " ", make_parser(command).format_help())
                for it in (*(option.name for option in command.all_options), *(verb.name for verb in command.verbs),
                           *(f"{number} " for number, _ in command.statuses), *command.examples):
                    self.assertIn(it, text)

    def test_the_version_is_that_of_the_repository(self):
        self.assertEqual(read(f"{TOP}/VERSION"), f"{VERSION}\n")
        self.assertRegex(VERSION, r"^\d+\.\d+\.\d+$")


class ManualPages(unittest.TestCase):
    """The pages below `man/`."""

    def test_that_of_the_program_has_its_words_statuses_and_lines(self):
        page = re.sub(r"\\f[A-Z]", "", read(f"{COMPANIONS}/man/lotos.1"))
        usage = read(f"{TOP}/docs/USAGE.md")
        for name in re.findall(r"^\| `(\w+)", usage, re.M):
            self.assertRegex(page, rf"(?m)^{name}\b")
        statuses = re.findall(r"^\| (\d+) \|", usage, re.M)
        self.assertEqual(re.findall(r"(?m)^(\d+)$", page), statuses)

    @unittest.skipUnless(GROFF, "the form of manual pages, since there is no groff")
    def test_their_form(self):
        for command in COMMANDS:
            with self.subTest(command.name):
                done = subprocess.run(["groff", "-man", "-z", "-ww", f"{COMPANIONS}/man/{command.name}.1"],
                                      stderr=subprocess.PIPE, check=False)
                self.assertEqual((done.returncode, done.stderr), (0, b""))


class Completions(FolderTest):
    """The completions of bash and zsh."""

    def _completed(self, *words):
        """What bash offers for the last of these words."""
        function = "_" + words[0].replace("-", "_")
        script = (f'source {COMPANIONS}/completions/lotos.bash; COMP_WORDS=("$@"); COMP_CWORD=$(($# - 1)); {function}; '
                  'printf "%s\\n" "${COMPREPLY[@]}"')
        said = subprocess.run(["bash", "-c", script, "bash", *words], stdout=subprocess.PIPE, check=True).stdout.decode()
        return sorted(said.split("\n")[:-1])

    def test_bash(self):
        os.mkdir("cofolder")
        for words, wanted in COMPLETED:
            with self.subTest(words):
                self.assertEqual(self._completed(*words), wanted)

    @unittest.skipUnless(ZSH, "the form of completion for zsh, since there is no zsh")
    def test_the_form_of_that_for_zsh(self):
        subprocess.run(["zsh", "-n", f"{COMPANIONS}/completions/_lotos"], check=True)
