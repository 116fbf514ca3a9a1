"""Completion for bash and zsh, written from the table of the commands."""
from __future__ import annotations

from typing import Iterator, List, Sequence, Tuple

from .description import Command, Kind, Option, Word

BASH_HEAD = r'''# Completion of {names} for bash: source this file,
# or put it into a folder of bash-completion under these names. Written by companions/make-command-files.

# Files that begin with what is typed, with names of the given patterns, and folders.
_lotos_files() {{
    local pattern
    compopt -o filenames 2>/dev/null
    mapfile -t COMPREPLY < <(
        for pattern in "$@"; do compgen -f -X "!$pattern" -- "$current"; done
        compgen -d -- "$current"
    )
}}

# Words that begin with what is typed.
_lotos_words() {{
    mapfile -t COMPREPLY < <(compgen -W "$1" -- "$current")
}}

# Adds `with`, behind which stand the values of parameters.
_lotos_with() {{
    if [[ with = "$current"* ]]; then COMPREPLY+=(with); fi
}}

# Looks at the line, given the options that take a value: the word at the cursor, the one before, and the others that are
# no options and no values of options. Behind `with` nothing is known.
_lotos_look() {{
    local place word skip=
    current=${{COMP_WORDS[COMP_CWORD]}} before=${{COMP_WORDS[COMP_CWORD-1]}} given=() closed=
    COMPREPLY=()
    for ((place = 1; place < COMP_CWORD; place++)); do
        word=${{COMP_WORDS[place]}}
        if [ -n "$skip" ]; then skip=
        elif [ "$word" = with ]; then closed=yes
        elif [[ $word != -* ]]; then given+=("$word")
        elif [[ " $1 " = *" $word "* ]]; then skip=yes
        fi
    done
}}
'''

ZSH_HEAD = '''#compdef {names}
# Completion of {names} for zsh:
# put this file into a folder of $fpath. Written by companions/make-command-files.
'''


def bash_file(commands: Sequence[Command]) -> str:
    """The file for bash."""
    lines = [BASH_HEAD.format(names=_listed([it.name for it in commands]))]
    for command in commands:
        lines += [*_bash_function(command), ""]
    lines += [f"complete -F {_function(it)} {it.name}" for it in commands]
    return "\n".join(lines) + "\n"


def _function(command: Command) -> str:
    return "_" + command.name.replace("-", "_")


def _listed(names: Sequence[str]) -> str:
    return f"{', '.join(names[:-1])} and {names[-1]}"


def _bash_function(command: Command) -> Iterator[str]:
    """The function that completes a command."""
    options = command.all_options
    yield f"{_function(command)}() {{"
    yield "    local current before given closed"
    yield f"    _lotos_look '{' '.join(it.name for it in options if it.takes_value)}'"
    yield "    case $before in"
    yield from (f"        {it.name}) {_bash_value(it)}; return ;;" for it in options if it.takes_value)
    yield "    esac"
    yield "    [ -n \"$closed\" ] && return"
    if options:
        yield f"    if [[ $current = -* ]]; then _lotos_words '{' '.join(it.name for it in options)}'; return; fi"
    if command.verbs:
        yield f"    if [ ${{#given[@]}} -eq 0 ]; then _lotos_words '{' '.join(it.name for it in command.verbs)}'; return; fi"
        yield "    case ${given[0]} in"
        for verb in command.verbs:
            yield f"        {verb.name})"
            yield from _bash_words(verb.words, verb.with_values, 1, " " * 12)
            yield "            ;;"
        yield "    esac"
    else:
        yield from _bash_words(command.words, command.with_values, 0, " " * 4)
    yield "}"


def _bash_value(option: Option) -> str:
    """What completes the value of an option."""
    return f"_lotos_words '{' '.join(option.choices)}'" if option.choices else _bash_kind(option.kind)


def _bash_kind(kind: Kind) -> str:
    if kind.patterns is None:
        return ":"
    return " ".join(["_lotos_files", *(f"'{it}'" for it in kind.patterns)])


def _bash_words(words: Sequence[Word], with_values: bool, before: int, indent: str) -> Iterator[str]:
    """What completes the words behind so many others, by their number."""
    yield f"{indent}case ${{#given[@]}} in"
    for place, word in enumerate(words):
        pattern = "*" if word.repeated else str(before + place)
        behind = "; _lotos_with" if with_values and _can_end(words, place) else ""
        yield f"{indent}    {pattern}) {_bash_kind(word.kind)}{behind} ;;"
    if with_values and not (words and words[-1].repeated):
        yield f"{indent}    {before + len(words)}) _lotos_with ;;"
    yield f"{indent}esac"


def _can_end(words: Sequence[Word], place: int) -> bool:
    """Whether the words before this place can be all: a specification stands there, and the rest is optional."""
    return any(it.kind is Kind.SPECIFICATION for it in words[:place]) and all(it.optional for it in words[place:])


def zsh_file(commands: Sequence[Command]) -> str:
    """The file for zsh."""
    lines = [ZSH_HEAD.format(names=" ".join(it.name for it in commands)), "case $service in"]
    for command in commands:
        lines += [f"    {command.name})", *_zsh_command(command), "        ;;"]
    return "\n".join([*lines, "esac"]) + "\n"


def _zsh_command(command: Command) -> Iterator[str]:
    """What completes a command."""
    options = [_zsh_option(it) for it in command.all_options]
    if not command.verbs:
        yield from _zsh_arguments([*options, *_zsh_words(command.words, command.with_values)], " " * 8)
        return
    yield "        local state line"
    verbs = " ".join(f"'{it.name}[{_zsh_text(it.summary)}]'" for it in command.verbs)
    yield from _zsh_arguments([*options, "'1: :->verb'", "'*:: :->rest'"], " " * 8, "-C")
    yield f"        if [[ $state == verb ]]; then _values 'what to do' {verbs}"
    yield "        elif [[ $state == rest ]]; then"
    yield "            case ${words[1]} in"
    for verb in command.verbs:
        yield f"                {verb.name})"
        yield from _zsh_arguments([*options, *_zsh_words(verb.words, verb.with_values)], " " * 20)
        yield "                    ;;"
    yield "            esac"
    yield "        fi"


def _zsh_arguments(arguments: List[str], indent: str, flag: str = "-A '-*'") -> Iterator[str]:
    """A call of `_arguments`, an argument on each line."""
    yield f"{indent}_arguments {flag} \\"
    for place, it in enumerate(arguments):
        yield f"{indent}    {it}" + (" \\" if place + 1 < len(arguments) else "")


def _zsh_text(text: str) -> str:
    """A text for zsh: what it would read as its own is left out."""
    return "".join(it for it in text if it not in "`*'[]").replace(":", "\\:")


def _zsh_option(option: Option) -> str:
    if not option.takes_value:
        return f"'{option.name}[{_zsh_text(option.help)}]'"
    what = f"({' '.join(option.choices)})" if option.choices else _zsh_kind(option.kind)
    return f"'{option.name}[{_zsh_text(option.help)}]:{option.metavar.lower()}:{what}'"


def _zsh_kind(kind: Kind) -> str:
    """The action that completes a word of this kind."""
    if kind.patterns is None:
        return " "
    if not kind.patterns:
        return "_directories"
    return "_files" if kind.patterns == ("*",) else f'_files -g "{_zsh_pattern(kind.patterns)}"'


def _zsh_pattern(patterns: Tuple[str, ...]) -> str:
    ends = [it.partition(".")[2] for it in patterns]
    return f"*.{ends[0]}" if len(ends) == 1 else f"*.({'|'.join(ends)})"


def _zsh_words(words: Sequence[Word], with_values: bool) -> Iterator[str]:
    """The arguments for the words, and for `with` and terms behind them."""
    for place, word in enumerate(words):
        at = "*" if word.repeated else str(place + 1)
        if with_values and _can_end(words, place) and not word.repeated:
            escaped = _zsh_kind(word.kind).replace('"', '\\"')
            yield f"'{at}:{word.kind.called} or with: _alternative \"files:{word.kind.called}:{escaped}\" \"with:terms:(with)\"'"
        else:
            yield f"'{at}:{word.kind.called}:{_zsh_kind(word.kind)}'"
    if with_values and not (words and words[-1].repeated):
        yield "'*:a ground term or with: '"
    elif not words:
        yield "'*: : '"
