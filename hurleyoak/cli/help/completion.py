"""Prints the completions: `python3 -m hurleyoak.cli.help.completion bash` or `.. zsh`."""
from __future__ import annotations

import sys

from ..table import Command, all_commands
from ..table.shape import Kind, Option, file


OUTPUT = file("--output", "writes what is printed to a file", "-o")


def options_of(page: Command) -> tuple[Option, ...]:
    """The options of a command, and `-o`, which every command takes that writes no file otherwise."""
    return page.options if page.writes else (*page.options, OUTPUT)


def option_words(page: Command) -> list[str]:
    """The options of a command, without their values."""
    return [option.short or option.name for option in options_of(page)]


def bash() -> str:
    """For bash: words of commands, options of each, and files."""
    pages = all_commands()
    cases = "\n".join(
        f"        {page.word}) options='{' '.join([*option_words(page), '--help'])}' ;;"
        for page in pages
        if page.files or page.options
    )
    words = " ".join(page.word for page in pages)
    return f"""# Completion of pop for bash; made from the help by `make texts`.
_pop() {{
    local word=${{COMP_WORDS[COMP_CWORD]}} options=
    local words='{words}'
    COMPREPLY=()
    if [ "$COMP_CWORD" -eq 1 ] || [ "${{COMP_WORDS[1]}}" = help ]; then
        mapfile -t COMPREPLY < <(compgen -W "$words" -- "$word")
        return
    fi
    case ${{COMP_WORDS[1]}} in
{cases}
    esac
    case $word in -*) mapfile -t COMPREPLY < <(compgen -W "$options" -- "$word") ;; esac
}}
complete -o default -F _pop pop
"""


def quoted(text: str) -> str:
    """A text in single quotes."""
    return "'" + text.replace("'", "'\\''") + "'"


def _zsh_option(option: Option) -> str:
    """An option for zsh; where its value is a file, files are its values, and words where it is one of some."""
    values = "_files" if option.kind is Kind.FILE else f"({' '.join(option.choices)})" if option.choices else ""
    told = option.told.replace("[", "(").replace("]", ")").replace(":", ",")
    return quoted(f"{option.short or option.name}[{told}]" + (f":{option.metavar}:{values}" if option.metavar else ""))


def zsh() -> str:
    """For zsh: the same, with what each command does."""
    pages = all_commands()
    words = "\n".join(f"        {quoted(page.word.replace(':', chr(92) + ':') + ':' + page.short)}" for page in pages)
    cases = []
    for page in pages:
        if page.files or page.options:
            options = " ".join(map(_zsh_option, options_of(page)))
            cases.append(
                f"        {page.word}) _arguments {options + ' ' if options else ''}'--help[the help page]' "
                "'*:file:_files' ;;"
            )
    joined = "\n".join(cases)
    return f"""#compdef pop
# Completion of pop for zsh; made from the help by `make texts`.
_pop() {{
    local -a commands
    commands=(
{words}
    )
    if (( CURRENT == 2 )) || [[ ${{words[2]}} == help ]]; then
        _describe command commands
        return
    fi
    local command=${{words[2]}}
    shift words
    (( CURRENT-- ))
    case $command in
{joined}
    esac
}}
_pop "$@"
"""


if __name__ == "__main__":
    print(bash() if sys.argv[1:] == ["bash"] else zsh(), end="")
