#!/usr/bin/env python3
"""Makes the completions of bash, zsh and fish, in `completions/`, of what `-h` says.

usage: completions.py [--program FILE] [--out FOLDER]

--program FILE: a build of the program; by default that of `dist/`.
--out FOLDER: where the three files are stored; by default `completions/`.

A shell then completes the commands, the options of each, and the names of files behind those
options that take a file. `completions/README.md` says where each shell wants its file. Statuses: 0
the files are stored, 1 what the program says can't be read, 2 these words can't be followed.
"""
from __future__ import annotations

import os
import sys

from help_script import Out, run_script
from help_texts import TOP, Help, Option, ProgramHelp

FOLDER = os.path.join(TOP, "completions")
NOTE = "# Made by tools/completions.py of what the help of {} says."
BASH = """{note}
# Bash 4 or later completes the words of {name} once it has read this file.

_{name}() {{
    local word=${{COMP_WORDS[COMP_CWORD]}} before=${{COMP_WORDS[COMP_CWORD - 1]}}
    local command=${{COMP_WORDS[1]}} options with_file with_value option left=
    local given=" ${{COMP_WORDS[*]:0:COMP_CWORD}} "
    COMPREPLY=()
    # Bash cuts `--geo=FILE` into three words.
    if [ "$word" = "=" ]; then
        word=
    elif [ "$before" = "=" ]; then
        before=${{COMP_WORDS[COMP_CWORD - 2]}}
    fi
    if [ "$COMP_CWORD" -eq 1 ]; then
        mapfile -t COMPREPLY < <(compgen -W "{first}" -- "$word")
        return
    fi
    case $command in
{cases}
        *) return ;;
    esac
    case " $with_file " in
        *" $before "*)
            compopt -o filenames 2>/dev/null
            mapfile -t COMPREPLY < <(compgen -f -- "$word")
            return
            ;;
    esac
    case " $with_value " in *" $before "*) return ;; esac
    # An option may be given once.
    for option in $options; do
        case $given in *" $option "*) ;; *) left+=" $option" ;; esac
    done
    mapfile -t COMPREPLY < <(compgen -W "$left" -- "$word")
}}
complete -F _{name} {name}
"""
BASH_CASE = """        {command})
            options="{options}"
            with_file="{with_file}"
            with_value="{with_value}"
            ;;"""
ZSH = """#compdef {name}
{note}

_{name}() {{
    local context state state_descr line
    local -A opt_args
    _arguments -C \\
{top} \\
        '1:command:->command' \\
        '*::argument:->argument'
    case $state in
        command)
            local -a commands=(
{commands}
            )
            _describe command commands
            ;;
        argument)
            case $words[1] in
{cases}
            esac
            ;;
    esac
}}

if [ "$funcstack[1]" = _{name} ]; then
    _{name} "$@"
else
    compdef _{name} {name}
fi
"""
ZSH_CASE = """                {command})
                    _arguments \\
{options}
                    ;;"""


def names_of(option: Option) -> list[str]:
    """Returns the names of `option` as they are typed, the short one first."""
    short = [f"-{option.short}"] if option.short else []
    return [*short, f"--{option.long}"]


def all_names(options: tuple[Option, ...]) -> str:
    """Returns the names of `options` with blanks between."""
    return " ".join(name for option in options for name in names_of(option))


def bash_case(command: str, of: Help) -> str:
    """Returns what bash has to know of `command`."""
    with_file = tuple(option for option in of.options if option.takes_file)
    with_value = tuple(option for option in of.options if option.value and not option.takes_file)
    return BASH_CASE.format(
        command=command,
        options=all_names(of.options),
        with_file=all_names(with_file),
        with_value=all_names(with_value),
    )


def bash_text(program: ProgramHelp) -> str:
    """Returns the completions of bash."""
    commands = " ".join(name for name, _ in program.commands)
    return BASH.format(
        note=NOTE.format(program.name),
        name=program.name,
        first=f"{commands} {all_names(program.top.options)}",
        cases="\n".join(bash_case(name, of) for name, of in program.commands),
    )


def zsh_quoted(text: str, also: str) -> str:
    """Returns `text` for a word of zsh in single quotes, with the letters of `also` escaped."""
    for letter in "\\" + also:
        text = text.replace(letter, "\\" + letter)
    return text.replace("'", "'\\''")


def zsh_option(option: Option) -> str:
    """Returns the word by which `_arguments` of zsh knows `option`."""
    names = names_of(option)
    about = zsh_quoted(option.about, "[]:")
    if option.value:
        action = "_files" if option.takes_file else " "
        return f"'--{option.long}=[{about}]:{option.value}:{action}'"
    if len(names) == 1:
        return f"'{names[0]}[{about}]'"
    return f"'(- *)'{{{','.join(names)}}}'[{about}]'"


def zsh_options(options: tuple[Option, ...], indent: int) -> str:
    """Returns the words of `options`, each on a line of its own."""
    return " \\\n".join(" " * indent + zsh_option(option) for option in options)


def zsh_text(program: ProgramHelp) -> str:
    """Returns the completions of zsh."""
    described = (f"'{name}:{zsh_quoted(about, ':')}'" for name, about in program.top.commands)
    cases = (
        ZSH_CASE.format(command=name, options=zsh_options(of.options, 24))
        for name, of in program.commands
    )
    return ZSH.format(
        note=NOTE.format(program.name),
        name=program.name,
        top=zsh_options(program.top.options, 8),
        commands="\n".join(" " * 16 + line for line in described),
        cases="\n".join(cases),
    )


def fish_quoted(text: str) -> str:
    """Returns `text` as a word of fish in single quotes."""
    escaped = text.replace("\\", "\\\\").replace("'", "\\'")
    return f"'{escaped}'"


def fish_option(program: str, condition: str, option: Option) -> str:
    """Returns the line of fish that tells of `option`, where `condition` holds."""
    short = f" -s {option.short}" if option.short else ""
    value = " -r -F" if option.takes_file else " -x" if option.value else ""
    about = fish_quoted(option.about)
    return f"complete -c {program} -n '{condition}'{short} -l {option.long}{value} -d {about}"


def fish_text(program: ProgramHelp) -> str:
    """Returns the completions of fish."""
    name, first = program.name, "__fish_use_subcommand"
    lines = [NOTE.format(name), "", f"complete -c {name} -f"]
    lines += [
        f"complete -c {name} -n {first} -a {command} -d {fish_quoted(about)}"
        for command, about in program.top.commands
    ]
    lines += [fish_option(name, first, option) for option in program.top.options]
    for command, of in program.commands:
        condition = f"__fish_seen_subcommand_from {command}"
        lines += ["", *(fish_option(name, condition, option) for option in of.options)]
    return "\n".join(lines) + "\n"


def texts_of(program: ProgramHelp) -> dict[str, str]:
    """Returns the text of each file of completions, by its name."""
    return {
        f"{program.name}.bash": bash_text(program),
        f"_{program.name}": zsh_text(program),
        f"{program.name}.fish": fish_text(program),
    }


def store(program: ProgramHelp, folder: str) -> None:
    """Stores the files of completions of `program` in `folder`, which is made if it isn't there."""
    os.makedirs(folder, exist_ok=True)
    for name, text in texts_of(program).items():
        with open(os.path.join(folder, name), "w", encoding="utf-8") as file:
            file.write(text)


if __name__ == "__main__":
    sys.exit(run_script(__doc__, Out(FOLDER, "FOLDER"), store))
