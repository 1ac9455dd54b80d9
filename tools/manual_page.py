#!/usr/bin/env python3
"""Makes the man page of a built program, `docs/countygroups.1`, of what its help says.

usage: manual_page.py [--program FILE] [--out FILE]

--program FILE: a build of the program; by default that of `dist/`.
--out FILE: where the page is stored; by default `docs/countygroups.1`.

`man -l docs/countygroups.1` shows the page. Statuses: 0 the page is stored, 1 what the program says
can't be read, 2 these words can't be followed.
"""
from __future__ import annotations

import os
import re
import sys
from typing import Sequence

import help_texts
from help_script import Out, run_script
from help_texts import Block, Group, Help, Option, ProgramHelp

PAGE = os.path.join(help_texts.TOP, "docs", "countygroups.1")
# What stands out in a text: words between backticks, options, names of values, and words between
# asterisks.
MARKED = re.compile(r"`([^`]+)`|(--[a-z][a-z-]*)|\b(FILE|PART/OF|PART|OF)\b|\*(\w+)\*")
STATUS = re.compile(r"\s{2}(\d+)\s{2}(\S.*)")


def escaped(text: str) -> str:
    """Returns `text` with the letters that roff would take as its own."""
    text = text.replace("\\", "\\e").replace("-", "\\-")
    return text.replace("`", "\\(ga").replace("'", "\\(aq").replace("^", "\\(ha")


def marked(text: str) -> str:
    """Returns `text` for roff: what is typed is bold.

    What stands for a value is italic, and so is a word between asterisks.
    """
    pieces: list[str] = []
    end = 0
    for found in MARKED.finditer(text):
        quoted, option, value, stressed = found.groups()
        pieces.append(escaped(text[end : found.start()]))
        font = "I" if value or stressed else "B"
        pieces.append(f"\\f{font}{escaped(quoted or option or value or stressed)}\\fR")
        end = found.end()
    pieces.append(escaped(text[end:]))
    line = "".join(pieces)
    return "\\&" + line if line.startswith(".") else line


def usage_lines(usage: str) -> list[str]:
    """Returns the lines of a `usage`, as `countygroups size --geo <FILE> [OPTIONS]`.

    Its first word is the program, and the second the command or what stands for it.
    """
    program, *words = usage.split(" ")
    pieces: list[str] = []
    for word in words:
        value = re.fullmatch(r"<(\w+)>", word)
        if value:
            pieces.append(f"\\fI{value.group(1)}\\fR")
        elif word.startswith("["):
            pieces.append(f"[\\fI{escaped(word[1:-1])}\\fR]")
        else:
            pieces.append(f"\\fB{escaped(word)}\\fR")
    return [f".SY {escaped(program)}", " ".join(pieces), ".YS"]


def all_usage_lines(of: Help) -> list[str]:
    """Returns the lines of each form of the usage in the help `of` the program or a command."""
    return [line for usage in of.usages for line in usage_lines(usage)]


def option_lines(option: Option) -> list[str]:
    """Returns the lines that tell of `option`."""
    names = [f"\\fB\\-{option.short}\\fR"] if option.short else []
    value = f" \\fI{option.value}\\fR" if option.value else ""
    names.append(f"\\fB\\-\\-{escaped(option.long)}\\fR{value}")
    return [".TP", ", ".join(names), marked(option.text)]


def group_lines(group: Group, options: Sequence[Option]) -> list[str]:
    """Returns the lines of those options of `group` that are among `options`, with its heading.

    The options that stand under the heading `Options`, such as `--help`, have no heading.
    """
    shown = [option for option in group.options if option in options]
    is_headed = bool(shown) and group.heading != "Options"
    written = [".PP", f"{marked(group.heading)}:"] if is_headed else []
    return written + [line for option in shown for line in option_lines(option)]


def all_group_lines(of: Help, options: Sequence[Option]) -> list[str]:
    """Returns the lines of those `options` that the help `of` the program or a command has."""
    return [line for group in of.groups for line in group_lines(group, options)]


def status_lines(lines: tuple[str, ...]) -> list[str]:
    """Returns the lines of a list of exit statuses. A line without a number goes on."""
    written: list[str] = [".PD 0"]
    for line in lines:
        found = STATUS.fullmatch(line)
        if found:
            written += [".TP", f"\\fB{found.group(1)}\\fR", marked(found.group(2))]
        else:
            written.append(marked(line.strip()))
    return [*written, ".PD"]


def example_lines(lines: tuple[str, ...]) -> list[str]:
    """Returns the lines of an example, which stand as they are."""
    indent = min(len(line) - len(line.lstrip()) for line in lines)
    return [".RS 4", ".EX", *(escaped(line[indent:]) for line in lines), ".EE", ".RE"]


def block_lines(block: Block) -> list[str]:
    """Returns the lines of `block`: statuses, an example under its heading, or a paragraph."""
    if block.heading == "Exit status":
        return [".PP", "Exit status:", *status_lines(block.lines)]
    if block.heading:
        return [".PP", f"{marked(block.heading)}:", ".PP", *example_lines(block.lines)]
    return [".PP", *(marked(line) for line in block.lines)]


def command_lines(name: str, of: Help, common: tuple[Option, ...]) -> list[str]:
    """Returns the part on the command `name`: its usage, its own options and what follows them."""
    own = [option for option in of.options if option not in common]
    written = [f".SS {escaped(name)}", f"{marked(of.about)}.", *all_usage_lines(of)]
    written += all_group_lines(of, own)
    for block in of.blocks:
        written += block_lines(block)
    return written


def head_lines(program: ProgramHelp) -> list[str]:
    """Returns the lines above the commands: the name of `program`, its usage and what it does."""
    top = program.top
    about = top.about[:1].lower() + top.about[1:]
    lines = [
        f'.\\" Made by tools/manual_page.py of what the help of {program.name} says.',
        f'.TH {program.name.upper()} 1 "" "{program.name} {program.version}" "User Commands"',
        ".ad l",
        ".SH NAME",
        f"{program.name} \\- {marked(about)}",
        ".SH SYNOPSIS",
        *all_usage_lines(top),
        ".SH DESCRIPTION",
    ]
    for block in [*top.description, *top.blocks]:
        if block.heading != "Exit status":
            lines += block_lines(block)
    return lines


def page_of(program: ProgramHelp) -> str:
    """Returns the man page of `program`."""
    top, common = program.top, help_texts.common_options(program)
    lines = [*head_lines(program), ".SH COMMANDS"]
    for name, of in program.commands:
        lines += command_lines(name, of, common)
    lines.append(".SH OPTIONS OF ALL COMMANDS")
    lines += all_group_lines(program.commands[0][1], common)
    lines.append(".SH OPTIONS WITHOUT A COMMAND")
    lines += all_group_lines(top, top.options)
    for block in top.blocks:
        if block.heading == "Exit status":
            lines += [".SH EXIT STATUS", *status_lines(block.lines)]
    return "\n".join(lines) + "\n"


def store(program: ProgramHelp, path: str) -> None:
    """Stores the man page of `program` under `path`."""
    page = page_of(program)
    with open(path, "w", encoding="utf-8") as file:
        file.write(page)


if __name__ == "__main__":
    sys.exit(run_script(__doc__, Out(PAGE, "FILE"), store))
