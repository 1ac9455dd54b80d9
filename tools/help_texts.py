"""Reads what a built program says of itself: `-h`, `--help` and `--version`.

The man page (`tools/manual_page.py`) and the completions of shells (`tools/completions.py`) are
made of it. So each word that they have of the program is one that the program prints.
"""
from __future__ import annotations

import os
import re
import subprocess
from dataclasses import dataclass
from itertools import takewhile
from typing import Optional, Sequence

from refusal import Refused

TOP = os.path.dirname(os.path.dirname(os.path.abspath(__file__)))
PROGRAM_OF_DIST = os.path.join(TOP, "dist", "countygroups-x86_64-linux")
# The names of an option and its value, as in `-h` and in `--help`.
NAMES = r"\s{2,6}(?:-(\w), )?--([a-z0-9-]+)(?: <(\w+)>)?"
OPTION_LINE = re.compile(NAMES + r"\s{2,}(\S.*)")
NAMES_LINE = re.compile(NAMES)
COMMAND = re.compile(r"\s+([a-z][a-z0-9-]*)\s{2,}(\S.*)")
VERSION = re.compile(r"(\S+) (\d\S*)\n(?:.*\n)*")
# The heading of the list of commands.
COMMANDS = "Commands"
# How far `--help` indents the text of an option.
TEXT_INDENT = " " * 10


@dataclass(frozen=True)
class Option:
    """An option as the help has it. `value` is None if the option takes no value.

    `about` is its line of `-h`, and `text` its lines of `--help`, joined by blanks. Both end with
    the default, as `[default: 37]`, if the option has one.
    """

    short: Optional[str]
    long: str
    value: Optional[str]
    about: str
    text: str

    @property
    def takes_file(self) -> bool:
        """Returns whether the value is the name of a file."""
        return self.value == "FILE"


@dataclass(frozen=True)
class Group:
    """The options that stand under one heading."""

    heading: str
    options: tuple[Option, ...]


@dataclass(frozen=True)
class Block:
    """Lines of a help text between two blank ones, with their heading or an empty text."""

    heading: str
    lines: tuple[str, ...]


@dataclass(frozen=True)
class Help:
    """The help of the program, or of one of its commands.

    `about` is the first line of `-h`, and `description` what `--help` has above the usage.
    `usages` has each form of the usage as one line. `commands` has the name of each command with
    its first line, and is empty for a command. `blocks` is what stands behind the options.
    """

    about: str
    description: tuple[Block, ...]
    usages: tuple[str, ...]
    commands: tuple[tuple[str, str], ...]
    groups: tuple[Group, ...]
    blocks: tuple[Block, ...]

    @property
    def options(self) -> tuple[Option, ...]:
        """Returns the options of all groups, in their order."""
        return tuple(option for group in self.groups for option in group.options)


@dataclass(frozen=True)
class ProgramHelp:
    """All help texts of a program, and its version as `--version` has it, a number alone."""

    name: str
    version: str
    top: Help
    commands: tuple[tuple[str, Help], ...]


@dataclass(frozen=True)
class Layout:
    """A help text in its parts: blocks above the usage, the usage, and what follows it.

    `sections` has the lines of each list of commands or options, without blank ones, by their
    heading. `rest` has the blocks behind the last list.
    """

    above: tuple[Block, ...]
    usages: tuple[str, ...]
    sections: dict[str, tuple[str, ...]]
    rest: tuple[Block, ...]


def split_blocks(text: str) -> list[list[str]]:
    """Returns the lines of `text` that stand together, without the blank lines between them."""
    pieces = re.split(r"\n(?:[ \t]*\n)+", text.strip("\n"))
    return [piece.split("\n") for piece in pieces if piece]


def read_block(lines: list[str]) -> Block:
    """Returns `lines` as a block. A first line that ends with a colon over indents is a heading."""
    is_headed = lines[0].endswith(":") and all(line.startswith(" ") for line in lines[1:])
    if len(lines) > 1 and is_headed:
        return Block(lines[0][:-1], tuple(lines[1:]))
    return Block("", tuple(lines))


def read_blocks(text: str) -> tuple[Block, ...]:
    """Returns the blocks of `text`."""
    return tuple(read_block(lines) for lines in split_blocks(text))


def read_usages(lines: Sequence[str]) -> tuple[str, ...]:
    """Returns each form of the usage in `lines` as one line, without the word `Usage:`.

    A line that begins with the program's name, as the first one does, begins a form. The others go
    on with one.
    """
    usages: list[str] = []
    for line in lines:
        words = line.removeprefix("Usage:").split()
        if not usages or words[:1] == usages[0].split()[:1]:
            usages.append(" ".join(words))
        else:
            usages[-1] += " " + " ".join(words)
    return tuple(usages)


def is_listing(part: str) -> bool:
    """Returns whether `part` is a heading over commands or options."""
    lines = part.split("\n")
    first = lines[1] if len(lines) > 1 else ""
    listed = (form.fullmatch(first) for form in (COMMAND, OPTION_LINE, NAMES_LINE))
    return lines[0].endswith(":") and any(listed)


def read_layout(text: str) -> Layout:
    """Returns the parts of the help text `text`. Raises `Refused` where it has no usage."""
    above, found, below = text.partition("\n\nUsage: ")
    if not found:
        raise Refused(f"a help text has no usage behind its first line: {text[:60]!r}")
    usage, _, below = below.partition("\n\n")
    # Each part begins with a line that isn't indented.
    parts = re.split(r"\n(?=\S)", below)
    listings = list(takewhile(is_listing, parts))
    sections: dict[str, tuple[str, ...]] = {}
    for heading, *lines in (listing.split("\n") for listing in listings):
        sections[heading[:-1]] = tuple(line for line in lines if line.strip())
    rest = "\n".join(parts[len(listings) :])
    return Layout(read_blocks(above), read_usages(usage.split("\n")), sections, read_blocks(rest))


def read_command(line: str) -> tuple[str, str]:
    """Returns the name and the first line of the command in `line`, or raises `Refused`."""
    found = COMMAND.fullmatch(line)
    if found is None:
        raise Refused(f"no command stands in the line `{line}`")
    return found.group(1), found.group(2)


def read_texts(lines: Sequence[str]) -> dict[str, str]:
    """Returns the text of each option of a group in `--help`, by the option's long name.

    Raises `Refused` where a line neither names an option nor is indented as its text.
    """
    texts: dict[str, list[str]] = {}
    name = ""
    for line in lines:
        found = NAMES_LINE.fullmatch(line)
        if found:
            name = found.group(2)
            texts[name] = []
        elif line.startswith(TEXT_INDENT) and name:
            texts[name] += line.split()
        else:
            raise Refused(f"no option stands in the line `{line}` of `--help`")
    return {name: " ".join(words) for name, words in texts.items()}


def read_option(line: str, texts: dict[str, str]) -> Option:
    """Returns the option in a `line` of `-h`, with its text of `--help` in `texts`.

    Raises `Refused` where the line has no option, or `texts` doesn't have it.
    """
    found = OPTION_LINE.fullmatch(line)
    if found is None:
        raise Refused(f"no option stands in the line `{line}` of `-h`")
    short, long, value, about = found.groups()
    if long not in texts:
        raise Refused(f"`--help` lacks the option --{long} of `-h`")
    return Option(short, long, value, about, texts[long])


def read_group(heading: str, lines: Sequence[str], texts: dict[str, str]) -> Group:
    """Returns the group of the options in `lines` of `-h`, with their `texts` of `--help`."""
    options = tuple(read_option(line, texts) for line in lines)
    if [option.long for option in options] != list(texts):
        raise Refused(f"`-h` and `--help` have other options under `{heading}`")
    return Group(heading, options)


def read_groups(short: Layout, long: Layout) -> tuple[Group, ...]:
    """Returns the groups of the options in `-h` and `--help`, whose parts are `short` and `long`.

    Raises `Refused` where the two differ in their headings or their options.
    """
    if list(short.sections) != list(long.sections):
        raise Refused("`-h` and `--help` have other headings")
    return tuple(
        read_group(heading, lines, read_texts(long.sections[heading]))
        for heading, lines in short.sections.items()
        if heading != COMMANDS
    )


def read_help(short_text: str, long_text: str) -> Help:
    """Returns what the texts of `-h` and `--help` say.

    Raises `Refused` where one isn't laid out as a help text, or where the two differ in their
    usage, their headings or their options.
    """
    short, long = read_layout(short_text), read_layout(long_text)
    if short.usages != long.usages:
        raise Refused("`-h` and `--help` have another usage")
    about = " ".join(line for block in short.above for line in block.lines)
    commands = tuple(read_command(line) for line in long.sections.get(COMMANDS, ()))
    groups = read_groups(short, long)
    return Help(about, long.above, long.usages, commands, groups, long.rest)


def output_of(program: str, words: list[str]) -> str:
    """Returns what `program` writes with `words`. Raises `Refused` where it fails."""
    try:
        ran = subprocess.run([program, *words], capture_output=True, check=True)
    except (OSError, subprocess.CalledProcessError) as error:
        raise Refused(f"`{program} {' '.join(words)}` can't be run: {error}") from error
    return ran.stdout.decode("utf-8")


def help_of(program: str, words: list[str]) -> Help:
    """Returns the help of `program` behind `words`: none, or the name of a command."""
    return read_help(output_of(program, [*words, "-h"]), output_of(program, [*words, "--help"]))


def read_program(program: str) -> ProgramHelp:
    """Returns all that the file `program` says of itself. Raises `Refused` where it can't."""
    path = os.path.abspath(program)
    version = VERSION.fullmatch(output_of(path, ["--version"]))
    if version is None:
        raise Refused(f"`{program} --version` names no version")
    top = help_of(path, [])
    commands = tuple((name, help_of(path, [name])) for name, _ in top.commands)
    return ProgramHelp(version.group(1), version.group(2), top, commands)


def common_options(program: ProgramHelp) -> tuple[Option, ...]:
    """Returns the options that every command has, with the words and in the order of the first one.

    Another command may have other words for one of them.
    """
    names = [{option.long for option in of.options} for _, of in program.commands]
    first = program.commands[0][1].options
    return tuple(option for option in first if all(option.long in of for of in names))
