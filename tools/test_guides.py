#!/usr/bin/env python3
"""Runs the commands that the README and the guides show, and compares what they print.

usage: python3 tools/test_guides.py [--program FILE] [PAGE ..]

--program FILE: a build of the program; by default that of `dist/`.
PAGE: the pages; by default those of `PAGES`, except for the pages of `NOT_YET`.

A command follows `$ ` in a block of code, and continues below a backslash. The lines after it are
what it prints to standard output, where a line `..` matches any lines. A block of Python is a
command, too, if a block of text follows it. A page's commands run
in their order by bash, in one folder that has the repository's data, cases, docs and tools. Where
`jq` isn't installed, the commands that end in it are passed over.

Statuses: 0 each command printed what its page has, 1 one didn't, 2 these words can't be followed.
"""
from __future__ import annotations

import os
import re
import shlex
import shutil
import subprocess
import sys
import tempfile
from dataclasses import dataclass
from typing import Optional

from help_texts import PROGRAM_OF_DIST, TOP
from installed import pass_over
from script_words import ScriptWords

PAGES = (
    "README.md",
    "docs/tutorial.md",
    "docs/explanation/borders.md",
    "docs/explanation/certificates.md",
    "docs/how-to/auditor.md",
    "docs/how-to/gis.md",
    "docs/how-to/many_processors.md",
    "docs/how-to/plan_desk.md",
    "docs/how-to/projections.md",
    "docs/how-to/python.md",
    "docs/reference/commands.md",
)
# Pages whose commands the program of `dist/` can't run yet. By default they are passed over.
NOT_YET: frozenset[str] = frozenset()
FOLDERS = ("cases", "data", "docs", "tools")
BLOCK = re.compile(r"^```\w*\n(.*?)^```$", re.MULTILINE | re.DOTALL)
PYTHON = re.compile(r"^```python\n(.*?)^```\n\n```text\n(.*?)^```$", re.MULTILINE | re.DOTALL)
COMMAND = re.compile(r"^\$ ((?:.*\\\n)*.*)\n", re.MULTILINE)


@dataclass(frozen=True)
class Shown:
    """A command of a page, and the text that the page says it prints."""

    command: str
    output: str


def shown_in(page: str) -> list[Shown]:
    """Returns the commands that the text `page` shows, in their order, and then its Python."""
    found: list[Shown] = []
    for block in BLOCK.findall(page):
        pieces = COMMAND.split(block)
        found += [Shown(*pair) for pair in zip(pieces[1::2], pieces[2::2])]
    found += [Shown(f"python3 -c {shlex.quote(code)}", text) for code, text in PYTHON.findall(page)]
    return found


def is_as_shown(text: str, output: str) -> bool:
    """Returns whether `text` is `output`, whose lines `..` stand for any lines."""
    lines = (
        r"(?:.*\n)*" if line == ".." else re.escape(line) + r"\n" for line in output.splitlines()
    )
    return re.fullmatch("".join(lines), text) is not None


def make_room(room: str, program: str) -> dict[str, str]:
    """Links what a page needs into the folder `room`, and returns the environment of a command."""
    for folder in FOLDERS:
        os.symlink(os.path.join(TOP, folder), os.path.join(room, folder))
    os.mkdir(os.path.join(room, "bin"))
    os.symlink(program, os.path.join(room, "bin", "countygroups"))
    path, package = f"{room}/bin:{os.environ['PATH']}", os.path.join(TOP, "python")
    more = {"PATH": path, "LC_ALL": "C.UTF-8", "COUNTYGROUPS": program, "PYTHONPATH": package}
    return {**os.environ, **more}


def wrong_in(page: str, program: str) -> tuple[int, list[str]]:
    """Returns how many commands `page` shows, and for each that prints another text a report."""
    with open(os.path.join(TOP, page), encoding="utf-8") as file:
        commands = shown_in(file.read())
    wrong: list[str] = []
    with tempfile.TemporaryDirectory(prefix="test-guides-") as room:
        how = make_room(room, program)
        for shown in commands:
            if "| jq " in shown.command and shutil.which("jq") is None:
                pass_over(f"a command of {page}: there is no `jq`, Debian has it as the package jq")
                continue
            words = ["bash", "-c", shown.command]
            ran = subprocess.run(words, cwd=room, env=how, capture_output=True, check=False)
            text, errors = ran.stdout.decode("utf-8"), ran.stderr.decode("utf-8", "replace")
            if not is_as_shown(text, shown.output):
                said = f"$ {shown.command}\n{text[:2000]}{errors[:1000]}"
                wrong.append(f"{page}: this prints another text than the page has:\n{said}")
    return len(commands), wrong


def main(words: Optional[list[str]] = None) -> int:
    """Runs the commands of the pages, and returns the status to end with."""
    parser = ScriptWords(__doc__)
    parser.add_argument("--program", default=PROGRAM_OF_DIST, metavar="FILE")
    parser.add_argument("pages", nargs="*", metavar="PAGE")
    asked = parser.parse_args(words)
    failed = 0
    for page in asked.pages or [one for one in PAGES if one not in NOT_YET]:
        number, wrong = wrong_in(page, os.path.abspath(asked.program))
        for report in wrong:
            print(report, file=sys.stderr)
        print(f"{page}: {number} commands, {len(wrong)} wrong")
        failed += len(wrong) + (number == 0)
    return 1 if failed else 0


if __name__ == "__main__":
    sys.exit(main())
