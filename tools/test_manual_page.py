#!/usr/bin/env python3
"""Tests that the man page `docs/countygroups.1` has the words of a program's help.

usage: python3 tools/test_manual_page.py [--program FILE]

--program FILE: a build of the program; by default that of `dist/`.

The page has to be the one that `tools/manual_page.py` makes of what the program says. Then `man`
shows the page, and each word of the help texts has to stand there, in the same order. If `man` or
`groff` isn't installed, that is said, and the page isn't shown.
"""
from __future__ import annotations

import os
import re
import subprocess

import help_texts
import manual_page
from help_texts import Help
from installed import program_there
from tested_program import OverHelp, run_tests

# The columns of the shown page: its lines are so long that no word is cut.
COLUMNS = "2000"


def plain(text: str) -> str:
    """Returns `text` without backticks, asterisks and angle brackets, and with single blanks."""
    return re.sub(r"\s+", " ", re.sub(r"[`*<>]", "", text)).strip()


def shown_page() -> tuple[str, str]:
    """Returns the page as `man` shows it, without layout, and what `man` complains of.

    Raises `NotThere` if `man` or `groff` isn't installed.
    """
    program_there("man")
    program_there("groff")
    how = {**os.environ, "LC_ALL": "C.UTF-8", "MANWIDTH": COLUMNS, "MANOPT": ""}
    words = ["man", "--warnings", "--no-hyphenation", "-l", manual_page.PAGE]
    ran = subprocess.run(words, env=how, capture_output=True, text=True, check=True)
    return plain(ran.stdout), ran.stderr


def parts_of(of: Help) -> list[str]:
    """Returns the texts that the page has to have of a help text, each without layout."""
    options = [option.text for option in of.options]
    blocks = ["\n".join(block.lines) for block in [*of.description, *of.blocks]]
    return [plain(text) for text in [*of.usages, *options, *blocks]]


class TestPage(OverHelp):
    """The page as it is stored, and as it is shown."""

    def test_it_is_the_page_of_the_program(self) -> None:
        """The stored page is made of what the program says."""
        with open(manual_page.PAGE, encoding="utf-8") as file:
            page = file.read()
        self.assertEqual(page, manual_page.page_of(self.help), "run tools/manual_page.py")

    def test_it_has_the_words_of_the_help(self) -> None:
        """Every text of `--help` stands in the page that `man` shows, without a complaint."""
        page, complaints = shown_page()
        self.assertEqual(complaints, "")
        helps = [self.help.top, *(of for _, of in self.help.commands)]
        for of in helps:
            for text in parts_of(of):
                with self.subTest(usage=of.usages[0], text=text):
                    self.assertIn(text, page)

    def test_each_command_has_its_part(self) -> None:
        """Behind the name and the first line of each command its own options follow."""
        page, _ = shown_page()
        common = help_texts.common_options(self.help)
        end = page.index(" COMMANDS ")
        for name, of in self.help.commands:
            start = page.index(f" {name} {plain(of.about)}. ", end)
            for option in of.options:
                if option not in common:
                    text = plain(f"--{option.long} {option.value or ''} {option.text}")
                    end = page.index(f" {text} ", start)
                    start = end


if __name__ == "__main__":
    run_tests(__doc__)
