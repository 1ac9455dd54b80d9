"""Tests of `help_texts.py`. The help texts are written here, and need no program.

usage: python3 tools/test_help_texts.py
"""
from __future__ import annotations

import unittest

import help_texts
from help_texts import Block, Help, Option
from refusal import Refused

SHORT = """\
Weighs fruit

Usage: scales weigh --fruit <FILE> --unit <NAME>
           [OPTIONS]
       scales weigh --all [OPTIONS]

Options:
  -h, --help  Print help (see more with '--help')

Problem:
      --fruit <FILE>  The fruit
      --unit <NAME>   The unit [default: g]
"""
LONG = """\
Weighs fruit.

It needs scales.

Usage: scales weigh --fruit <FILE> --unit <NAME>
           [OPTIONS]
       scales weigh --all [OPTIONS]

Options:
  -h, --help
          Print help (see a summary with '-h')

Problem:
      --fruit <FILE>
          The fruit, of which each line
          has one.

      --unit <NAME>
          The unit, as --fruit has it.
          \n\
          [default: g]

Weights are rounded
to whole units.

Example:
  scales weigh --fruit basket

Exit status:
  0  the weight
"""
COMMANDS = """\
Commands:
  weigh  Weighs fruit
  count  Counts fruit

"""


class TestHelp(unittest.TestCase):
    """What is read of `-h` and `--help`."""

    help: Help

    def setUp(self) -> None:
        self.help = help_texts.read_help(SHORT, LONG)

    def test_description(self) -> None:
        """The first line is that of `-h`, and the paragraphs are those of `--help`."""
        self.assertEqual(self.help.about, "Weighs fruit")
        wanted = (Block("", ("Weighs fruit.",)), Block("", ("It needs scales.",)))
        self.assertEqual(self.help.description, wanted)

    def test_usages(self) -> None:
        """A usage that goes on in another line is one line, and each form stands alone."""
        wanted = (
            "scales weigh --fruit <FILE> --unit <NAME> [OPTIONS]",
            "scales weigh --all [OPTIONS]",
        )
        self.assertEqual(self.help.usages, wanted)

    def test_groups(self) -> None:
        """The options stand under their headings, with both texts and their default."""
        told = [(group.heading, group.options) for group in self.help.groups]
        end = "Print help (see a summary with '-h')"
        asked = Option("h", "help", None, "Print help (see more with '--help')", end)
        fruit = Option(None, "fruit", "FILE", "The fruit", "The fruit, of which each line has one.")
        about, text = "The unit [default: g]", "The unit, as --fruit has it. [default: g]"
        unit = Option(None, "unit", "NAME", about, text)
        self.assertEqual(told, [("Options", (asked,)), ("Problem", (fruit, unit))])
        self.assertEqual(self.help.options, (asked, fruit, unit))

    def test_blocks(self) -> None:
        """What follows the options isn't taken for an option or a command."""
        wanted = (
            Block("", ("Weights are rounded", "to whole units.")),
            Block("Example", ("  scales weigh --fruit basket",)),
            Block("Exit status", ("  0  the weight",)),
        )
        self.assertEqual((self.help.commands, self.help.blocks), ((), wanted))

    def test_commands(self) -> None:
        """The list of commands isn't a group of options."""
        texts = [text.replace("Options:\n", f"{COMMANDS}Options:\n") for text in (SHORT, LONG)]
        read = help_texts.read_help(*texts)
        wanted = (("weigh", "Weighs fruit"), ("count", "Counts fruit"))
        self.assertEqual((read.commands, read.groups), (wanted, self.help.groups))


class TestRefusals(unittest.TestCase):
    """Texts that are laid out otherwise, or of which one lacks what the other has."""

    def refuse(self, short: str, long: str, why: str) -> None:
        """Tests that the texts are refused, and that the reason has the words `why`."""
        with self.assertRaisesRegex(Refused, why):
            help_texts.read_help(short, long)

    def test_no_usage(self) -> None:
        """A text without a usage."""
        self.refuse("Weighs fruit\n", LONG, "no usage")

    def test_another_usage(self) -> None:
        """The two usages differ."""
        self.refuse(SHORT, LONG.replace("--all", "--each"), "another usage")

    def test_other_headings(self) -> None:
        """A group has another heading."""
        self.refuse(SHORT, LONG.replace("Problem:", "Input:"), "other headings")

    def test_an_option_of_one_text(self) -> None:
        """An option that only one of the texts has."""
        line = "      --unit <NAME>   The unit [default: g]\n"
        self.refuse(SHORT.replace(line, ""), LONG, "other options under `Problem`")
        more = SHORT.replace(line, f"{line}      --more <NAME>   More\n")
        self.refuse(more, LONG, "lacks the option --more")

    def test_a_line_without_an_option(self) -> None:
        """A line under a heading that names no option, and a text that isn't indented as one."""
        short = SHORT.replace("      --unit <NAME>   The", "      The")
        self.refuse(short, LONG, "no option stands in the line .* of `-h`")
        long = LONG.replace("          has one.", "    has one.")
        self.refuse(SHORT, long, "no option stands in the line .* of `--help`")


if __name__ == "__main__":
    unittest.main(verbosity=0)
