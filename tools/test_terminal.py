#!/usr/bin/env python3
"""Tests what the program says at a terminal: of words that are no command, and behind an answer.

usage: python3 tools/test_terminal.py [--program FILE]

--program FILE: a build of the program; by default that of `dist/`.

Standard output has the text of the error, wherever it leads. Standard error has the error's lines
too, since a program may keep standard output to itself. If standard output is a terminal, standard
error leaves them out, so that nobody reads them twice. Behind an answer standard error then has the
groups with the names of their counties, and the findings of an audit by kind. The terminals are
pseudo terminals.
"""
from __future__ import annotations

import os
import pty
import subprocess
import tempfile
import unittest
from typing import NamedTuple

from tested_program import TESTED, run_tests

WRONG_WORDS = (
    ["size", "--segmnt", "seg"],
    ["size", "--geo", "g"],
    ["solv"],
    ["check", "--chamber", "0"],
    ["size", "--geo", "g", "--segment", "s", "--chamber", "x"],
)
MOST_SECONDS = 120


class Said(NamedTuple):
    """What a run wrote to standard output and to standard error, and its status.

    If both are one terminal, `output` has what both wrote.
    """

    output: str
    error: str
    status: int


def read_all(terminal: int) -> str:
    """Returns what is written to a terminal until nobody has it open, and closes it."""
    text = b""
    try:
        piece = os.read(terminal, 65_536)
        while piece:
            text += piece
            piece = os.read(terminal, 65_536)
    except OSError:
        # (Linux ends a terminal that nobody has open any more by an error)
        pass
    os.close(terminal)
    return text.replace(b"\r\n", b"\n").decode()


def run_at(words: list[str], at_terminal: str) -> Said:
    """Runs the program with `output`, `error`, `both` or `none` of its outputs at one terminal."""
    ours, theirs = pty.openpty()
    with tempfile.TemporaryFile() as out, tempfile.TemporaryFile() as err:
        run = subprocess.Popen(
            [TESTED.program, *words],
            stdin=subprocess.DEVNULL,
            stdout=theirs if at_terminal in ("output", "both") else out,
            stderr=theirs if at_terminal in ("error", "both") else err,
        )
        os.close(theirs)
        shown = read_all(ours)
        status = run.wait(MOST_SECONDS)
        output, error = (os.pread(it.fileno(), 1 << 20, 0).decode() for it in (out, err))
    if at_terminal == "error":
        return Said(output, shown, status)
    return Said(output + shown, error, status)


def error_lines(text: str) -> list[str]:
    """Returns the lines of an error of the words: those up to a blank one, and the tip."""
    error, _, rest = text.partition("\n\n")
    tips = [line.strip() for line in rest.splitlines() if line.startswith("  tip: ")]
    return [line.strip() for line in error.splitlines()] + tips


class WrongWords(unittest.TestCase):
    """Words that are no command."""

    def test_no_terminal(self) -> None:
        """Both outputs have the lines of the error."""
        for words in WRONG_WORDS:
            with self.subTest(words=words):
                said = run_at(words, "none")
                self.assertEqual(said.status, 2)
                self.assertGreater(len(error_lines(said.output)), 0)
                for line in error_lines(said.output):
                    self.assertIn(line, said.error)

    def test_output_to_a_file(self) -> None:
        """Standard error has the lines, if it alone is a terminal."""
        for words in WRONG_WORDS:
            with self.subTest(words=words):
                told = run_at(words, "none").error
                self.assertEqual(run_at(words, "error").error, told)

    def test_output_to_a_terminal(self) -> None:
        """Standard output has the same text and status, and standard error leaves the lines out."""
        for words in WRONG_WORDS:
            with self.subTest(words=words):
                piped, said = run_at(words, "none"), run_at(words, "output")
                self.assertEqual((said.output, said.status), (piped.output, piped.status))
                for line in error_lines(piped.output):
                    self.assertNotIn(line, said.error)
                for line in said.error.splitlines():
                    self.assertTrue(line.startswith("countygroups: "), line)

    def test_one_terminal(self) -> None:
        """Where both outputs are one terminal, each line of the error stands once."""
        for words in WRONG_WORDS:
            with self.subTest(words=words):
                text = run_at(words, "none").output
                said = run_at(words, "both")
                self.assertEqual(said.status, 2)
                for line in error_lines(text):
                    self.assertEqual(said.output.count(line), text.count(line), line)


class OtherTexts(unittest.TestCase):
    """Texts that are the same at a terminal."""

    def test_help_and_refusals(self) -> None:
        """Help, the version, and a run that is refused are told as through pipes."""
        missing = ["size", "--geo", "no/such", "--segment", "no/such", "--chamber", "4"]
        for words in (["--help"], ["solve", "--help"], ["--version"], missing):
            with self.subTest(words=words):
                piped, said = run_at(words, "none"), run_at(words, "output")
                self.assertEqual(said, piped)


NAMES = {"37001": "Alamance County", "37003": "Alexander County", "37007": "Ashe County"}
PEOPLE = {"37001": 100, "37003": 60, "37005": 40, "37007": 200}
BORDERS = (("37001", "37003"), ("37003", "37005"), ("37005", "37007"))
BLOCKS = {
    "370010001001000": 100,
    "370030001001000": 60,
    "370050001001000": 40,
    "370070001001000": 101,
    "370070001001001": 99,
}
GROUPING = "1|37001\n2|37007\n1|37003|37005\n"
# District 1 has a block in two groups, and district 2 has too few people.
PLAN = (
    "370010001001000|1\n370030001001000|1\n370050001001000|2\n"
    "370070001001000|3\n370070001001001|4\n"
)
GROUPS = [
    "countygroups: group 1 seats 1 people 100: Alamance County",
    "countygroups: group 2 seats 2 people 200: Ashe County",
    "countygroups: group 3 seats 1 people 100: Alexander County, 37005",
]


def header_line(number: int, level: str, code: str, name: str) -> str:
    """Returns a line of a geographic header: its record's number, its level, and its codes."""
    fields = [""] * 88
    fields[2], fields[4], fields[7], fields[9] = level, "00", str(number), code
    fields[12], fields[14], fields[87] = code[:2], code[2:5], name
    return "|".join(fields) + "\n"


def write_files(folder: str) -> None:
    """Writes the census files, the border list, a grouping and a plan of four counties."""
    areas = [("050", code, people) for code, people in PEOPLE.items()]
    areas += [("750", code, people) for code, people in BLOCKS.items()]
    geo = [
        header_line(i, level, code, NAMES.get(code, "")) for i, (level, code, _) in enumerate(areas)
    ]
    segment = [f"||||{i}|{people}\n" for i, (_, _, people) in enumerate(areas)]
    borders = "".join(f"A|{one}|B|{other}|1\n" for one, other in BORDERS)
    borders = "County Name|County GEOID|Neighbor Name|Neighbor GEOID|Length\n" + borders
    files = {
        "geo": "".join(geo),
        "segment": "".join(segment),
        "borders": borders,
        "grouping": GROUPING,
        "plan": PLAN,
    }
    for name, text in files.items():
        with open(f"{folder}/{name}", "w", encoding="utf-8") as file:
            file.write(text)


class Names(unittest.TestCase):
    """The names of counties behind an answer."""

    def setUp(self) -> None:
        room = tempfile.TemporaryDirectory(prefix="test-terminal-")
        self.addCleanup(room.cleanup)
        self.room = room.name
        write_files(self.room)
        self.problem = [
            "--geo",
            f"{self.room}/geo",
            "--segment",
            f"{self.room}/segment",
            "--chamber",
            "4",
            "--adjacency",
            f"{self.room}/borders",
        ]

    def told_at(self, *words: str) -> list[str]:
        """Returns the lines on standard error of a run at a terminal.

        Its answer and its status are those of a run through pipes, which tells fewer lines.
        """
        command = [words[0], *self.problem, *words[1:]]
        piped, said = run_at(command, "none"), run_at(command, "output")
        self.assertEqual((said.output, said.status), (piped.output, piped.status))
        told, less = said.error.splitlines(), piped.error.splitlines()
        self.assertEqual([line for line in told if line in less], less)
        return [line for line in told if line not in less]

    def test_reports(self) -> None:
        """The groups of `solve`, `check` and `judge` have names, or codes where none is known."""
        certificate = ["--certificate", f"{self.room}/certificate"]
        self.assertEqual(self.told_at("solve", *certificate), GROUPS)
        self.assertEqual(self.told_at("check", *certificate), GROUPS)
        self.assertEqual(self.told_at("judge", "--grouping", f"{self.room}/grouping"), GROUPS)

    def test_list(self) -> None:
        """The groups of a listing have names, below the listing's own headings."""
        certificate = ["--certificate", f"{self.room}/certificate"]
        self.told_at("solve", *certificate)
        told = self.told_at("list", *certificate)
        self.assertEqual(told[0], "countygroups: shared groups 3")
        bare = [
            line.replace(" 1 seats", " seats")
            .replace(" 2 seats", " seats")
            .replace(" 3 seats", " seats")
            for line in GROUPS
        ]
        self.assertEqual(sorted(told[1:]), sorted(bare))

    def test_findings(self) -> None:
        """Findings are told by kind, with the counties of each set that they name."""
        plan = ["--grouping", f"{self.room}/grouping", "--assignments", f"{self.room}/plan"]
        told = self.told_at("audit", *plan)
        self.assertEqual(
            told,
            [
                "countygroups: 1 pair of sets has a district in common",
                "countygroups: 1 set has another number of districts than seats",
                "countygroups: 2 districts have too many or too few people",
                "countygroups: group 1: Alamance County",
                "countygroups: group 3: Alexander County, 37005",
            ],
        )

    def test_refusals(self) -> None:
        """A run that is refused tells the same as through pipes."""
        self.assertEqual(self.told_at("judge", "--grouping", f"{self.room}/missing"), [])


if __name__ == "__main__":
    run_tests(__doc__)
